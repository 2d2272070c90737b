"""The text form of circuits, which docs/TEXT-FORM.md describes: from text to circuit, and back."""

from __future__ import annotations

import os
from typing import NamedTuple

from .circuits import BITS, FARTHEST, MOST, ZERO, Circuit, Kinds, Link
from .errors import BOARD, PATTERN, Faults

ARROWS = ("->", "<-", "<->")
UTF_16 = (b"\xff\xfe", b"\xfe\xff")  # how such a text begins
WITHIN = "within"
WORDS = ("kind", "node", "package", "use", WITHIN)  # the words of statements, which name nothing
STATEMENTS = "expected 'kind NAME NUMBER', 'package NAME NUMBER', 'use FILE', 'node NAME KIND' or 'NAME -> NAME'"
LINKS = "expected 'NAME -> NAME' or 'NAME -> NAME within NUMBER', names and arrows by turns, with spaces between"


class Drawn(NamedTuple):
    """A link as a line has it: its ends by name, and the word of its bound, if it has one."""

    start: str
    end: str
    bound: str | None


def number_of(word: str) -> int | None:
    """The number that a word stands for, or None."""
    digits, base = (word[2:], 16) if word.lower().startswith("0x") else (word, 10)
    if not digits.isascii() or not digits.isalnum():
        return None
    try:
        return int(digits, base)
    except ValueError:
        return None


def good_name(name: str) -> bool:
    """Whether a word can name a node, a kind or a package."""
    return not set(name) & set("#<>") and name not in WORDS


def words_of(line: str) -> list[str]:
    """The words of a line, without its comment."""
    return line.split("#", 1)[0].split()


def drawn_links(words: list[str]) -> list[Drawn]:
    """The links of the words of a line: NAME ARROW NAME, maybe within NUMBER, and further arrows and names."""
    bounds: dict[int, str] = {}  # the bound of the link before so many words
    rest: list[str] = []
    while words:
        after_name = len(rest) >= 3 and len(rest) % 2 == 1 and len(rest) not in bounds
        if words[0] == WITHIN and len(words) > 1 and after_name:
            bounds[len(rest)], words = words[1], words[2:]
        else:
            rest, words = [*rest, words[0]], words[1:]
    names, arrows = rest[0::2], rest[1::2]
    sound = len(rest) >= 3 and len(rest) % 2 == 1 and all(arrow in ARROWS for arrow in arrows)
    if not sound or any(name == WITHIN or set(name) & set("<>") for name in names):
        raise Faults([LINKS])
    links = []
    for number, (left, arrow, right) in enumerate(zip(names, arrows, names[1:])):
        bound = bounds.get(2 * number + 3)
        if arrow == "<->" and left == right:
            raise Faults([f"a link from '{left}' to itself is written '{left} -> {left}'"])
        if arrow != "<-":
            links.append(Drawn(left, right, bound))
        if arrow != "->":
            links.append(Drawn(right, left, bound))
    return links


class Reader:
    """Reads a text statement by statement, and gathers what is wrong."""

    def __init__(self, name: str, role: str | None = None, folder: str = "") -> None:
        self.name = name
        self.role = PATTERN if role == BITS else role
        self.folder = folder
        self.line = 0
        self.faults: list[tuple[int, str]] = []
        self.registers: dict[str, dict[str, int]] = {"kind": {}, "package": {}}
        self.where: dict[tuple[str, str], str] = {}  # where a kind or a package is named first
        self.nodes: dict[str, tuple[str, str | None, int]] = {}  # kind and package as written, and the line
        self.links: list[tuple[Drawn, int]] = []

    def fault(self, message: str, line: int | None = None) -> None:
        """Notes something wrong, in this line or the one told."""
        at = line or self.line
        self.faults.append((at, f"{self.name}:{at}: {message}"))

    def read(self, text: str) -> None:
        """Reads all lines."""
        for self.line, line in enumerate(text.replace("\r\n", "\n").replace("\r", "\n").split("\n"), 1):
            words = words_of(line)
            if words:
                self.statement(words)

    def statement(self, words: list[str]) -> None:
        """Reads the words of one line."""
        if any(word in ARROWS for word in words):
            self.link_line(words)
        elif words[0] in self.registers:
            self.register_line(words)
        elif words[0] == "use":
            self.use_line(words)
        elif words[0] == "node":
            self.node_line(words)
        elif any(set(word) & set("<>") for word in words):
            self.fault("an arrow is one of ->, <- and <->, with a space on each side")
        else:
            self.fault(f"'{words[0]}' begins no statement: {STATEMENTS}")

    def register_line(self, words: list[str]) -> None:
        """kind NAME NUMBER, or package NAME NUMBER"""
        what = words[0]
        if len(words) != 3:
            return self.fault(f"expected '{what} NAME NUMBER'")
        name, word = words[1:]
        number = number_of(word)
        if name[0].isdigit() or not good_name(name):
            self.fault(f"'{name}' can't name a {what}")
        elif what == "kind" and name in ZERO:
            self.fault(f"'{name}' names kind 0 already")
        elif number is None or number > MOST:
            self.fault(f"'{word}' is not a number from 0 to {MOST}")
        else:
            self.register(what, name, number, f"line {self.line}")
        return None

    def register(self, what: str, name: str, number: int, where: str) -> None:
        """Notes a name for a kind or a package, which has none yet."""
        if name in self.registers[what]:
            self.fault(f"{what} '{name}' is named twice, first in {self.where[what, name]}")
        else:
            self.registers[what][name] = number
            self.where[what, name] = where

    def use_line(self, words: list[str]) -> None:
        """use FILE"""
        if len(words) != 2:
            return self.fault("expected 'use FILE', a file of 'kind' and 'package' lines")
        path = os.path.join(self.folder, words[1])
        try:
            shared = _Register(path)
            shared.read(_loaded(path))
        except OSError as error:
            return self.fault(f"can't use '{words[1]}': {error.strerror}")
        except Faults as faults:
            self.faults += [(self.line, message) for message in faults.messages]
            return None
        self.faults += [(self.line, message) for _, message in shared.faults]
        for what, names in shared.registers.items():
            for name, number in names.items():
                line = shared.where[what, name].replace("line ", "")
                self.register(what, name, number, f"{path}:{line}")
        return None

    def node_line(self, words: list[str]) -> None:
        """node NAME KIND, and maybe PACKAGE"""
        if len(words) not in (3, 4):
            return self.fault("expected 'node NAME KIND' or 'node NAME KIND PACKAGE'")
        name, kind = words[1:3]
        if not good_name(name):
            self.fault(f"'{name}' can't name a node")
        elif name in self.nodes:
            self.fault(f"node '{name}' is named twice, first in line {self.nodes[name][2]}")
        else:
            self.nodes[name] = (kind, words[3] if len(words) == 4 else None, self.line)
        return None

    def link_line(self, words: list[str]) -> None:
        """NAME ARROW NAME, maybe within NUMBER, and further arrows and names"""
        try:
            self.links += [(link, self.line) for link in drawn_links(words)]
        except Faults as faults:
            self.fault(str(faults))

    def bound_number(self, word: str | None, line: int) -> int:
        """The number of a link's bound, 1 if it has none."""
        number = 1 if word is None else number_of(word)
        if word is not None and self.role == BOARD:
            self.fault("'within' is for a pattern, and this is a board", line)
        elif number is None or not 1 <= number <= FARTHEST:
            self.fault(f"'{word}' is not a number from 1 to {FARTHEST}", line)
        else:
            return number
        return 1

    def register_number(self, what: str, word: str, line: int) -> int:
        """The number of a kind or a package, told by that number or by a name."""
        number = number_of(word)
        if number is None and word in self.registers[what]:
            return self.registers[what][word]
        if number is None:
            self.fault(f"no {what} is named '{word}'", line)
        elif number > MOST:
            self.fault(f"'{word}' is not a number from 0 to {MOST}", line)
        else:
            return number
        return 0

    def kind_number(self, name: str) -> int:
        """The number of a node's kind."""
        word, _, line = self.nodes[name]
        if word not in ZERO:
            return self.register_number("kind", word, line)
        if self.role not in (None, ZERO[word]):
            self.fault(f"'{word}' is for a {ZERO[word]}, and this is a {self.role}", line)
        return 0

    def package_number(self, name: str) -> int:
        """The number of a node's package, 0 if it has none."""
        _, word, line = self.nodes[name]
        return 0 if word is None else self.register_number("package", word, line)

    def numbered_links(self) -> dict[Link, int]:
        """The links by the numbers of their nodes, and their bounds."""
        numbers = {name: number for number, name in enumerate(self.nodes)}
        lines: dict[Link, int] = {}
        bounds: dict[Link, int] = {}
        for (start, end, word), line in self.links:
            unknown = [name for name in dict.fromkeys((start, end)) if name not in numbers]
            for name in unknown:
                self.fault(f"no node is named '{name}'", line)
            if unknown:
                continue
            link = (numbers[start], numbers[end])
            if link in lines:
                self.fault(f"link '{start} -> {end}' stands twice, first in line {lines[link]}", line)
            lines.setdefault(link, line)
            bounds.setdefault(link, self.bound_number(word, line))
        return bounds

    def circuit(self) -> Circuit:
        """The circuit of all that was read."""
        kinds = [self.kind_number(name) for name in self.nodes]
        packages = [self.package_number(name) for name in self.nodes]
        packed = any(package is not None for _, package, _ in self.nodes.values())
        links = self.numbered_links()
        bounded = any(link.bound is not None for link, _ in self.links)
        for what, count in (("nodes", len(kinds)), ("links", len(links))):
            if count > MOST:
                self.fault(f"{count} {what}, and a file holds at most {MOST}")
        if self.faults:
            raise Faults(message for _, message in sorted(self.faults))
        register = Kinds(self.registers["kind"], self.registers["package"])
        return Circuit.of(self.nodes, kinds, links if bounded else list(links), packages if packed else None, register)


class _Register(Reader):
    """Reads a register, which has 'kind' and 'package' lines alone."""

    def statement(self, words: list[str]) -> None:
        """Reads the words of one line."""
        if words[0] in self.registers:
            self.register_line(words)
        else:
            self.fault("a register has 'kind NAME NUMBER' and 'package NAME NUMBER' lines alone")


def decoded(data: bytes, path: str) -> str:
    """The text of a file's bytes."""
    if data.startswith(UTF_16):
        raise Faults([f"{path}: a UTF-16 text; save it as UTF-8"])
    try:
        return data.decode("utf-8-sig")
    except UnicodeDecodeError as error:
        line = data[: error.start].count(b"\n") + 1
        raise Faults([f"{path}:{line}: not a UTF-8 text"]) from None


def _loaded(path: str) -> str:
    """The text of a file."""
    with open(path, "rb") as file:
        return decoded(file.read(), path)


def from_text(text: str, name: str = "text", role: str | None = None, folder: str = "") -> Circuit:
    """The circuit of a text, which is for a role if that is told; what it uses is looked for from the folder on."""
    reader = Reader(name, role, folder)
    reader.read(text)
    return reader.circuit()


def load_text(path: str, role: str | None = None) -> Circuit:
    """The circuit of a text file, which is for a role if that is told."""
    return from_text(_loaded(path), path, role, os.path.dirname(path))


def load_kinds(path: str) -> Kinds:
    """The register of a file of 'kind' and 'package' lines."""
    reader = _Register(path)
    reader.read(_loaded(path))
    if reader.faults:
        raise Faults(message for _, message in sorted(reader.faults))
    return Kinds(reader.registers["kind"], reader.registers["package"])


def _writable(circuit: Circuit) -> None:
    """Demands that every name of a circuit and of its register can stand in a text."""
    register = circuit.register
    for what, names in (("node", circuit.names), ("kind", register.kinds), ("package", register.packages)):
        for name in names:
            digit = what != "node" and name[:1].isdigit()
            if digit or len(name.split()) != 1 or not good_name(name) or (what == "kind" and name in ZERO):
                raise Faults([f"'{name}' can't name a {what} in a text: give it another name"])


def to_text(circuit: Circuit) -> str:
    """A text that makes the circuit's file, with the names of its nodes and of what its register names."""
    _writable(circuit)
    lines = [f"# {len(circuit.kinds)} nodes, {len(circuit.links)} links"]
    for what, names in (("kind", circuit.register.kinds), ("package", circuit.register.packages)):
        lines += [f"{what} {name} {number}" for name, number in names.items()]
    for node, name in enumerate(circuit.names):
        package = "" if circuit.packages is None else " " + circuit.register.package_name(circuit.packages[node])
        lines.append(f"node {name} {circuit.register.kind_name(circuit.kinds[node])}{package}")
    within = dict.fromkeys(circuit.links, "")
    if circuit.bounds is not None:
        within = {link: f" within {bound}" for link, bound in zip(circuit.links, circuit.bounds)}
    for start, end in circuit.links:
        two_way = start != end and within.get((end, start)) == within[start, end]
        if two_way and start > end:
            continue
        arrow = "<->" if two_way else "->"
        lines.append(f"{circuit.names[start]} {arrow} {circuit.names[end]}{within[start, end]}")
    return "\n".join(lines) + "\n"
