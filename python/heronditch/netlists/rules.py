"""The rules by which parts and nets get their kinds and packages. They stay the same from board to board, so that kinds do."""

from __future__ import annotations

import os
import re
from fnmatch import fnmatchcase
from typing import NamedTuple, Sequence

from ..circuits import Kinds
from ..errors import Faults
from ..text import Reader
from .netlist import Part, text_of

SIZES = {"reference": 3, "value": 4, "footprint": 3, "net": 3, "rail": 2}
FORMS = {
    "reference": "reference LETTERS KIND",
    "value": "value LETTERS GLOB KIND",
    "footprint": "footprint GLOB PACKAGE",
    "net": "net GLOB KIND",
    "rail": "rail GLOB",
}


class Rules(NamedTuple):
    """Rules in their order: of several that fit, the first one holds. GLOB is a name with * and ?, and capitals do not count."""

    register: Kinds
    lines: tuple[tuple[str, ...], ...]

    def matching(self, statement: str) -> list[tuple[str, ...]]:
        """What the rules of a statement say."""
        return [line[1:] for line in self.lines if line[0] == statement]

    def kind_of(self, part: Part) -> int:
        """The kind of a part: by its letters and its value, else by its letters, else 0, which is not identified."""
        letters = letters_of(part.reference)
        for wanted, glob, kind in self.matching("value"):
            if wanted.upper() == letters and any(fits(value, glob) for value in part.values):
                return self.register.kinds[kind]
        for wanted, kind in self.matching("reference"):
            if wanted.upper() == letters:
                return self.register.kinds[kind]
        return 0

    def package_of(self, part: Part) -> int:
        """The package of a part by its footprint, 0 where no rule fits."""
        name = part.footprint.rsplit(":", 1)[-1]
        return next((self.register.packages[package] for glob, package in self.matching("footprint") if fits(name, glob)), 0)

    def net_kind(self, net: str) -> int:
        """The kind of a net by its name."""
        return next((self.register.kinds[kind] for glob, kind in self.matching("net") if fits(net, glob)), 0)

    def is_rail(self, net: str) -> bool:
        """Whether a net is a rail: by its name, in whichever sheet it is."""
        return any(fits(net, glob) or fits(net.rsplit("/", 1)[-1], glob) for glob, in self.matching("rail"))


def letters_of(reference: str) -> str:
    """The letters that a reference begins with, as capitals."""
    found = re.match(r"[A-Za-z]+", reference)
    return found[0].upper() if found else ""


def fits(name: str, glob: str) -> bool:
    """Whether a name fits, whose blanks count as underscores; capitals do not count."""
    return fnmatchcase("_".join(name.split()).lower(), glob.lower())


class _Reader(Reader):
    """Reads rules: 'kind' and 'package' lines as in the text form, and what they are for."""

    def __init__(self, name: str) -> None:
        super().__init__(name)
        self.rules: list[tuple[int, list[str]]] = []

    def statement(self, words: list[str]) -> None:
        """Reads the words of one line."""
        if words[0] in self.registers:
            self.register_line(words)
        elif words[0] not in SIZES:
            self.fault(f"'{words[0]}' begins no rule: expected kind, package, {', '.join(SIZES)}")
        elif len(words) != SIZES[words[0]]:
            self.fault(f"expected '{FORMS[words[0]]}'")
        else:
            self.rules.append((self.line, words))

    def checked(self) -> Rules:
        """The rules, all of whose kinds and packages are named."""
        for line, words in self.rules:
            what = "package" if words[0] == "footprint" else "kind"
            if words[0] != "rail" and words[-1] not in self.registers[what]:
                self.fault(f"no {what} is named '{words[-1]}'", line)
        if self.faults:
            raise Faults(message for _, message in sorted(self.faults))
        return Rules(Kinds(self.registers["kind"], self.registers["package"]), tuple(tuple(words) for _, words in self.rules))


def load_rules(path: str) -> Rules:
    """The rules of a file."""
    reader = _Reader(path)
    reader.read(text_of(path))
    return reader.checked()


def default_rules() -> str:
    """The file of the rules that come with the module."""
    return os.path.join(os.path.dirname(os.path.abspath(__file__)), "rules.txt")


def names(found: Sequence[str], most: int = 12) -> str:
    """Names in a sentence, of many the first."""
    shown = ", ".join(found[:most])
    return shown if len(found) <= most else f"{shown} and {len(found) - most} more"
