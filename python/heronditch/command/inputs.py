"""The circuits of a command line: read from texts or files, with names that are bound to the bytes that are looked up."""

from __future__ import annotations

import argparse
import os

from ..circuits import BITS, FIRST, Circuit
from ..errors import BOARD, PATTERN, Faults, Refused
from ..text import UTF_16, decoded, from_text, load_text
from .subcommands import Out

CONTROLS = bytes(byte for byte in range(32) if byte not in b"\t\n\v\f\r")


def add_pattern(form: argparse.ArgumentParser) -> None:
    """The argument PATTERN, and what is left out of it."""
    form.add_argument("pattern", metavar="PATTERN", help="the known circuit, .txt or .cir")
    form.add_argument("--pattern-names", metavar="TEXT", help="the text that a PATTERN.cir was made from, for its names")
    form.add_argument("--without-packages", action="store_true", help="leave all packages out")
    form.add_argument("--without-bounds", action="store_true", help="leave the pattern's bounds out")


def add_both(form: argparse.ArgumentParser) -> None:
    """The arguments PATTERN and BOARD."""
    add_pattern(form)
    form.add_argument("board", metavar="BOARD", help="the board, .txt or .cir")
    form.add_argument("--board-names", metavar="TEXT", help="the text that a BOARD.cir was made from, for its names")


def add_node(form: argparse.ArgumentParser) -> None:
    """The argument NODE."""
    form.add_argument(
        "node", metavar="NODE", help="a node of the board, by its name, or by its number where the board has no names"
    )


def is_text(path: str, data: bytes) -> bool:
    """Whether a circuit is a text: by the end of its name, and else by what it holds. A text has no control characters but white space; every
    circuit file has one, the high byte of its number of nodes."""
    plain = data.translate(None, CONTROLS) == data
    if path.endswith(".txt"):
        if not plain and not data.startswith(UTF_16):
            raise Faults([f"{path}: not a text; a circuit file has a name that ends in .cir"])
        return True
    if path.endswith(".cir") and len(data) >= 4 and plain:
        raise Faults([f"{path}: a text, and no circuit file; give it a name that ends in .txt"])
    return not path.endswith(".cir") and plain


def load(path: str, role: str | None = None) -> Circuit:
    """The circuit of a text or of a file, for a role if that is told."""
    with open(path, "rb") as file:
        data = file.read()
    if is_text(path, data):
        return from_text(decoded(data, path), path, role, os.path.dirname(path))
    return Circuit.from_bytes(data, role)


def without(circuit: Circuit, arguments: argparse.Namespace) -> Circuit:
    """The circuit without what the command line leaves out."""
    circuit = circuit.without_packages() if arguments.without_packages else circuit
    return circuit.without_bounds() if arguments.without_bounds else circuit


def named(path: str, text: str, role: str, arguments: argparse.Namespace) -> Circuit:
    """The circuit of a text, which has to make the bytes of a file."""
    drawn = load_text(text, role)
    plain = load(path, role)
    kept = without(drawn, arguments) if plain.edition == FIRST else drawn
    try:
        same = kept.to_bytes(plain.edition) == plain.to_bytes()
    except (Refused, Faults):
        same = False
    if not same:
        told = f"{path} is not what {text} makes: {difference(plain, drawn)}"
        raise Faults([f"{told}. Make it again (heronditch make {text} {path}), or look for the text that it was made from."])
    return kept


def difference(plain: Circuit, drawn: Circuit) -> str:
    """The first thing in which a file and a text differ, in words."""
    sizes = (("nodes", len(plain.names), len(drawn.names)), ("links", len(plain.links), len(drawn.links)))
    for what, ours, theirs in sizes:
        if ours != theirs:
            return f"the file has {ours} {what}, and the text {theirs}"
    for node, (ours, theirs) in enumerate(zip(plain.kinds, drawn.kinds)):
        if ours != theirs:
            return f"node {node} has kind {ours}, and '{drawn.names[node]}' of the text {theirs}"
    for link, other in zip(plain.links, drawn.links):
        if link != other:
            return f"the file has the link {link[0]}-{link[1]} where the text has '{drawn.told(other)}'"
    return "they differ in packages or bounds"


def one_circuit(arguments: argparse.Namespace, role: str, path: str, text: str | None) -> Circuit:
    """A circuit of the command line."""
    if text is not None:
        return without(named(path, text, PATTERN if role == BITS else role, arguments), arguments)
    return without(load(path, role), arguments)


def pattern_of(arguments: argparse.Namespace, role: str = PATTERN) -> Circuit:
    """The pattern of the command line."""
    return one_circuit(arguments, role, arguments.pattern, arguments.pattern_names)


def both_of(arguments: argparse.Namespace, out: Out, role: str = PATTERN) -> tuple[Circuit, Circuit]:
    """The pattern and the board of the command line, whose names for kinds and packages must agree."""
    pattern = pattern_of(arguments, role)
    board = one_circuit(arguments, BOARD, arguments.board, arguments.board_names)
    agree(pattern, board, arguments)
    other_names(pattern, board, out)
    return pattern, board


def agree(pattern: Circuit, board: Circuit, arguments: argparse.Namespace) -> None:
    """Demands that no name stands for one number in the pattern and another on the board."""
    wrong = pattern.register.differences(board.register)
    told = [
        f"{what} '{name}' is {here} in {arguments.pattern_names or arguments.pattern} and {there} in"
        f" {arguments.board_names or arguments.board}: one name has one number (a file that both texts 'use' keeps it so)"
        for what, name, here, there in wrong
    ]
    if told:
        raise Faults(told)


def other_names(pattern: Circuit, board: Circuit, out: Out) -> None:
    """Tells of a kind that the pattern asks for under one name and the board has under others."""
    for kind in sorted(set(pattern.kinds) & set(board.kinds) - {0}):
        ours, theirs = ({name for name, number in one.register.kinds.items() if number == kind} for one in (pattern, board))
        if ours and theirs and not ours & theirs:
            out.note(f"kind {kind} is '{min(ours)}' in the pattern and '{min(theirs)}' on the board, and they count as one kind")


def node_of(board: Circuit, word: str) -> int:
    """The node of a board that a word of the command line means."""
    if word not in board.names and word.isdecimal() and all(name.isdecimal() for name in board.names):
        return board.number(int(word))
    return board.number(word)


def same_file(one: str, other: str) -> bool:
    """Whether two names mean one file."""
    return os.path.exists(one) and os.path.exists(other) and os.path.samefile(one, other)
