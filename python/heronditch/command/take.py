"""take: a pattern cut out of a board."""

from __future__ import annotations

import argparse

from ..errors import BOARD, Faults
from ..taking import take
from ..text import to_text
from .files import data_of
from .inputs import add_node, load, node_of
from .subcommands import Out, Subcommand
from .telling import count, listed
from .writing import comment, written


def take_arguments(form: argparse.ArgumentParser) -> None:
    """The arguments of take."""
    form.add_argument("board", metavar="BOARD", help="the board, .txt or .cir")
    add_node(form)
    form.add_argument("--radius", metavar="R", type=int, required=True, help="take what is at most so many links away")
    form.add_argument(
        "--leave-out", metavar="NAME", action="append", default=[], help="take no way through this node; may be repeated"
    )
    form.add_argument("-o", dest="out", metavar="PATTERN.txt", required=True, help="the text to write")


def run_take(arguments: argparse.Namespace, out: Out) -> bool:
    """Cuts a pattern out, and writes it as a text."""
    if not arguments.out.endswith(".txt"):
        raise Faults([f"{arguments.out}: take writes a text, for a person to look over, whose name ends in .txt"])
    board = load(arguments.board, BOARD)
    centre = node_of(board, arguments.node)
    left_out = [node_of(board, word) for word in arguments.leave_out]
    pattern = take(board, centre, arguments.radius, left_out)
    if 0 in pattern.kinds:
        unknown = listed([f"'{name}'" for name, kind in zip(pattern.names, pattern.kinds) if kind == 0])
        out.note(f"not identified on the board, and so of any kind in the pattern: {unknown}")
    name = board.names[centre]
    without = f", without {listed(board.named(left_out))}" if left_out else ""
    head = f"Taken from {arguments.board} around {name}, radius {arguments.radius}{without}."
    written(arguments.out, comment([head]) + to_text(pattern), [arguments.board])
    sizes = f"{count(len(pattern.names), 'part')}, {count(len(pattern.links), 'link')}"
    out.answer(f"{arguments.out}: {sizes}, around {name}\n", data_of(pattern, arguments.out))
    return True


SUBCOMMANDS = (
    Subcommand(
        "take",
        "a pattern cut out of a board around a node",
        "Cuts out what is at most R links away from a node, with the links between, and writes it as a text, with the board's names: a first"
        "\npattern, to look over and edit. It is connected and within a pattern's limits; else it is told why not, and what would fit.",
        "  heronditch take samples/mute/board.txt Q3 --radius 3 -o taken.txt",
        take_arguments,
        run_take,
    ),
)
