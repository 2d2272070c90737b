"""draw: a picture of a pattern, or of its places on a board."""

from __future__ import annotations

import argparse
import os
from dataclasses import replace

from ..circuits import BITS, Circuit
from ..finding import Place, place, places
from ..pictures import Picture, draw, pattern_picture, place_picture
from .inputs import add_pattern, both_of, node_of, pattern_of
from .notes import on_none
from .subcommands import Out, Subcommand
from .telling import count
from .writing import written


def draw_arguments(form: argparse.ArgumentParser) -> None:
    """The arguments of draw."""
    add_pattern(form)
    form.add_argument("board", metavar="BOARD", nargs="?", help="a board, .txt or .cir, to draw all places of the pattern on it")
    form.add_argument("--board-names", metavar="TEXT", help="the text that a BOARD.cir was made from, for its names")
    form.add_argument("node", metavar="NODE", nargs="?", help="a node of the board, to draw the place around it alone")
    form.add_argument("--title", metavar="TEXT", help="what stands above the picture, in place of a title of its own")
    form.add_argument("-o", dest="out", metavar="FILE.svg", required=True, help="the picture to write")


def drawn_places(found: list[Place], board: Circuit, centre: int | None) -> Picture:
    """The picture of what was found."""
    if centre is not None:
        return place_picture(found, f"The place around {board.names[centre]}", centre)
    centres = sum(len(one.centres) for one in found)
    title = f"{count(len(found), 'place')}, around {centres} of {count(len(board.names), 'node')}"
    return place_picture(found, title)


def find_some(pattern: Circuit, board: Circuit, centre: int | None) -> list[Place]:
    """The places to draw: all, or that around a centre."""
    if centre is None:
        return places(pattern, board)
    one = place(pattern, board, centre)
    return [] if one is None else [one]


def run_draw(arguments: argparse.Namespace, out: Out) -> bool:
    """Draws a pattern, or what is found of it."""
    read = [arguments.pattern, arguments.pattern_names, arguments.board, arguments.board_names]
    if arguments.board is None:
        picture = pattern_picture(pattern_of(arguments, BITS), f"Pattern {os.path.basename(arguments.pattern)}")
    else:
        pattern, board = both_of(arguments, out)
        centre = None if arguments.node is None else node_of(board, arguments.node)
        found = find_some(pattern, board, centre)
        if not found:
            on_none(pattern, board, out, lambda part, whole: bool(find_some(part, whole, centre)))
            around = "" if centre is None else f" around {board.names[centre]}"
            out.answer(f"no place{around}, and so no picture of one: {arguments.out} is not written\n", {"file": None})
            return False
        picture = drawn_places(found, board, centre)
    if arguments.title is not None:
        picture = replace(picture, title=arguments.title)
    written(arguments.out, draw(picture), read)
    sizes = {"file": arguments.out, "nodes": len(picture.spots), "links": len(picture.ties)}
    out.answer(f"{arguments.out}: {picture.title}\n", sizes)
    return True


SUBCOMMANDS = (
    Subcommand(
        "draw",
        "a picture of a pattern, or of its places on a board",
        "Draws a pattern; with a board, all places of the pattern on it together, or that around one node, with the distances from it; and one"
        "\nring of nodes around. The picture is SVG, laid out by graphviz (Debian's package of that name). Status 1 where there is no place.",
        "  heronditch draw samples/mute/pattern.txt samples/mute/board.txt Q3 -o place.svg",
        draw_arguments,
        run_draw,
    ),
)
