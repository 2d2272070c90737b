"""find and place: where the pattern is on the board."""

from __future__ import annotations

import argparse
import sys
from typing import Any, Sequence

from ..circuits import LIMITS, Circuit
from ..errors import PATTERN, Bug
from ..finding import Place, place, places, report, report_of
from .inputs import add_both, add_node, both_of, node_of
from .notes import on_none
from .subcommands import Out, Subcommand
from .telling import by_names, count, filled, link_lines, link_names, listed, role_rows, rows, united


def find_arguments(form: argparse.ArgumentParser) -> None:
    """The arguments of find."""
    add_both(form)
    form.add_argument("--lines", action="store_true", help="the report, a line for each centre, by numbers")
    form.add_argument(
        "--links", action="store_true", help="all links of a place that has more than a pattern can have (256), too"
    )


def inner(found: Sequence[Place]) -> list[list[int]]:
    """For each place the numbers, from 1, of the others that it has in it."""
    masks = [one.mask for one in found]
    outside = [~mask for mask in masks]
    numbers = range(len(found))
    return [[b + 1 for b in numbers if a != b and not masks[b] & outside[a]] for a in numbers]


def heading(number: int, one: Place, within: Sequence[int]) -> list[str]:
    """The first line of a place: its size, its centres, and the places in it."""
    words = [f"{count(len(one.nodes), 'node')},", f"{count(len(one.links), 'link')},", "around", *one.board.named(one.centres)]
    if within:
        word = "place" if len(within) == 1 else "places"
        words[-1] += ";"
        words += ["has", word, *listed([str(other) for other in within]).split(), "in", "it"]
    return filled(words, f"place {number}: ", "    ")


def place_lines(one: Place, all_links: bool = True) -> list[str]:
    """The parts and the links of a place; no more links than a pattern can have, unless all are asked for."""
    lines = role_rows(one.pattern, one.board, one.roles)
    if len(one.links) > LIMITS[PATTERN][2] and not all_links:
        return [*lines, f"  ({len(one.links)} links; --links prints them)"]
    return [*lines, *link_lines(one.board, one.links)]


def found_text(found: Sequence[Place], pattern: Circuit, board: Circuit, all_links: bool) -> str:
    """All places, what plays each part in any of them, and how many there are."""
    lines: list[str] = []
    for number, (one, within) in enumerate(zip(found, inner(found) if found else []), 1):
        lines += [*heading(number, one, within), *place_lines(one, all_links), ""]
    if len(found) > 1:
        lines += ["all places together:", *role_rows(pattern, board, united(found)), ""]
    centres = sum(len(one.centres) for one in found)
    lines.append(f"{count(len(found), 'place')}, around {centres} of {count(len(board.names), 'node')}")
    return "\n".join(lines) + "\n"


def place_data(one: Place) -> dict[str, Any]:
    """A place by names."""
    return {
        "centres": one.board.named(one.centres),
        "nodes": one.board.named(one.nodes),
        "links": link_names(one.board, one.links),
        "parts": one.parts,
        "distances": {one.board.names[node]: one.distances[node] for node in one.nodes},
    }


def found_data(found: Sequence[Place], pattern: Circuit, board: Circuit) -> dict[str, Any]:
    """All places by names."""
    within = inner(found) if found else []
    return {
        "places": [{"place": at + 1, **place_data(one), "contains": within[at]} for at, one in enumerate(found)],
        "parts": by_names(pattern, board, united(found)) if found else {},
        "centres": sum(len(one.centres) for one in found),
        "nodes": len(board.names),
    }


def tell_found(found: Sequence[Place], pattern: Circuit, board: Circuit, out: Out, all_links: bool) -> None:
    """Answers by all places, in the one form that is asked for."""
    if out.as_json:
        out.answer("", found_data(found, pattern, board))
    else:
        out.answer(found_text(found, pattern, board, all_links), {})


def run_find(arguments: argparse.Namespace, out: Out) -> bool:
    """Finds each distinct place."""
    pattern, board = both_of(arguments, out)
    found = places(pattern, board)
    if not found:
        on_none(pattern, board, out, lambda *plain: bool(places(*plain)))
    if not arguments.lines:
        tell_found(found, pattern, board, out, arguments.links)
        return bool(found)
    lines = report(pattern, board)
    if lines != report_of(found, board):
        raise Bug("the places found and the lines of the report differ")
    if out.as_json:
        out.answer("", {"lines": lines.decode().splitlines()})
    else:
        sys.stdout.buffer.write(lines)
        sys.stdout.buffer.flush()
    return bool(found)


def place_arguments(form: argparse.ArgumentParser) -> None:
    """The arguments of place."""
    add_both(form)
    add_node(form)
    form.add_argument("--radius", metavar="R", type=int, help="how far the place may reach, in place of the pattern's radius")


def run_place(arguments: argparse.Namespace, out: Out) -> bool:
    """Finds the place around one node."""
    pattern, board = both_of(arguments, out)
    centre = node_of(board, arguments.node)
    found = place(pattern, board, centre, arguments.radius)
    name = board.names[centre]
    if found is None:
        on_none(pattern, board, out, lambda part, whole: bool(place(part, whole, centre, arguments.radius)))
        out.answer(f"no place around {name}\n", {"place": None})
        return False
    lines = [f"place around {name}: {count(len(found.nodes), 'node')}, {count(len(found.links), 'link')}"]
    lines += ["by distance:", *rows((str(step), board.named(nodes)) for step, nodes in found.rings.items())]
    lines += ["by part:", *place_lines(found)]
    counts = found.counts._asdict()
    out.answer("\n".join(lines) + "\n", {"place": place_data(found), "counts": counts})
    return True


SUBCOMMANDS = (
    Subcommand(
        "find",
        "each distinct place of the pattern on the board",
        "Finds each distinct place once: the centres around which it is the one, part by part the nodes that play it, its links;"
        "\nthen what plays each part in any place, and how many places there are around how many nodes. Status 1 where there is none.",
        "  heronditch find samples/mute/pattern.txt samples/mute/board.txt",
        find_arguments,
        run_find,
    ),
    Subcommand(
        "place",
        "the place around one node, by distance from it",
        "Finds the place around one node: its nodes by their distance from it, and by the parts that they play. Status 1 where there is none.",
        "  heronditch place samples/mute/pattern.txt samples/mute/board.txt Q3",
        place_arguments,
        run_place,
    ),
)
