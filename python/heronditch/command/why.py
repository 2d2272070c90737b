"""why and check: what stands in the way of a place, and whether a place from elsewhere is one."""

from __future__ import annotations

import argparse
import sys
from typing import Iterable

from ..circuits import Circuit
from ..errors import Faults
from ..finding import check, why
from ..text import ARROWS, drawn_links, words_of
from .inputs import add_both, add_node, both_of, node_of
from .notes import missing_kinds
from .subcommands import Out, Subcommand
from .telling import count, link_names


def why_arguments(form: argparse.ArgumentParser) -> None:
    """The arguments of why."""
    add_both(form)
    add_node(form)


def run_why(arguments: argparse.Namespace, out: Out) -> bool:
    """Asks which links of the pattern stand in the way."""
    pattern, board = both_of(arguments, out)
    centre = node_of(board, arguments.node)
    links = why(pattern, board, centre)
    name = board.names[centre]
    if links is None:
        out.answer(f"{name} has a place\n", {"place": True})
        return False
    for sentence in missing_kinds(pattern, board):
        out.note(sentence)
    lines = [f"{name} has no place: {len(links)} of {count(len(pattern.links), 'link')} of the pattern stand in the way"]
    if not links:
        lines = [f"{name} has no place: no part of the pattern is of its kind and package, whatever the links"]
    lines += [f"  {pattern.told(link)}" for link in links]
    out.answer("\n".join(lines) + "\n", {"place": False, "links": link_names(pattern, links)})
    return True


def check_arguments(form: argparse.ArgumentParser) -> None:
    """The arguments of check."""
    add_both(form)
    add_node(form)
    form.add_argument("--from", dest="proposed", metavar="FILE", help="what is proposed; standard input if left out")


def proposed(lines: Iterable[str], board: Circuit) -> tuple[set[int], set[tuple[int, int]]]:
    """The nodes and links of lines, each with node names or with links; a link's ends are nodes, too."""
    nodes: set[int] = set()
    links: set[tuple[int, int]] = set()
    faults = []
    for number, line in enumerate(lines, 1):
        words = words_of(line)
        try:
            if any(word in ARROWS for word in words):
                links |= {(node_of(board, link.start), node_of(board, link.end)) for link in drawn_links(words)}
            else:
                nodes |= {node_of(board, word) for word in words}
        except Faults as wrong:
            faults += [f"line {number} of what is proposed: {message}" for message in wrong.messages]
    if faults:
        raise Faults(faults)
    return nodes | {node for link in links for node in link}, links


def run_check(arguments: argparse.Namespace, out: Out) -> bool:
    """Asks whether what is proposed is a perfect subgraph."""
    pattern, board = both_of(arguments, out)
    centre = node_of(board, arguments.node)
    if arguments.proposed is None:
        nodes, links = proposed(sys.stdin, board)
    else:
        with open(arguments.proposed, encoding="utf-8", errors="replace") as file:
            nodes, links = proposed(file, board)
    good = check(pattern, board, centre, nodes, links)
    out.answer("yes\n" if good else "no\n", {"yes": good})
    return good


SUBCOMMANDS = (
    Subcommand(
        "why",
        "the links of the pattern that stand in the way of a place around a node",
        "Says why a node has no place: few links of the pattern, of which none can be spared. With those links alone the node matches no"
        "\npart in its ball; with any one or more of them taken away it does. Status 1 where it has a place.",
        "  heronditch why samples/mute/pattern.txt samples/mute/board.txt Q5",
        why_arguments,
        run_why,
    ),
    Subcommand(
        "check",
        "whether a place from elsewhere is one",
        "Reads nodes and links, one line each or many on a line ('Q1 R1' or 'Q1 -> R1 <-> net'; a link's ends need not stand again), and says"
        "\nyes exactly when they are a perfect subgraph around the node at the pattern's radius, largest or not. Status 1 for no.",
        "  echo '0 -> 1 -> 2' | heronditch check samples/worked/pattern.cir samples/worked/board.cir 0",
        check_arguments,
        run_check,
    ),
)
