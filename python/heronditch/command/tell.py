"""tell: a report by the names of a board."""

from __future__ import annotations

import argparse
import re
import sys

from ..circuits import Circuit
from ..errors import BOARD, Faults
from .inputs import load, named
from .subcommands import Out, Subcommand

PLACE = re.compile(r"place (\d+): (\d+(?: \d+)*) /((?: \d+-\d+)*)")
END = re.compile(r"end (\d+) of (\d+)")


def tell_arguments(form: argparse.ArgumentParser) -> None:
    """The arguments of tell."""
    form.add_argument("board", metavar="BOARD", help="the board that the report is on, .txt; or .cir, with --board-names")
    form.add_argument("--board-names", metavar="TEXT", help="the text that a BOARD.cir was made from, for its names")
    form.add_argument("report", metavar="REPORT", nargs="?", help="the report; standard input if left out")
    form.add_argument("--distance", action="store_true", help="each place's nodes by their distance from the centre")
    form.set_defaults(without_packages=False, without_bounds=False)


class Line:
    """A place's line of a report on a board, all whose nodes and links are the board's."""

    def __init__(self, line: str, board: Circuit) -> None:
        found = PLACE.fullmatch(line)
        if not found:
            raise Faults([f"not a line of a report: {line}"])
        self.centre = int(found[1])
        self.nodes = [int(word) for word in found[2].split()]
        self.links = [(int(start), int(end)) for start, end in (word.split("-") for word in found[3].split())]
        have = set(board.links)
        for node in (self.centre, *self.nodes):
            if node >= len(board.names):
                raise Faults([f"not a report on this board, which has no node {node}: {line}"])
        for start, end in self.links:
            if (start, end) not in have:
                raise Faults([f"not a report on this board, which has no link {start}-{end}: {line}"])

    def told(self, board: Circuit) -> str:
        """The line by names."""
        links = "".join(f" {board.names[start]}->{board.names[end]}" for start, end in self.links)
        return f"place {board.names[self.centre]}: {' '.join(board.named(self.nodes))} /{links}"

    def by_distance(self, board: Circuit) -> str:
        """The nodes by names, each distance from the centre followed by the nodes there."""
        far = board.distances(self.centre)
        if any(node not in far for node in self.nodes):
            raise Faults([f"not a report on this board: no path joins a node of the place to '{board.names[self.centre]}'"])
        rings = [
            (step, [node for node in self.nodes if far[node] == step]) for step in sorted({far[node] for node in self.nodes})
        ]
        return f"place {board.names[self.centre]}, " + " ".join(
            f"{step}: {' '.join(board.named(nodes))}" for step, nodes in rings
        )


def told(report: str, board: Circuit, by_distance: bool) -> tuple[list[str], int]:
    """The lines of a whole report by names, and how many places it has; an error where it is not one on this board."""
    *lines, last = report.splitlines() or [""]
    if not lines and last.startswith("refused "):
        return [last], 0
    end = END.fullmatch(last)
    if not end:
        raise Faults(["not a whole report: it does not end with its line 'end .. of ..'"])
    if int(end[2]) != len(board.names):
        raise Faults([f"not a report on this board, which has {len(board.names)} nodes: {last}"])
    if int(end[1]) != len(lines):
        raise Faults([f"not a whole report: it has {len(lines)} places, and ends with: {last}"])
    read = [Line(line, board) for line in lines]
    return [*(line.by_distance(board) if by_distance else line.told(board) for line in read), last], len(read)


def run_tell(arguments: argparse.Namespace, out: Out) -> bool:
    """Tells a report by names."""
    text = arguments.board_names
    board = named(arguments.board, text, BOARD, arguments) if text else load(arguments.board, BOARD)
    if arguments.report is None:
        report = sys.stdin.read()
    else:
        with open(arguments.report, encoding="utf-8", errors="replace") as file:
            report = file.read()
    lines, places = told(report, board, arguments.distance)
    out.answer("".join(f"{line}\n" for line in lines), {"lines": lines})
    return places > 0


SUBCOMMANDS = (
    Subcommand(
        "tell",
        "a report by the names of a board",
        "Prints a report with the names of a board in place of the numbers of its nodes. A report that is not whole, or has another number of"
        "\nnodes, a node or a link that the board has not, is none on this board: status 2. Status 1 where the report has no place.",
        "  heronditch tell samples/mute/board.txt samples/mute/report.txt",
        tell_arguments,
        run_tell,
    ),
)
