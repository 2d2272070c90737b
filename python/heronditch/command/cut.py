"""cut: what is left of the pattern while tracks of the board are cut."""

from __future__ import annotations

import argparse
import sys
from typing import Iterable, Union

from ..circuits import BITS
from ..errors import Faults, Refused
from ..finding import Match, Session
from ..text import ARROWS, drawn_links, number_of, words_of
from .inputs import add_both, both_of, node_of
from .notes import on_none
from .subcommands import Out, Subcommand
from .telling import by_names, part_labels, rows

Cut = Union[int, tuple[int, int]]


def cut_arguments(form: argparse.ArgumentParser) -> None:
    """The arguments of cut."""
    add_both(form)
    form.add_argument("--from", dest="cuts", metavar="FILE", help="the cuts; standard input if left out")


def cuts_of(words: list[str], session: Session) -> list[Cut]:
    """The cuts of a line: a number, or links, of which '<->' has two."""
    if any(word in ARROWS for word in words):
        links = drawn_links(words)
        return [(node_of(session.board, link.start), node_of(session.board, link.end)) for link in links]
    number = number_of(words[0]) if len(words) == 1 else None
    if number is None:
        raise Faults(
            [f"'{' '.join(words)}' is no cut: expected 'A -> B', 'A <-> B', or a link's place in the file, a number from 0"]
        )
    return [number]


def left(now: Match, before: Match) -> list[str]:
    """What is left of each part, and what it lost."""
    if not now:
        return ["  nothing is left: some part is without a node"]
    lost = [[node for node in was if node not in nodes] for nodes, was in zip(now.roles, before.roles)]
    return rows(
        (name, [*now.board.named(nodes), *(["(lost", *now.board.named(gone), "now)"] if gone else [])])
        for name, nodes, gone in zip(part_labels(now.pattern), now.roles, lost)
    )


def cut_line(line: str, session: Session, out: Out) -> None:
    """Makes the cuts of one line and says what is left after each; tells of what is no cut, and goes on."""
    words = words_of(line)
    try:
        for cut in cuts_of(words, session) if words else []:
            before = session.match()
            link = session.cut(cut)
            now = session.match()
            told = session.board.told(link)
            lines = [f"cut {told}", *left(now, before)]
            data = {"cut": session.board.named(link), "parts": by_names(session.pattern, session.board, now.roles)}
            out.answer("\n".join(lines) + "\n", data)
    except (Faults, Refused) as wrong:
        out.trouble([str(wrong)], {"number": wrong.number} if isinstance(wrong, Refused) else {})


def cut_all(lines: Iterable[str], session: Session, out: Out) -> bool:
    """Makes the cuts of all lines; whether anything is left."""
    for line in lines:
        cut_line(line, session, out)
    return bool(session.match())


def run_cut(arguments: argparse.Namespace, out: Out) -> bool:
    """Opens a session and makes the cuts."""
    pattern, board = both_of(arguments, out, BITS)
    session = Session(pattern, board)
    start = session.match()
    if not start:
        on_none(pattern, board, out, lambda *plain: bool(Session(*plain).match()))
    out.answer(
        "\n".join(["no cut yet", *left(start, start)]) + "\n", {"cut": None, "parts": by_names(pattern, board, start.roles)}
    )
    if arguments.cuts is None:
        return cut_all(sys.stdin, session, out)
    with open(arguments.cuts, encoding="utf-8", errors="replace") as file:
        return cut_all(file, session, out)


SUBCOMMANDS = (
    Subcommand(
        "cut",
        "what is left of each part while links of the board are cut",
        "Reads cuts one a line, 'A -> B', 'A <-> B' for both links of a two-way part, or a link's place in the board's file, and says after"
        "\neach what is left of each part on the whole board. What is no cut is told, and stops nothing; the status is then 2. Else it is 1"
        "\nwhere nothing is left at the end. With --json it answers by a line for each cut.",
        "  echo 'Q3 -> out.S' | heronditch cut samples/mute/pattern.txt samples/mute/board.txt",
        cut_arguments,
        run_cut,
    ),
)
