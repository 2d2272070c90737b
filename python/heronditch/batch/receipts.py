"""Receipts: what was found of a pattern on a board, as a JSON line.

Where the match table of the whole board is all 0, no report is made: then no node has a place. That is a theorem. A place around a node needs
the node to occur in the largest dual simulation on its ball (simulation/proofs/Place `place-none`), which lies in that on the whole board
(table/proofs/Narrow `last-wider`), and that is what the match call fills in for a pattern that is accepted for places (call_match/proofs/Promise
`prefix-connected`); report_centres/proofs/Centre `whole-missed` has it for the lines of the report. The table is all 0 exactly when no pair is
counted as kept (call_match/proofs/Promise `counts-ones`). Whether a pattern is accepted for places is asked of the radius call, which refuses
by 1 to 6 and 11."""

from __future__ import annotations

import json
from typing import Any, NamedTuple, Optional, Sequence

from .. import bindings
from ..bindings import File
from ..circuits import THIRD
from ..errors import BOARD, PATTERN, Refused
from ..finding import bodies
from .library import identity
from .sources import Source, clash

PLACES, NONE, REFUSED, UNREAD = "places", "none", "refused", "unread"
BOUNDED = "the pattern has bounds, which only the match table of the whole board takes (heronditch match)"

Receipt = dict[str, Any]
Count = Optional[int]  # the distinct places of a pair, None where there is no answer


class Row(NamedTuple):
    """The receipts of a board, a line for each pattern, and how many places each has."""

    lines: list[bytes]
    counts: list[Count]


class Unread(Exception):
    """A circuit could not be read: which file, and a sentence."""

    def __init__(self, file: str, sentence: str) -> None:
        self.file = file
        self.sentence = sentence
        super().__init__(file, sentence)


def told(source: Source) -> dict[str, Any]:
    """A circuit as a receipt has it: its name, the SHA-256 of its file, its edition, and the SHA-256 of the circuit file that a text makes."""
    edition = source.file.edition or None if source.file else None
    data = {"name": source.name, "sha256": source.sha256, "edition": edition}
    return data if source.circuit is None else {**data, "circuit": source.circuit}


def answered(verdict: str, by: str | None, centres: int | None, places: list[Any] | None, refusal: Any = None) -> Receipt:
    """The answer of a receipt, whatever the verdict, in one form."""
    return {"verdict": verdict, "by": by, "centres": centres, "places": places, "refusal": refusal}


def unanswered(verdict: str, number: int | None, file: str, sentence: str) -> Receipt:
    """The answer of a pair that has none: refused by a number, or not read."""
    return answered(verdict, None, None, None, {"number": number, "file": file, "sentence": sentence})


def file_of(source: Source, role: str) -> File:
    """The circuit file of a source."""
    if source.file is None:
        raise Unread(role, source.fault or "not read")
    return source.file


def files_of(pattern: Source, board: Source) -> tuple[File, File]:
    """The circuit files of a pair, of which the pattern's is one that is accepted for places, and which go together."""
    part, whole = file_of(pattern, PATTERN), file_of(board, BOARD)
    wrong = clash(pattern, board)
    if wrong is not None:
        raise Unread(BOARD, wrong)
    if part.edition == THIRD:
        raise Refused(3, PATTERN, BOUNDED)
    bindings.radius(part)
    return part, whole


def answer(pattern: Source, board: Source, screen: bool) -> Receipt:
    """What is found of a pattern on a board; without a screen the report is made where the match table is all 0, too."""
    try:
        files = files_of(pattern, board)
        counts, _ = bindings.match(*files)
    except Unread as unread:
        return unanswered(UNREAD, None, unread.file, unread.sentence)
    except Refused as refused:
        return unanswered(REFUSED, refused.number, refused.file, refused.sentence)
    if screen and counts.kept == 0:
        return answered(NONE, "table", 0, [])
    found = distinct(*files, board.names)
    centres = sum(len(place["centres"]) for place in found)
    return answered(PLACES if found else NONE, "report", centres, found)


def distinct(pattern: File, board: File, names: Sequence[str] | None) -> list[dict[str, Any]]:
    """The distinct places of a report, each with its centres, nodes and links: by numbers, or by names where there are some."""
    found = []
    for body, centres in bodies(bindings.report(pattern, board), board.nodes).items():
        nodes, _, links = body.decode().partition(" /")
        pairs = [tuple(map(int, link.split("-"))) for link in links.split()]
        found.append({"centres": centres, "nodes": [int(node) for node in nodes.split()], "links": pairs})
    return found if names is None else [named(place, names) for place in found]


def named(place: dict[str, Any], names: Sequence[str]) -> dict[str, Any]:
    """A place by names."""
    return {
        "centres": [names[node] for node in place["centres"]],
        "nodes": [names[node] for node in place["nodes"]],
        "links": [[names[start], names[end]] for start, end in place["links"]],
    }


def receipt(pattern: Source, board: Source, screen: bool = True) -> Receipt:
    """The receipt of a pair."""
    return {"pattern": told(pattern), "board": told(board), **answer(pattern, board, screen), "library": identity()}


def encoded(data: Receipt) -> bytes:
    """A receipt as a line."""
    return json.dumps(data, separators=(",", ":")).encode("ascii") + b"\n"


def count_of(data: Receipt) -> Count:
    """How many distinct places a receipt has, None where it has no answer."""
    return None if data["places"] is None else len(data["places"])


def row(patterns: Sequence[Source], board: Source) -> Row:
    """The receipts of all patterns on a board."""
    receipts = [receipt(pattern, board) for pattern in patterns]
    return Row([encoded(data) for data in receipts], [count_of(data) for data in receipts])


def look(patterns: Sequence[Source], boards: Sequence[Source]) -> list[Row]:
    """The receipts of all patterns on some boards."""
    return [row(patterns, board) for board in boards]
