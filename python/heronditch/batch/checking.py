"""Receipts computed anew from the files that they name, and compared. The report is made for every pair, also where a receipt rests on the
match table alone."""

from __future__ import annotations

import json
from functools import lru_cache
from typing import Any, Callable, NamedTuple, Sequence

from ..errors import BOARD, PATTERN
from .receipts import Receipt, receipt
from .sources import Source, read

Read = Callable[[str, str], Source]
KEPT = 1024  # circuits that are kept while receipts are checked

FIELDS = {
    "sha256": "the file has SHA-256 {now}, and the receipt {then}: the file was changed since, or is another one",
    "circuit": "the text makes a circuit file with SHA-256 {now}, and the receipt has {then}: what it uses was changed since",
    "edition": "the file is of edition {now}, and the receipt says {then}",
}
ANSWERS = {
    "verdict": "the verdict is '{now}', and the receipt says '{then}'",
    "refusal": "the refusal is {now}, and the receipt says {then}",
    "centres": "{now} centres have a place, and the receipt says {then}",
    "places": "the places are others than the receipt has",
}


class Checked(NamedTuple):
    """A line of receipts: its number, and sentences that tell what is not so."""

    number: int
    wrong: list[str]


def file_differences(role: str, now: Receipt, then: Receipt) -> list[str]:
    """What is not so of a file."""
    unlike = [(told, field) for field, told in FIELDS.items() if now[role].get(field) != then[role].get(field)]
    return [
        f"{role} {now[role]['name']}: " + told.format(now=now[role].get(field), then=then[role].get(field))
        for told, field in unlike
    ]


def differences(now: Receipt, then: Receipt) -> list[str]:
    """What is not so of a receipt: of its files, and where they are those that were looked at, of its answer."""
    wrong = [*file_differences(PATTERN, now, then), *file_differences(BOARD, now, then)]
    if wrong and now["verdict"] != "unread":
        return wrong
    now, then = (json.loads(json.dumps(data)) for data in (now, then))
    return wrong + [
        told.format(now=now[field], then=then.get(field)) for field, told in ANSWERS.items() if now[field] != then.get(field)
    ]


def named_in(data: Any) -> tuple[str, str] | None:
    """The names of a receipt's pattern and board, None where it is none."""
    try:
        names = data["pattern"]["name"], data["board"]["name"]
    except (TypeError, KeyError):
        return None
    return names if all(isinstance(name, str) for name in names) else None


def check_line(number: int, line: bytes, reading: Read) -> Checked:
    """Checks a line of receipts."""
    if not line.endswith(b"\n"):
        return Checked(number, ["the line is not whole"])
    try:
        then = json.loads(line)
    except (ValueError, RecursionError):
        return Checked(number, ["the line is no receipt: it is no JSON"])
    names = named_in(then)
    if names is None:
        return Checked(number, ["the line is no receipt: it names no pattern and no board"])
    now = receipt(reading(names[0], PATTERN), reading(names[1], BOARD), screen=False)
    return Checked(number, differences(now, then))


def check(lines: Sequence[tuple[int, bytes]]) -> list[Checked]:
    """Checks lines, told with their numbers; each file is read once while it is kept."""
    reading = lru_cache(maxsize=KEPT)(read)
    return [check_line(number, line, reading) for number, line in lines]
