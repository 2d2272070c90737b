"""A table, boards by patterns, with the number of distinct places of each pair."""

from __future__ import annotations

import json
import os
from typing import Iterable, Sequence

from .receipts import Count

NOTHING, NO_ANSWER = ".", "!"
WIDEST = 12  # letters of a name at the head of a column
LEGEND = f"{NOTHING} for no place, {NO_ANSWER} for a file that was refused or could not be read"


def heads(names: Sequence[str]) -> list[str]:
    """The heads of the columns: the patterns' names without folders and ends, or p1, p2 and so on where those are long or not told apart."""
    plain = [os.path.splitext(os.path.basename(name))[0] for name in names]
    if len(set(plain)) == len(plain) and all(len(name) <= WIDEST for name in plain):
        return plain
    return [f"p{number}" for number in range(1, len(names) + 1)]


def cell(count: Count) -> str:
    """A pair's entry."""
    return NO_ANSWER if count is None else str(count) if count else NOTHING


class Table:
    """A table for reading: its lines, one for each board, as they come."""

    def __init__(self, patterns: Sequence[str], boards: Sequence[str]) -> None:
        self._patterns = patterns
        self._heads = heads(patterns)
        self._boards = max([len("board"), *map(len, boards)])
        self._wide = [max(3, len(head)) for head in self._heads]
        self.places = [0] * len(patterns)
        self.boards = [0] * len(patterns)

    def take(self, counts: Sequence[Count]) -> None:
        """Takes the counts of a board into the totals."""
        for at, count in enumerate(counts):
            self.places[at] += count or 0
            self.boards[at] += bool(count)

    def _line(self, first: str, cells: Iterable[str]) -> str:
        entries = "".join(f"  {entry.rjust(wide)}" for entry, wide in zip(cells, self._wide))
        return f"{first.ljust(self._boards)}{entries}\n"

    def head(self) -> str:
        """The first line, with the names of the patterns."""
        return self._line("board", self._heads)

    def row(self, board: str, counts: Sequence[Count]) -> str:
        """The line of a board."""
        return self._line(board, map(cell, counts))

    def end(self) -> str:
        """The last lines: how many places each pattern has, on how many boards, and which pattern each column is."""
        totals = self._line("places", map(str, self.places)) + self._line("boards", map(str, self.boards))
        return totals + f"{LEGEND}\n" + "".join(f"{head} is {name}\n" for head, name in zip(self._heads, self._patterns))


class JsonTable(Table):
    """The same by JSON objects, one a line."""

    def head(self) -> str:
        return json.dumps({"patterns": self._patterns}) + "\n"

    def row(self, board: str, counts: Sequence[Count]) -> str:
        return json.dumps({"board": board, "places": counts}) + "\n"

    def end(self) -> str:
        return json.dumps({"places": self.places, "boards": self.boards}) + "\n"
