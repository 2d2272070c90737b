"""Where receipts go: whole lines, whatever ends the run; and going on after the lines that are there."""

from __future__ import annotations

import io
import json
import os
import select
import stat
import sys
from typing import Any, Iterable, Iterator, Protocol, Sequence

from ..errors import Faults
from .ending import Ending


class Raw(Protocol):
    """A file that may take a part of what it is given."""

    def write(self, data: bytes, /) -> int | None:
        """Writes bytes; how many it took."""

    def fileno(self) -> int:
        """The number by which the system knows it."""


class Lines:
    """A file that is written in whole lines."""

    def __init__(self, raw: Raw, name: str, ending: Ending) -> None:
        self.count = 0
        self._raw = raw
        self._name = name
        self._ending = ending

    def write(self, lines: Sequence[bytes]) -> None:
        """Writes lines, all of them before a signal ends the run; where they can't be written, none of them is left in part."""
        data, done = b"".join(lines), 0
        with self._ending.held():
            try:
                while done < len(data):
                    took = self._raw.write(data[done:])
                    if took is None:  # it was told not to wait: so the wait is here
                        select.select([], [self._raw.fileno()], [])
                    done += took or 0
            except OSError as error:
                self.count += data[:done].count(b"\n")
                self._cut(done - (data.rfind(b"\n", 0, done) + 1))
                raise self._failed(error) from None
            self.count += len(lines)

    def keep(self) -> None:
        """Demands that what was written is kept, where that can be asked: not of a pipe."""
        try:
            if self._is_file():
                os.fsync(self._raw.fileno())
        except OSError as error:
            raise self._failed(error) from None

    def _is_file(self) -> bool:
        """Whether this is a file, and no pipe or device."""
        try:
            return stat.S_ISREG(os.fstat(self._raw.fileno()).st_mode)
        except io.UnsupportedOperation:
            return False

    def _failed(self, error: OSError) -> Faults:
        told = f"{self._name}: {error.strerror}: it ends after {self.count} whole lines"
        return Faults([f"{told}; make room or open it again, and go on with --resume and the file that has them"])

    def _cut(self, torn: int) -> None:
        """Cuts off the beginning of a line, where that is the end of a file."""
        if torn and self._is_file():
            descriptor = self._raw.fileno()
            end = os.lseek(descriptor, 0, os.SEEK_CUR)
            if end == os.fstat(descriptor).st_size:
                os.ftruncate(descriptor, end - torn)


def standard_output(ending: Ending) -> Lines:
    """The lines of standard output."""
    sys.stdout.flush()
    return Lines(getattr(sys.stdout.buffer, "raw", sys.stdout.buffer), "standard output", ending)


def new_file(path: str, ending: Ending) -> Lines:
    """The lines of a file, which must have none yet."""
    if os.path.isfile(path) and os.path.getsize(path):
        raise Faults([f"{path}: there are lines in it: go on after them by --resume {path}, or give another name"])
    return Lines(open(path, "ab", buffering=0), path, ending)


def further(path: str, ending: Ending) -> Lines:
    """The lines of a file, after those that are there; the beginning of a line at its end is cut off."""
    file = open(path, "ab", buffering=0)
    file.truncate(whole_bytes(path))
    return Lines(file, path, ending)


def whole_lines(path: str) -> Iterator[bytes]:
    """The whole lines of a file, none where there is no file; without the beginning of one at its end."""
    if not os.path.exists(path):
        return
    with open(path, "rb") as file:
        yield from (line for line in file if line.endswith(b"\n"))


def whole_bytes(path: str) -> int:
    """How many bytes the whole lines of a file have."""
    return sum(map(len, whole_lines(path)))


def names_in(line: bytes) -> Any:
    """The names of the pattern and the board of a line, and its places and library; None where it is no receipt."""
    try:
        data = json.loads(line)
        return (data["pattern"]["name"], data["board"]["name"]), {"places": data["places"], "library": data["library"]}
    except (ValueError, TypeError, KeyError, RecursionError):
        return None, None


def already(path: str, pairs: Iterable[tuple[str, str]], library: Any) -> Iterator[Any]:
    """The receipts that a file has, which must be the first ones of this run and made by this library."""
    expected = iter(pairs)
    for number, line in enumerate(whole_lines(path), 1):
        names, data = names_in(line)
        pair = next(expected, None)
        if names is None or names != pair:
            told = "no receipt" if names is None else f"of {names[0]} on {names[1]}"
            here = "has no more pairs" if pair is None else f"has {pair[0]} on {pair[1]} there"
            raise Faults([f"{path}:{number}: the line is {told}, and this run {here}: name the same circuits in the same order"])
        if data["library"] != library:
            raise Faults([f"{path}:{number}: the line was made by another library: begin anew, in another file"])
        yield data
