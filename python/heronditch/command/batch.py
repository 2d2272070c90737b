"""batch: a shelf of patterns on many boards, with a receipt for each pair."""

from __future__ import annotations

import argparse
import sys
from contextlib import nullcontext
from functools import partial
from typing import Any, Callable, ContextManager, Iterable, Iterator, Sequence

from ..batch.ending import Ended, Ending, die
from ..batch.engines import Submit, cluster, here, in_order, pieces, processes
from ..batch.library import identity
from ..batch.lines import Lines, already, further, new_file, standard_output
from ..batch.receipts import Count, Row, count_of, look
from ..batch.sources import STDIN, Source, names_of, read
from ..batch.summary import JsonTable, Table
from ..errors import BOARD, PATTERN, Faults
from .subcommands import Out, Subcommand
from .telling import count
from .working import add_jobs, demand_jobs, progress

BOARDS = {"here": 1, "processes": 8, "cluster": 32}  # the boards of a task
TOLD = 10  # the files that are told by name


def batch_arguments(form: argparse.ArgumentParser) -> None:
    """The arguments of batch."""
    circuits = (
        f"circuits, .txt or .cir; a folder stands for its .cir files, or its texts where it has none, and '{STDIN}' for a list"
    )
    form.add_argument("--patterns", metavar="P", nargs="+", required=True, help=f"{circuits} on standard input")
    form.add_argument("--boards", metavar="B", nargs="+", required=True, help="the same")
    form.add_argument("-0", "--null", action="store_true", help="names of the list end in a null byte (find -print0)")
    add_jobs(form)
    form.add_argument("--dask", metavar="ADDRESS", help="have the work done by the cluster of this Dask scheduler")
    form.add_argument(
        "--shard", metavar="K/N", help="only the K-th of N shares of the boards; all shares' lines in order are the whole"
    )
    form.add_argument("--summary", action="store_true", help="print a table, boards by patterns, and no lines")
    where = form.add_mutually_exclusive_group()
    where.add_argument("-o", "--output", metavar="FILE", help="write the lines to a new file")
    where.add_argument("--resume", metavar="FILE", help="go on after the whole lines of this file, in it; there may be none yet")


def share(boards: Sequence[str], word: str | None) -> Sequence[str]:
    """The share of the boards that --shard K/N asks for: the K-th of N pieces, one after another."""
    if word is None:
        return boards
    number, _, total = word.partition("/")
    if not (number.isdecimal() and total.isdecimal() and 1 <= int(number) <= int(total)):
        raise Faults([f"--shard {word}: expected K/N with K from 1 to N, as in 3/8"])
    k, n = int(number), int(total)
    return boards[(k - 1) * len(boards) // n : k * len(boards) // n]


class Batch:
    """A run of batch: its circuits, where its lines and its table go, and what it came to."""

    def __init__(self, arguments: argparse.Namespace, out: Out, ending: Ending) -> None:
        if arguments.patterns.count(STDIN) + arguments.boards.count(STDIN) > 1:
            raise Faults([f"one list can be on standard input, and '{STDIN}' stands more than once"])
        self.arguments, self.out, self.ending = arguments, out, ending
        self.patterns = names_of(arguments.patterns, arguments.null)
        self.boards = share(names_of(arguments.boards, arguments.null), arguments.shard)
        if not self.patterns or not (self.boards or arguments.shard):
            raise Faults(["there is no pattern or no board to look at: the list is empty"])
        form = JsonTable if arguments.json else Table
        self.table = form(self.patterns, self.boards) if arguments.summary else None
        self.counts: list[Count] = []  # of the board that is under way
        self.found = self.unanswered = self.done = self.unread = 0
        self.faults: list[str] = []  # of the first files that could not be read

    def lines(self) -> Lines | None:
        """Where the lines go, None for nowhere."""
        if self.arguments.resume is not None:
            pairs = ((pattern, board) for board in self.boards for pattern in self.patterns)
            for data in already(self.arguments.resume, pairs, identity()):
                self.take([count_of(data)])
            return further(self.arguments.resume, self.ending)
        if self.arguments.output is not None:
            return new_file(self.arguments.output, self.ending)
        return None if self.table else standard_output(self.ending)

    def take(self, counts: Sequence[Count]) -> None:
        """Takes the counts of further pairs, and prints the row of a board whose pairs are done."""
        for one in counts:
            self.found += bool(one)
            self.unanswered += one is None
            self.counts.append(one)
            if len(self.counts) == len(self.patterns):
                if self.table:
                    self.table.take(self.counts)
                    self.say(self.table.row(self.boards[self.done // len(self.patterns)], self.counts))
                self.counts = []
            self.done += 1

    def say(self, text: str) -> None:
        """Prints a piece of the table."""
        standard_output(self.ending).write([text.encode("utf-8", "backslashreplace")])

    def sources(self, names: Iterable[str], role: str) -> Iterator[Source]:
        """Reads circuits, and notes which could not be read."""
        for name in names:
            source = read(name, role)
            if source.fault is not None:
                self.unread += 1
                if self.unread <= TOLD:
                    self.faults.append(source.fault if source.fault.startswith(name) else f"{name}: {source.fault}")
            yield source

    def engine(self) -> tuple[str, ContextManager[tuple[Submit[Any, Any], int]]]:
        """Who does the work."""
        if self.arguments.dask is not None:
            return "cluster", cluster(self.arguments.dask)
        if self.arguments.jobs > 1:
            return "processes", processes(self.arguments.jobs)
        return "here", nullcontext((here, 1))

    def run(self) -> bool:
        """Looks at all pairs; whether something was found."""
        if self.table:
            self.say(self.table.head())
        lines = self.lines()
        try:
            self.rows(lines)
        except Ended as ended:
            self.tell_end(ended)
            raise
        if lines:
            lines.keep()
        if self.table:
            self.say(self.table.end())
        self.tell_unanswered()
        return self.found > 0

    def rows(self, lines: Lines | None) -> None:
        """Writes the lines of all boards that are left."""
        patterns = list(self.sources(self.patterns, PATTERN))
        skip = self.done % len(patterns)  # lines of the first board that are there already
        boards = self.sources(self.boards[self.done // len(patterns) :], BOARD)
        kind, engine = self.engine()
        with progress(len(self.boards) * len(patterns), "pairs") as advance, engine as (submit, ahead):
            advance(self.done)
            for result in in_order(submit, partial(look, patterns), pieces(boards, BOARDS[kind]), ahead):
                for row in result:
                    self.put(lines, Row(row.lines[skip:], row.counts[skip:]))
                    advance(len(row.lines) - skip)
                    skip = 0

    def put(self, lines: Lines | None, row: Row) -> None:
        """Writes the lines of a board, and takes their counts."""
        if lines:
            lines.write(row.lines)
        self.take(row.counts)

    def tell_end(self, ended: Ended) -> None:
        """Tells that a signal ended the run, and how to go on."""
        file = self.arguments.resume or self.arguments.output or "and the file that has them"
        total = len(self.boards) * len(self.patterns)
        sys.stderr.write(f"heronditch: ended by {ended.name} after {self.done} of {total} lines: go on with --resume {file}\n")

    def tell_unanswered(self) -> None:
        """Tells of pairs that have no answer, and of the files that could not be read."""
        if self.unread or self.unanswered:
            more = [f"and {count(self.unread - TOLD, 'file')} more could not be read"] if self.unread > TOLD else []
            none = [f"{self.unanswered} of {count(self.done, 'pair')} have no answer: a file was refused or could not be read"]
            self.out.trouble([*self.faults, *more, *none], {})


def until_ended(work: Callable[[Ending], bool]) -> bool:
    """Does something that a signal ends."""
    try:
        with Ending() as ending:
            return work(ending)
    except Ended as ended:
        die(ended.number)
        raise


def run_batch(arguments: argparse.Namespace, out: Out) -> bool:
    """Looks at every pattern on every board."""
    demand_jobs(arguments)
    return until_ended(lambda ending: Batch(arguments, out, ending).run())


SUBCOMMANDS = (
    Subcommand(
        "batch",
        "every pattern of a shelf on every board, with a receipt for each pair",
        "Looks for every pattern on every board and prints a JSON line for each pair, board by board, in one order whatever -j is: the names, the"
        "\nSHA-256 and the editions of both files, the verdict (places, none, refused, or unread), the number of centres, the distinct places, and"
        "\nthe library. 'heronditch verify' checks the lines again. A file that cannot be read costs its own lines. Status 0 where something was"
        "\nfound, 1 where nothing was, 2 where a pair has no answer or the lines could not be written. docs/SCALE.md has more on many boards.",
        "  heronditch batch --patterns samples/mute/pattern.txt --boards samples/mute/board.txt samples/any/board.txt -o receipts.jsonl"
        "\n  echo samples/mute/board.cir | heronditch batch --patterns samples/mute/pattern.cir --boards - --summary",
        batch_arguments,
        run_batch,
    ),
)
