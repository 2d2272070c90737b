"""verify: receipts computed anew."""

from __future__ import annotations

import argparse
import os
from contextlib import nullcontext
from typing import Any, ContextManager, Iterator

from ..batch.checking import Checked, check
from ..batch.engines import Submit, here, in_order, pieces, processes
from ..errors import Faults
from .subcommands import Out, Subcommand
from .telling import count
from .working import add_jobs, demand_jobs, progress

LINES = 1024  # the lines of a task


def verify_arguments(form: argparse.ArgumentParser) -> None:
    """The arguments of verify."""
    form.add_argument("receipts", metavar="RECEIPTS", help="lines that batch wrote, run from the folder in which it was")
    add_jobs(form)


def checked(path: str, jobs: int) -> Iterator[Checked]:
    """The lines of a file of receipts, each computed anew."""
    engine: ContextManager[tuple[Submit[Any, Any], int]] = processes(jobs) if jobs > 1 else nullcontext((here, 1))
    with open(path, "rb") as file, progress(os.fstat(file.fileno()).st_size or None, "bytes") as advance, engine as (
        submit,
        ahead,
    ):

        def numbered() -> Iterator[tuple[int, bytes]]:
            for number, line in enumerate(file, 1):
                advance(len(line))
                yield number, line

        for result in in_order(submit, check, pieces(numbered(), LINES), ahead):
            yield from result


def run_verify(arguments: argparse.Namespace, out: Out) -> bool:
    """Computes receipts anew and says which are not so."""
    demand_jobs(arguments)
    lines = wrong = 0
    for one in checked(arguments.receipts, arguments.jobs):
        lines += 1
        wrong += bool(one.wrong)
        for sentence in one.wrong:
            out.answer(f"{arguments.receipts}:{one.number}: {sentence}\n", {"line": one.number, "wrong": sentence})
    if not lines:
        raise Faults([f"{arguments.receipts}: there is no receipt in it"])
    so = f"{count(lines, 'receipt')}, all of them so" if not wrong else f"{count(lines, 'receipt')}, {wrong} of them not so"
    out.answer(f"{so}\n", {"receipts": lines, "wrong": wrong})
    return not wrong


SUBCOMMANDS = (
    Subcommand(
        "verify",
        "receipts of batch, computed anew from the files",
        "Reads the files that receipts name, makes each receipt anew, by the report also where batch looked at the match table alone, and says"
        "\nwhich line is not so: a file that was changed, or an answer that is another. Status 1 where a line is not so.",
        "  heronditch verify receipts.jsonl",
        verify_arguments,
        run_verify,
    ),
)
