"""What batch and verify share: work in several processes, a progress bar, and signals that end it."""

from __future__ import annotations

import argparse
import sys
from contextlib import contextmanager
from importlib import import_module
from typing import Callable, Iterator

from ..errors import Faults


def add_jobs(form: argparse.ArgumentParser) -> None:
    """The argument -j."""
    form.add_argument("-j", "--jobs", metavar="N", type=int, default=1, help="work in N processes (1)")


def demand_jobs(arguments: argparse.Namespace) -> None:
    """Demands that -j is a number of processes."""
    if arguments.jobs < 1:
        raise Faults([f"-j {arguments.jobs}: give a number of processes from 1 on"])


@contextmanager
def progress(total: int | None, unit: str) -> Iterator[Callable[[int], object]]:
    """A bar on a terminal, with what was done a second and what is left; how it goes on is told to it."""
    bar = None
    if sys.stderr.isatty():
        try:
            bar = import_module("tqdm").tqdm(total=total, unit=f" {unit}", file=sys.stderr, dynamic_ncols=True)
        except ImportError:
            sys.stderr.write("heronditch: note: there is no progress bar without tqdm: apt-get install python3-tqdm\n")
    try:
        yield bar.update if bar is not None else lambda _: None
    finally:
        if bar is not None:
            bar.close()
