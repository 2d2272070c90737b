"""What the tests of batch share: circuits from seeds, the command as a process of its own, and what its lines say."""

from __future__ import annotations

import json
import os
import pathlib
import subprocess
import sys
import time
from typing import Any, Callable, Sequence

import conftest  # noqa: F401  puts tools/ and bench/ on the path
import pairs
import pytest

PATIENCE = 60  # seconds
BOARDS = 125  # which are 2,000 pairs with 16 patterns
WHERE = ("boards/test", "boards/planted", "boards/full")


@pytest.fixture(scope="module")
def load(tmp_path_factory: pytest.TempPathFactory) -> pathlib.Path:
    """The folder of the circuits: 16 patterns, and boards of which none is large, so that the second finder is soon done."""
    folder = tmp_path_factory.mktemp("load")
    pairs.make(folder, BOARDS, [24, 40, 64, 100])
    return folder


@pytest.fixture(scope="module")
def whole(load: pathlib.Path) -> bytes:
    """The lines of one whole run."""
    done = batch(load, "--boards", *boards_in(load))
    assert (done.returncode, done.stderr) == (0, b"")
    return done.stdout


def boards_in(folder: pathlib.Path) -> list[str]:
    """The names of the boards, from the folder on."""
    return [f"{where}/{name}" for where in WHERE for name in sorted(os.listdir(folder / where))]


def command(*words: object) -> list[str]:
    """The command as a process's words."""
    return [sys.executable, "-m", "heronditch", *map(str, words)]


def start(folder: pathlib.Path, *words: object, **how: Any) -> subprocess.Popen[bytes]:
    """Starts the command in a folder."""
    return subprocess.Popen(command(*words), cwd=folder, stderr=subprocess.PIPE, **how)


def batch(folder: pathlib.Path, *words: object, given: bytes = b"") -> subprocess.CompletedProcess[bytes]:
    """Runs batch with the folder's patterns, to its end."""
    whole = command("batch", "--patterns", "patterns", *words)
    return subprocess.run(whole, cwd=folder, input=given, capture_output=True, timeout=PATIENCE, check=False)


def until(ready: Callable[[], object], what: str) -> None:
    """Waits until something is so."""
    end = time.monotonic() + PATIENCE
    while not ready():
        assert time.monotonic() < end, f"waited too long until {what}"
        time.sleep(0.005)


def grown(file: pathlib.Path, size: int) -> Callable[[], bool]:
    """Whether a file has at least so many bytes."""
    return lambda: file.exists() and file.stat().st_size >= size


def receipts(lines: bytes) -> list[Any]:
    """The receipts of lines, all of them whole."""
    assert lines.endswith(b"\n") or not lines
    return [json.loads(line) for line in lines.splitlines()]


def report_of(receipt: Any, nodes: int) -> bytes:
    """The report that a receipt comes to."""
    refusal = receipt["refusal"]
    if refusal:
        return f"refused {refusal['number']} {refusal['file']}\n".encode()
    lines = {}
    for place in receipt["places"]:
        links = "".join(f" {start}-{end}" for start, end in place["links"])
        body = f"{' '.join(map(str, place['nodes']))} /{links}"
        assert body not in {line.partition(": ")[2] for line in lines.values()}, "a place stands twice"
        lines.update({centre: f"place {centre}: {body}" for centre in place["centres"]})
    assert len(lines) == receipt["centres"]
    told = [lines[centre] for centre in sorted(lines)] + [f"end {len(lines)} of {nodes}"]
    return "".join(f"{line}\n" for line in told).encode()


def names(chosen: Sequence[str], times: int) -> bytes:
    """A list of names, so many times over."""
    return "".join(f"{name}\n" for name in chosen).encode() * times
