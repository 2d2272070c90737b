"""What the tests share: the command, run in this process, and the samples."""

from __future__ import annotations

import io
import os
import pathlib
import sys
from typing import NamedTuple

import pytest

from heronditch.command import main

ROOT = pathlib.Path(__file__).resolve().parents[2]
sys.path[:0] = [str(ROOT / "tools"), str(ROOT / "bench")]


class Done(NamedTuple):
    """What a run of the command came to."""

    status: int
    out: str
    err: str


class Streams:
    """Standard output and error of a run, as bytes and as text."""

    def __init__(self) -> None:
        self.out, self.err = (io.TextIOWrapper(io.BytesIO(), "utf-8", newline="") for _ in range(2))

    @staticmethod
    def text(stream: io.TextIOWrapper) -> str:
        """What was written to a stream."""
        stream.flush()
        return stream.buffer.getvalue().decode()  # type: ignore[attr-defined]


def run(*words: object, given: str = "") -> Done:
    """Runs the command, in the folder of the tree's root unless a test went elsewhere."""
    streams = Streams()
    kept = sys.stdout, sys.stderr, sys.stdin
    sys.stdout, sys.stderr, sys.stdin = streams.out, streams.err, io.TextIOWrapper(io.BytesIO(given.encode()), "utf-8")
    try:
        status = main([str(word) for word in words])
    except SystemExit as stop:
        status = int(stop.code or 0)
    finally:
        sys.stdout, sys.stderr, sys.stdin = kept
    return Done(status, Streams.text(streams.out), Streams.text(streams.err))


@pytest.fixture(autouse=True)
def in_root(monkeypatch: pytest.MonkeyPatch) -> None:
    """Every test begins in the tree's root."""
    monkeypatch.chdir(ROOT)


@pytest.fixture
def folder(tmp_path: pathlib.Path, monkeypatch: pytest.MonkeyPatch) -> pathlib.Path:
    """An empty folder, in which the test runs."""
    monkeypatch.chdir(tmp_path)
    return tmp_path


def write(path: str, text: str | bytes) -> str:
    """Writes a file, and gives its name back."""
    data = text.encode() if isinstance(text, str) else text
    os.makedirs(os.path.dirname(path) or ".", exist_ok=True)
    with open(path, "wb") as file:
        file.write(data)
    return path
