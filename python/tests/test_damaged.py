"""Files of every length, damaged ones and random texts: a refusal with a sentence, and never a traceback."""

from __future__ import annotations

import pathlib

import pytest
from hypothesis import HealthCheck, example, given, settings
from hypothesis import strategies as st

from conftest import ROOT, run

PATTERN, BOARD = ((ROOT / f"samples/worked/{name}.cir").read_bytes() for name in ("pattern", "board"))
BOUNDED = (ROOT / "samples/coupling/pattern3.cir").read_bytes()
NODES = {"place": ["0"], "why": ["0"], "check": ["0"]}


def try_all(pattern: str, board: str) -> None:
    """Runs every subcommand that reads circuits; each answers, or says why it does not."""
    for name in ("find", "place", "match", "why", "check", "cut"):
        sound(run(name, pattern, board, *NODES.get(name, []), given="0 -> 1\n"))
    for words in (
        ["merge", pattern],
        ["order", pattern, board],
        ["show", pattern],
        ["convert", "--force", pattern, pattern + ".out"],
    ):
        sound(run(*words))
    sound(run("tell", board, given="place 0: 0 1 / 0-1\nend 1 of 2\n"))


def sound(done: tuple[int, str, str]) -> None:
    """Demands a status of the three, and a sentence for trouble."""
    status, _, err = done
    assert status in (0, 1, 2) and "Traceback" not in err
    assert status != 2 or (err.startswith("heronditch: ") and len(err) > 30), err


@pytest.mark.parametrize("length", range(65))
def test_every_length(folder: pathlib.Path, length: int) -> None:
    """Files of every length up to 64 bytes: zeros, ones, the front of a file, and letters."""
    (folder / "good.cir").write_bytes(PATTERN)
    long = BOARD + BOUNDED
    for data in (bytes(length), b"\x01\x00" * (length // 2) + b"\x01" * (length % 2), long[:length], b"node a 1\n"[:length]):
        (folder / "bad.cir").write_bytes(data)
        try_all("bad.cir", "good.cir")
        try_all("good.cir", "bad.cir")


@settings(max_examples=40, deadline=None, suppress_health_check=[HealthCheck.function_scoped_fixture])
@given(st.sampled_from([PATTERN, BOARD, BOUNDED]), st.lists(st.tuples(st.integers(0, 63), st.integers(0, 255)), max_size=4))
def test_damaged(folder: pathlib.Path, data: bytes, changes: list[tuple[int, int]]) -> None:
    """Files with some bytes changed."""
    changed = bytearray(data)
    for at, byte in changes:
        changed[at % len(changed)] = byte
    (folder / "bad.cir").write_bytes(bytes(changed))
    (folder / "good.cir").write_bytes(PATTERN)
    try_all("bad.cir", "good.cir")
    try_all("good.cir", "bad.cir")


WORDS = st.sampled_from(
    ["node", "kind", "use", "package", "within", "a", "b", "->", "<->", "<-", "1", "0x", "70000", "#", "\n", "any", "é"]
)


@settings(max_examples=50, deadline=None, suppress_health_check=[HealthCheck.function_scoped_fixture])
@given(st.lists(WORDS, max_size=25).map(" ".join))
@example("use .\n")
@example("node a 1\nuse /\n")
def test_texts(folder: pathlib.Path, text: str) -> None:
    """Texts of the form's words in any order."""
    (folder / "bad.txt").write_text(text, encoding="utf-8")
    (folder / "good.txt").write_text("node a 1\nnode b 1\na -> b\n", encoding="utf-8")
    try_all("bad.txt", "good.txt")
    try_all("good.txt", "bad.txt")
    sound(run("make", "bad.txt", "bad.cir"))


@settings(max_examples=50, deadline=None, suppress_health_check=[HealthCheck.function_scoped_fixture])
@given(st.binary(max_size=40))
def test_bytes(folder: pathlib.Path, data: bytes) -> None:
    """Any bytes, under every name, as a circuit and on standard input."""
    for name in ("bad.cir", "bad.txt", "bad"):
        (folder / name).write_bytes(data)
        sound(run("show", name))
        sound(run("find", name, name))
    (folder / "good.cir").write_bytes(PATTERN)
    for words in (["check", "good.cir", "good.cir", "0"], ["cut", "good.cir", "good.cir"], ["tell", "good.cir"]):
        sound(run(*words, given=data.decode("latin-1")))
    for words in (
        ["check", "good.cir", "good.cir", "0", "--from", "bad"],
        ["cut", "good.cir", "good.cir", "--from", "bad"],
        ["tell", "good.cir", "bad"],
    ):
        sound(run(*words))
