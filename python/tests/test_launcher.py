"""The command as a process: its streams, and how it is started."""

from __future__ import annotations

import os
import pathlib
import subprocess
import sys

from conftest import ROOT

MUTE = [str(ROOT / f"samples/mute/{role}.txt") for role in ("pattern", "board")]


def start(*words: str, **more: object) -> subprocess.CompletedProcess[bytes]:
    """Runs ./heronditch."""
    environment = {name: value for name, value in os.environ.items() if name not in ("PYTHONPATH", "PYTHONUNBUFFERED")}
    return subprocess.run([ROOT / "heronditch", *words], env=environment, check=False, **more)  # type: ignore[call-overload, no-any-return]


def test_from_anywhere(folder: pathlib.Path) -> None:
    """It runs from any folder, by a path or a link."""
    os.symlink(ROOT / "heronditch", "here")
    by_link = subprocess.run(["./here", "find", *MUTE], capture_output=True, check=True)
    assert by_link.stdout == start("find", *MUTE, capture_output=True).stdout and by_link.stdout.endswith(b"28 of 70 nodes\n")


def test_streams() -> None:
    """A full disk, a closed output, a reader that goes away, and an input that is no text: told, and no traceback."""
    with open("/dev/full", "wb") as full:
        for more in ([], ["--lines"], ["--json"]):
            done = start("find", *more, *MUTE, stdout=full, stderr=subprocess.PIPE)
            assert done.returncode == 2 and b"standard output: No space left" in done.stderr and b"Traceback" not in done.stderr
    closed = subprocess.run(["bash", "-c", f'"{ROOT}/heronditch" find {" ".join(MUTE)} >&-'], capture_output=True, check=False)
    assert closed.returncode == 2 and b"Traceback" not in closed.stderr
    gone = subprocess.run(
        ["bash", "-c", f'"{ROOT}/heronditch" find {" ".join(MUTE)} | head -n 1'], capture_output=True, check=False
    )
    assert gone.stdout.startswith(b"place 1") and not gone.stderr
    done = start("cut", *MUTE, input=b"\xff\xfe\n", capture_output=True)
    assert done.returncode == 2 and b"is no cut" in done.stderr and b"Traceback" not in done.stderr


def test_names_in_any_locale(folder: pathlib.Path) -> None:
    """Names that are not ASCII come out as they were drawn, whatever the locale."""
    pathlib.Path("p.txt").write_text("node ü 1\n", encoding="utf-8")
    done = subprocess.run(
        [ROOT / "heronditch", "find", "p.txt", "p.txt"], env={**os.environ, "LC_ALL": "C"}, capture_output=True, check=True
    )
    assert "around ü\n" in done.stdout.decode("utf-8")


def test_no_library(folder: pathlib.Path) -> None:
    """Where the library that is named is not there, that is told."""
    environment = {**os.environ, "HERONDITCH_LIBRARY": "absent.a"}
    done = subprocess.run([ROOT / "heronditch", "--version"], env=environment, capture_output=True, check=False)
    assert done.returncode == 2 and b"there is no absent.a, which HERONDITCH_LIBRARY names" in done.stderr


def test_no_module(folder: pathlib.Path) -> None:
    """A Python that cannot load the extension says so in a sentence."""
    done = subprocess.run(
        ["/usr/bin/env", "-u", "PYTHONPATH", sys.executable, ROOT / "python/start.py", "--version"],
        capture_output=True,
        check=False,
    )
    assert (
        done.returncode == 2
        and done.stderr.startswith(b"heronditch: the extension _heronditch is not there")
        and done.stderr.count(b"\n") == 1
    )


def test_wrong_library(folder: pathlib.Path) -> None:
    """A library that is none is told, and what was made before stays."""
    pathlib.Path("none.a").write_bytes(b"none")
    environment = {**os.environ, "HERONDITCH_LIBRARY": str(folder / "none.a")}
    done = subprocess.run([ROOT / "heronditch", "--version"], env=environment, capture_output=True, check=False)
    assert done.returncode == 2 and b"the extension could not be made" in done.stderr
    assert start("--version", capture_output=True).stdout == b"heronditch 3\n"
