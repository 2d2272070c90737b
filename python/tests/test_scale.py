"""The job array of docs/SCALE.md, run as Slurm would run it. tools/documents runs the page's other commands, but for those of a cluster,
which test_cluster.py has."""

from __future__ import annotations

import os
import pathlib
import re
import subprocess
import sys

import pytest

from batches import PATIENCE, boards_in, load  # noqa: F401
from conftest import ROOT, write

SCRIPTS = re.findall(r"^```sh\n(.*?)^```$", (ROOT / "docs/SCALE.md").read_text(encoding="utf-8"), re.M | re.S)


@pytest.fixture
def shop(load: pathlib.Path, tmp_path: pathlib.Path) -> pathlib.Path:  # noqa: F811
    """A folder with a shelf and boards, and the command on the path."""
    os.symlink(load / "patterns", tmp_path / "shelf")
    (tmp_path / "boards").mkdir()
    for number, name in enumerate(boards_in(load)[::5]):
        os.link(load / name, tmp_path / f"boards/b{number:03}.cir")
    write(str(tmp_path / "bin/heronditch"), f'#!/bin/sh\nexec {sys.executable} -m heronditch "$@"\n')
    os.chmod(tmp_path / "bin/heronditch", 0o755)
    return tmp_path


def bash(shop: pathlib.Path, text: str, **further: str) -> int:
    """Runs a script in the shop, and gives its status."""
    path = f"{shop}/bin:{os.environ['PATH']}"
    env = {**os.environ, "PATH": path, **further}
    return subprocess.run(["bash", "-c", text], cwd=shop, env=env, capture_output=True, timeout=PATIENCE, check=False).returncode


def test_job_array(shop: pathlib.Path) -> None:
    """The tasks' lines, one after another, are those of one machine."""
    assert bash(shop, "heronditch batch --patterns shelf --boards boards -o receipts.jsonl") == 0
    (script,) = [text for text in SCRIPTS if "#SBATCH" in text]
    for task in "1234":
        assert bash(shop, script.replace("100", "4"), SLURM_ARRAY_TASK_ID=task) == 0
    parts = b"".join((shop / f"part-{task}.jsonl").read_bytes() for task in "1234")
    assert parts == (shop / "receipts.jsonl").read_bytes() and parts.count(b"\n") == 400
