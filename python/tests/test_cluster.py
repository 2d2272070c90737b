"""batch on a Dask cluster: a scheduler and two workers on loopback, one of which is ended in the middle."""

from __future__ import annotations

import json
import os
import pathlib
import subprocess
import sys
from typing import Iterator, NamedTuple

import distributed
import pytest

from batches import PATIENCE, WHERE, batch, boards_in, grown, load, names, start, until, whole  # noqa: F401
from conftest import run
from heronditch.batch import engines

TIMES = 12  # how often the boards are looked at where a worker is lost in the middle
QUIET = {"DASK_DISTRIBUTED__DASHBOARD__LINK": "", "DASK_LOGGING__DISTRIBUTED": "error"}


class Cluster(NamedTuple):
    """A cluster: its scheduler and the address of that, and its workers."""

    address: str
    scheduler: subprocess.Popen[bytes]
    workers: list[subprocess.Popen[bytes]]


def run_part(folder: pathlib.Path, part: str, *words: str) -> subprocess.Popen[bytes]:
    """Starts a part of the cluster, on loopback."""
    code = f"import sys; from distributed.cli.dask_{part} import main; sys.exit(main())"
    env = {**os.environ, **QUIET}
    common = ["--host", "127.0.0.1", "--no-dashboard"]
    return subprocess.Popen(
        [sys.executable, "-c", code, *words, *common], cwd=folder, env=env, stdout=subprocess.DEVNULL, stderr=subprocess.DEVNULL
    )


@pytest.fixture(scope="module")
def cluster(tmp_path_factory: pytest.TempPathFactory) -> Iterator[Cluster]:
    """A scheduler and two workers of one thread each, which the tests lose one after another."""
    place = tmp_path_factory.mktemp("cluster")
    told = place / "address"
    scheduler = run_part(place, "scheduler", "--port", "0", "--scheduler-file", str(told))
    parts = [scheduler]
    try:
        until(told.exists, "the scheduler was there")
        file = ["--scheduler-file", str(told), "--nthreads", "1", "--no-nanny"]
        parts += [run_part(place, "worker", *file, "--name", name) for name in ("one", "two")]
        address = address_of(told)
        yield Cluster(address, scheduler, parts[1:])
    finally:
        for part in parts:
            part.kill()
            part.wait(PATIENCE)


def address_of(told: pathlib.Path) -> str:
    """The scheduler's address, once both workers are there."""
    until(lambda: told.read_text().endswith("}"), "the address was written")
    address = str(json.loads(told.read_text())["address"])
    with distributed.Client(address, set_as_default=False) as client:
        client.wait_for_workers(2, timeout=PATIENCE)
    return address


def begin(folder: pathlib.Path, cluster: Cluster, file: pathlib.Path, size: int) -> subprocess.Popen[bytes]:
    """Starts a run on the cluster, and waits until it has written so many bytes of its lines."""
    words = ["batch", "--patterns", "patterns", "--boards", "-", "--dask", cluster.address, "-o", file]
    process = start(folder, *words, stdin=subprocess.PIPE)
    assert process.stdin
    process.stdin.write(names(boards_in(folder), TIMES))
    process.stdin.close()
    process.stdin = None
    until(grown(file, size), "a part was done")
    return process


def test_a_lost_worker_costs_no_line(
    load: pathlib.Path, whole: bytes, cluster: Cluster, tmp_path: pathlib.Path
) -> None:  # noqa: F811
    """The lines are those of one machine, also where a worker is killed in the middle."""
    file, long = tmp_path / "receipts.jsonl", whole * TIMES
    process = begin(load, cluster, file, len(long) // 8)
    cluster.workers[0].kill()
    assert file.stat().st_size < len(long), "the worker was not ended in the middle"
    said = process.communicate(timeout=PATIENCE)[1]
    assert (process.returncode, said) == (0, b"")
    assert file.read_bytes() == long
    again = batch(load, "--boards", *WHERE, "--dask", cluster.address)
    assert (again.returncode, again.stderr, again.stdout == whole) == (0, b"", True)


def test_a_lost_scheduler_leaves_whole_lines(
    load: pathlib.Path, whole: bytes, cluster: Cluster, tmp_path: pathlib.Path
) -> None:  # noqa: F811
    """Where the scheduler is killed, the lines that are there are whole, the status is 2, and one machine goes on."""
    file, long = tmp_path / "receipts.jsonl", whole * TIMES
    process = begin(load, cluster, file, len(long) // 8)
    cluster.scheduler.kill()
    said = process.communicate(timeout=PATIENCE)[1]
    left = file.read_bytes()
    assert (
        process.returncode == 2
        and said.startswith(b"heronditch: the Dask cluster at tcp://127.0.0.1:")
        and said.count(b"\n") == 1
    )
    assert long.startswith(left) and left.endswith(b"\n") and len(left) < len(long)
    done = batch(load, "--boards", "-", "-j", 2, "--resume", file, given=names(boards_in(load), TIMES))
    assert done.returncode == 0 and file.read_bytes() == long


def test_no_scheduler(monkeypatch: pytest.MonkeyPatch) -> None:
    """Where no scheduler answers, that is told, and the status is 2."""
    monkeypatch.setattr(engines, "PATIENCE", 1)
    on = ["--patterns", "samples/worked/pattern.cir", "--boards", "samples/worked/board.cir"]
    done = run("batch", *on, "--dask", "tcp://127.0.0.1:9")
    assert done.status == 2 and "no Dask scheduler answers at tcp://127.0.0.1:9" in done.err
