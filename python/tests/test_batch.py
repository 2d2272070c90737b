"""batch and verify: against the second finder, in one order, ended in every way and resumed, and receipts that are not so."""

from __future__ import annotations

import hashlib
import json
import os
import pathlib
import pty
import resource
import signal
import subprocess
from concurrent.futures import ThreadPoolExecutor
from typing import Any

import pytest

from batches import (
    BOARDS,
    PATIENCE,
    WHERE,
    batch,
    boards_in,
    command,
    grown,
    load,
    names,
    receipts,
    report_of,
    start,
    until,
    whole,
)
from conftest import ROOT, run, write
from heronditch.batch.library import verdict_in

TIMES = 12  # how often the boards are looked at where something is to happen in the middle


@pytest.fixture(scope="module")
def long(whole: bytes) -> bytes:
    """The lines of one whole run on the boards so many times over."""
    return whole * TIMES


def second_finder() -> pathlib.Path:
    """The report program of the second finder, made where it is not there."""
    target = pathlib.Path(os.environ.get("CARGO_TARGET_DIR") or ROOT / "target/second")
    words = ["cargo", "build", "-q", "--release", "--offline", "--manifest-path", "second/Cargo.toml", "--bin", "report"]
    subprocess.run(words, cwd=ROOT, env={**os.environ, "CARGO_TARGET_DIR": str(target)}, check=True)
    return target / "release/report"


def second_report(finder: pathlib.Path, folder: pathlib.Path, receipt: Any) -> bytes:
    """What the second finder reports of a receipt's files."""
    pair = folder / receipt["pattern"]["sha256"][:16] / receipt["board"]["sha256"][:16]
    pair.mkdir(parents=True)
    for role in ("pattern", "board"):
        os.symlink(folder / receipt[role]["name"], pair / f"{role}.cir")
    return subprocess.run([finder, pair], capture_output=True, timeout=PATIENCE, check=True).stdout


def test_against_the_second_finder(load: pathlib.Path, whole: bytes) -> None:
    """2,000 pairs, each of which comes to the second finder's report."""
    made = receipts(whole)
    finder = second_finder()
    with ThreadPoolExecutor(2) as threads:
        reports = list(threads.map(lambda receipt: second_report(finder, load, receipt), made))
    assert len(made) == len(reports) == 2000
    for receipt, report in zip(made, reports):
        nodes = int.from_bytes((load / receipt["board"]["name"]).read_bytes()[:2], "little")
        assert report_of(receipt, nodes) == report, receipt
    by = {(receipt["verdict"], receipt["by"]) for receipt in made}
    assert {("none", "table"), ("places", "report")} <= by
    assert sum(receipt["verdict"] == "places" for receipt in made) >= 250


def test_the_circuits_are_those_that_they_were(load: pathlib.Path) -> None:
    """The same seeds make the same files everywhere."""
    files = [*sorted(load.glob("patterns/*.cir")), *(load / name for name in boards_in(load))]
    sums = "".join(hashlib.sha256(file.read_bytes()).hexdigest() for file in files)
    assert len(files) == 16 + BOARDS
    assert hashlib.sha256(sums.encode()).hexdigest() == "970329fee732cfde8084dbe74d661c73f3b5a36c21f7f78f9fe7798767d8408d"


def test_one_order(load: pathlib.Path, whole: bytes) -> None:
    """The lines are the same in several processes, from folders or a list, and from all shares one after another."""
    assert batch(load, "--boards", *WHERE, "-j", 2).stdout == whole
    assert batch(load, "--boards", *WHERE, "-j", 5).stdout == whole
    assert batch(load, "--boards", "-", "-0", given=names(boards_in(load), 1).replace(b"\n", b"\0")).stdout == whole
    shares = [batch(load, "--boards", *WHERE, "--shard", f"{share}/3").stdout for share in (1, 2, 3)]
    assert b"".join(shares) == whole and all(shares)
    expected = [(f"patterns/p{pattern:02}.cir", board) for board in boards_in(load) for pattern in range(16)]
    assert [(one["pattern"]["name"], one["board"]["name"]) for one in receipts(whole)] == expected


def test_gnu_parallel(load: pathlib.Path, whole: bytes) -> None:
    """GNU parallel has the shares done, and keeps their order."""
    words = ["parallel", "-k", "-j", "2", *command("batch", "--patterns", "patterns", "--boards", *WHERE, "--shard", "{}/4")]
    done = subprocess.run([*words, ":::", *"1234"], cwd=load, capture_output=True, timeout=PATIENCE, check=False)
    assert done.stdout == whole and not done.stderr


@pytest.mark.parametrize("jobs, number", [(1, signal.SIGTERM), (2, signal.SIGTERM), (2, signal.SIGINT), (1, signal.SIGKILL)])
def test_ended_and_resumed(load: pathlib.Path, long: bytes, tmp_path: pathlib.Path, jobs: int, number: int) -> None:
    """Ended in the middle, it leaves whole lines; resumed, it has the lines of one whole run."""
    file, given = tmp_path / "receipts.jsonl", names(boards_in(load), TIMES)
    words = ["batch", "--patterns", "patterns", "--boards", "-", "-j", jobs]
    process = start(load, *words, "-o", file, stdin=subprocess.PIPE)
    assert process.stdin and process.stderr
    process.stdin.write(given)
    process.stdin.close()
    until(grown(file, len(long) // 8), "a part was done")
    process.send_signal(number)
    assert process.wait(PATIENCE) == -number
    left, said = file.read_bytes(), process.stderr.read()
    process.stderr.close()
    assert len(left) < len(long) and long.startswith(left)
    assert number == signal.SIGKILL or (left.endswith(b"\n") and b"--resume" in said)
    file.write_bytes(left + b'{"pattern":{"name":"pat')  # as a machine that lost its power may leave it
    done = batch(load, "--boards", "-", "-j", 2, "--resume", file, given=given)
    assert (done.returncode, done.stdout, file.read_bytes() == long) == (0, b"", True)


def test_resumed_at_the_end(load: pathlib.Path, whole: bytes, tmp_path: pathlib.Path) -> None:
    """A file that is whole stays as it is, and a status tells what it has."""
    file = write(str(tmp_path / "receipts.jsonl"), whole)
    done = batch(load, "--boards", *WHERE, "--resume", file)
    assert (done.returncode, pathlib.Path(file).read_bytes() == whole) == (0, True)


def test_no_process_is_left(load: pathlib.Path, tmp_path: pathlib.Path, long: bytes) -> None:
    """Where a run is killed, the processes that worked for it end, too."""
    file = tmp_path / "receipts.jsonl"
    process = start(load, "batch", "--patterns", "patterns", "--boards", *boards_in(load) * TIMES, "-j", 3, "-o", file)
    until(grown(file, len(long) // 20), "a part was done")
    children = pathlib.Path(f"/proc/{process.pid}/task/{process.pid}/children").read_text().split()
    assert len(children) == 3
    process.kill()
    process.communicate()
    until(lambda: not any(is_running(child) for child in children), "they had ended")


def is_running(number: str) -> bool:
    """Whether a process is there, and not only waits to be asked how it ended."""
    try:
        return pathlib.Path(f"/proc/{number}/stat").read_text().rpartition(")")[2].split()[0] != "Z"
    except OSError:
        return False


def test_resumed_with_others(folder: pathlib.Path) -> None:
    """Lines of other circuits, of another library, or of no run at all are not gone on from."""
    os.symlink(ROOT / "samples", "samples")
    words = ["batch", "--patterns", "samples/any/pattern.cir", "--boards", "samples/any/board.cir"]
    assert run(*words, "-o", "one.jsonl").status == 0
    again = run(*words, "-o", "one.jsonl")
    assert again.status == 2 and "--resume one.jsonl" in again.err
    others = run(*words[:-1], "samples/mute/board.cir", "--resume", "one.jsonl")
    assert others.status == 2 and "one.jsonl:1: the line is of samples/any/pattern.cir on samples/any/board.cir" in others.err
    line = pathlib.Path("one.jsonl").read_text()
    write("two.jsonl", line * 2)
    assert "has no more pairs" in run(*words, "--resume", "two.jsonl").err
    write("three.jsonl", line.replace('"version":3', '"version":2'))
    assert "made by another library" in run(*words, "--resume", "three.jsonl").err
    write("four.jsonl", "{}\n")
    assert "the line is no receipt" in run(*words, "--resume", "four.jsonl").err


@pytest.mark.parametrize("jobs", [1, 2])
def test_full_disk(load: pathlib.Path, whole: bytes, tmp_path: pathlib.Path, jobs: int) -> None:
    """Where the lines can't be written, those that are there are whole, the status is 2, and it goes on from there."""
    words = ["batch", "--patterns", "patterns", "--boards", *boards_in(load), "-j", jobs]
    with open("/dev/full", "wb") as full:
        process = start(load, *words, stdout=full)
        said = process.communicate()[1]
    assert (
        process.returncode == 2
        and said.startswith(b"heronditch: standard output: No space left on device")
        and said.count(b"\n") == 1
    )
    file, room = tmp_path / "receipts.jsonl", len(whole) // 3
    few = start(load, *words, "-o", file, preexec_fn=lambda: resource.setrlimit(resource.RLIMIT_FSIZE, (room, room)))
    said = few.communicate()[1]
    left = file.read_bytes()
    assert few.returncode == 2 and b"File too large" in said and said.count(b"\n") == 1
    assert whole.startswith(left) and left.endswith(b"\n") and room - 40000 < len(left) <= room
    assert batch(load, "--boards", *boards_in(load), "--resume", file).returncode == 0 and file.read_bytes() == whole


@pytest.mark.parametrize("jobs", [1, 2])
def test_closed_pipe(load: pathlib.Path, long: bytes, jobs: int) -> None:
    """Where nobody reads on, it ends with status 2."""
    words = ["batch", "--patterns", "patterns", "--boards", *boards_in(load) * TIMES, "-j", jobs]
    process = start(load, *words, stdout=subprocess.PIPE)
    assert process.stdout and process.stderr
    lines = b"".join(process.stdout.readline() for _ in range(50))
    process.stdout.close()
    assert process.wait(PATIENCE) == 2 and long.startswith(lines)
    assert process.stderr.read().startswith(b"heronditch: standard output: Broken pipe")
    process.stderr.close()


def test_unreadable_files_cost_their_own_lines(load: pathlib.Path, whole: bytes, tmp_path: pathlib.Path) -> None:
    """What is not there, is a folder in disguise or no circuit has its lines, and the others have theirs."""
    os.symlink(tmp_path / "nowhere", tmp_path / "dangling.cir")
    (tmp_path / "large.cir").write_bytes(bytes(2**20 + 1))
    (tmp_path / "short.cir").write_bytes(b"\1\0\0")
    bad = [tmp_path / name for name in ("dangling.cir", "large.cir", "short.cir")]
    boards = boards_in(load)
    done = batch(load, "--boards", bad[0], *boards[:60], bad[1], *boards[60:], bad[2], "-j", 2)
    assert done.returncode == 2 and b"48 of 2048 pairs have no answer" in done.stderr
    lines = done.stdout.splitlines(keepends=True)
    assert b"".join(lines[16 : 16 + 960] + lines[32 + 960 : -16]) == whole
    assert [one["verdict"] for one in receipts(b"".join(lines[:16] + lines[976:992] + lines[-16:]))] == ["unread"] * 32 + [
        "refused"
    ] * 16
    refusal = json.loads(lines[-1])["refusal"]
    assert (refusal["number"], refusal["file"]) == (1, "board") and "fewer than 4 bytes" in refusal["sentence"]


def test_a_changed_byte_is_found(load: pathlib.Path, whole: bytes, tmp_path: pathlib.Path) -> None:
    """verify says which lines are not so where a byte of a file, of an answer or of a hash was changed."""
    for name in ("patterns", "boards"):
        os.symlink(load / name, tmp_path / name)
    file = write(str(tmp_path / "receipts.jsonl"), whole)
    assert start(tmp_path, "verify", file, "-j", 2, stdout=subprocess.DEVNULL).wait(PATIENCE) == 0
    board = load / "boards/planted/p00007.cir"
    kept = board.read_bytes()
    board.write_bytes(kept[:-1] + bytes([kept[-1] ^ 1]))
    told = start(tmp_path, "verify", "receipts.jsonl", stdout=subprocess.PIPE)
    said = told.communicate()[0].decode().splitlines()
    board.write_bytes(kept)
    first = boards_in(load).index("boards/planted/p00007.cir") * 16 + 1
    assert told.returncode == 1 and said[-1] == "2000 receipts, 16 of them not so"
    assert [line.split(": ")[0] for line in said[:-1]] == [f"receipts.jsonl:{first + at}" for at in range(16)]
    assert all("the file was changed" in line for line in said[:-1])


def forged(line: bytes, old: bytes, new: bytes) -> bytes:
    """A line with something else in it."""
    assert old in line
    return line.replace(old, new, 1)


def test_forged_receipts(load: pathlib.Path, whole: bytes, monkeypatch: pytest.MonkeyPatch, tmp_path: pathlib.Path) -> None:
    """verify finds an answer that is another, whatever is changed in it."""
    monkeypatch.chdir(load)
    line = next(line for line in whole.splitlines(keepends=True) if b'"verdict":"places"' in line)
    none = next(line for line in whole.splitlines(keepends=True) if b'"verdict":"none"' in line)
    lines = {
        forged(line, b'"verdict":"places"', b'"verdict":"none"'): "the verdict is 'places', and the receipt says 'none'",
        forged(line, b'"links":[[', b'"links":[[5'): "the places are others",
        forged(line, b'"centres":', b'"centres":1'): "centres have a place",
        forged(line, b'"sha256":"', b'"sha256":"0'): "the file has SHA-256",
        forged(line, b'"edition":1', b'"edition":2'): "the file is of edition 1",
        forged(line, b"patterns/p", b"patterns/q"): "the verdict is 'unread'",
        forged(none, b'"places":[]', b'"places":[{}]'): "the places are others",
        forged(line, b'"name":"patterns', b'"name":"\\u0000'): "the verdict is 'unread'",
        forged(line, b'"name":"patterns', b'"name":"\\ud800'): "the verdict is 'unread'",
        b"[" * 100000 + b"\n": "no receipt",
        b'{"pattern":[],"board":{}}\n': "no receipt",
        b"[1]\n": "no receipt",
        b"nonsense\n": "no receipt",
        line[:-1]: "not whole",
    }
    for wrong, sentence in lines.items():
        done = run("verify", write(str(tmp_path / "wrong.jsonl"), none + wrong))
        assert done.status == 1 and sentence in done.out and "wrong.jsonl:2: " in done.out and "wrong.jsonl:1: " not in done.out
    assert run("verify", write(str(tmp_path / "empty.jsonl"), "")).status == 2
    assert run("verify", tmp_path / "absent.jsonl").status == 2


def test_texts(folder: pathlib.Path) -> None:
    """Places of a text have its names; what it uses is bound by a second SHA-256; a name with two numbers is told."""
    write("kinds.txt", "kind a 10\nkind b 20\n")
    write("pattern.txt", "use kinds.txt\nnode x a\nnode y b\nx -> y\n")
    write("board.txt", "use kinds.txt\nnode one a\nnode two b\nnode three b\none -> two\n")
    write("other.txt", "kind a 11\nkind b 20\nnode one a\nnode two b\none -> two\n")
    done = run("batch", "--patterns", "pattern.txt", "--boards", "board.txt", "other.txt", "-o", "receipts.jsonl")
    assert done.status == 2 and "1 of 2 pairs have no answer" in done.err
    first, second = receipts(pathlib.Path("receipts.jsonl").read_bytes())
    assert first["places"] == [{"centres": ["one", "two"], "nodes": ["one", "two"], "links": [["one", "two"]]}]
    assert second["verdict"] == "unread" and "kind 'a' is 10 in pattern.txt and 11 in other.txt" in second["refusal"]["sentence"]
    assert run("verify", "receipts.jsonl").status == 0
    write("kinds.txt", "kind a 12\nkind b 20\n")
    done = run("verify", "receipts.jsonl")
    assert done.status == 1 and "receipts.jsonl:1: pattern pattern.txt: the text makes a circuit file with SHA-256" in done.out


def test_progress_on_a_terminal(load: pathlib.Path) -> None:
    """On a terminal a bar tells how many pairs are done, of how many, and how many a second."""
    ours, theirs = pty.openpty()
    words = command("batch", "--patterns", "patterns", "--boards", *boards_in(load), "--summary")
    done = subprocess.run(words, cwd=load, stdout=subprocess.DEVNULL, stderr=theirs, timeout=PATIENCE, check=False)
    os.close(theirs)
    told = os.read(ours, 65536).decode()
    os.close(ours)
    assert done.returncode == 0 and "2000/2000" in told and "pairs/s" in told


def test_memory_is_flat(load: pathlib.Path) -> None:
    """Twelve times as many pairs need no more memory, but for the names of the boards."""
    most = []
    for times in (1, TIMES):
        process = start(
            load, "batch", "--patterns", "patterns", "--boards", "-", stdin=subprocess.PIPE, stdout=subprocess.DEVNULL
        )
        assert process.stdin and process.stderr
        process.stdin.write(names(boards_in(load), times))
        process.stdin.close()
        process.stderr.close()
        _, status, used = os.wait4(process.pid, 0)
        process.returncode = os.waitstatus_to_exitcode(status)
        assert process.returncode == 0
        most.append(used.ru_maxrss)
    assert most[1] < most[0] + 2048, f"{most} KB"


def test_names_of_any_bytes(load: pathlib.Path, tmp_path: pathlib.Path) -> None:
    """A file's name may be any bytes, a newline too where names end in a null byte; the receipt leads back to it."""
    name = os.fsencode(tmp_path) + b"/\xff\n.cir"
    os.link(load / "boards/full/f00000.cir", name)
    file = tmp_path / "receipts.jsonl"
    done = batch(load, "--boards", "-", "-0", "-o", file, given=name + b"\0")
    assert (done.returncode, done.stderr) == (0, b"")
    assert os.fsencode(receipts(file.read_bytes())[0]["board"]["name"]) == name
    assert start(load, "verify", file, stdout=subprocess.DEVNULL).wait(PATIENCE) == 0


def test_arguments(folder: pathlib.Path) -> None:
    """What is asked for in vain is told."""
    write("board.cir", b"\0\0\0\0")
    os.mkdir("empty")
    on = ["batch", "--patterns", "board.cir", "--boards"]
    for words, sentence in {
        (*on, "board.cir", "-j", "0"): "from 1 on",
        (*on, "board.cir", "--shard", "0/3"): "expected K/N",
        (*on, "board.cir", "--shard", "x"): "expected K/N",
        (*on, "empty"): "no file whose name ends in .cir or .txt",
        (*on, "-"): "the list is empty",
        ("batch", "--patterns", "-", "--boards", "-"): "one list can be on standard input",
    }.items():
        done = run(*words)
        assert done.status == 2 and sentence in done.err, words
    assert run(*on, *["board.cir"] * BOARDS, "--shard", "1/1000", "-o", "none.jsonl").status == 1


PROVED = """Heronditch 3.0: what was proved

heronditch  logic=proved codegen=checked theorems=12
finder      logic=proved codegen=checked theorems=3

{sha256}  libheronditch.a
"""


def test_what_was_proved() -> None:
    """The line of PROVED.txt is cited where that is about the archive that was linked, and not else."""
    ours, another = "a" * 64, "b" * 64
    assert verdict_in(PROVED.format(sha256=ours), ours) == "logic=proved codegen=checked theorems=12"
    assert verdict_in(PROVED.format(sha256=another), ours) is None
    assert verdict_in(f"Not known.\n{ours}  libheronditch.a\n", ours) is None
