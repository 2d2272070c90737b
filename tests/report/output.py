#!/usr/bin/env python3
"""Tries outputs that fail: output.py FINDER RUN PROGRAM

FINDER is the report program, RUN the script that runs it, PROGRAM the report program in C. Each prints a report of many megabytes to an output
that is full, closed, cut short, does not block, or whose reader goes away. The output is always the beginning of the report; if it is not the
whole report, a line on standard error says so, and RUN and PROGRAM give status 2. Exits 1 and says what went wrong otherwise.
"""
import fcntl
import os
import resource
import signal
import subprocess
import sys
import tempfile
import time
from pathlib import Path

sys.path.insert(0, str(Path(__file__).resolve().parents[2] / "bench"))
import boards  # noqa: E402

LIMIT = 1000000
checks = 0


def check(is_so, *what):
    """Counts a check, and ends the test where it fails."""
    global checks
    checks += 1
    if not is_so:
        sys.exit("failed: " + " ".join(map(str, what)))


class Program:
    """One of the programs, with what it is called by on the folder, and the status it gives where the report is not whole."""

    def __init__(self, name, command, cwd, failed):
        self.name, self.command, self.cwd, self.failed = name, command, cwd, failed

    def start(self, stdout, **options):
        """Starts it with an output."""
        return subprocess.Popen(self.command, cwd=self.cwd, stdout=stdout, stderr=subprocess.PIPE, **options)

    def judge(self, what, whole, got, process, status):
        """The output is the beginning of the report; if it is not all of it, an error is reported with the status given."""
        error = process.stderr.read()
        process.wait()
        check(whole.startswith(got), self.name, what, "no front of the report,", len(got), "bytes")
        if got == whole:
            check(process.returncode == 0 and error == b"", self.name, what, "whole, and yet", process.returncode, error)
        else:
            check(process.returncode == status, self.name, what, "status", process.returncode, "and not", status)
            check(error.endswith(b"\n") or status < 0, self.name, what, "nothing said")


def programs(folder, paths):
    """The three programs on the files of a folder. The report program has no status of its own."""
    finder, run, program = paths
    files = [str(folder / "pattern.cir"), str(folder / "board.cir")]
    return [
        Program("finder", [finder], folder, 0),
        Program("run", [run, str(folder)], None, 2),
        Program("program in C", [program, *files], None, 2),
    ]


def read_all(end, pause=0.0):
    """All that comes out of a pipe, read in bits."""
    got = bytearray()
    while True:
        time.sleep(pause)
        part = os.read(end, 65536)
        if not part:
            os.close(end)
            return bytes(got)
        got += part


def pipe_of(program, is_blocking, **options):
    """Starts a program on a pipe, and gives the pipe's other end."""
    end, other = os.pipe()
    if not is_blocking:
        fcntl.fcntl(other, fcntl.F_SETFL, os.O_NONBLOCK)
    process = program.start(other, **options)
    os.close(other)
    return process, end


def full_device(program, whole):
    """A device that is full: nothing comes out."""
    with open("/dev/full", "wb") as device:
        process = program.start(device)
    program.judge("on a full device", whole, b"", process, program.failed)


def closed(program, whole):
    """No output at all."""
    process = subprocess.Popen(["sh", "-c", 'exec "$@" >&-', "sh", *program.command], cwd=program.cwd, stderr=subprocess.PIPE)
    program.judge("with its output closed", whole, b"", process, program.failed)


def limited(program, whole):
    """A file that may not grow further: the last write is cut short, and the next one fails."""
    def limit():
        signal.signal(signal.SIGXFSZ, signal.SIG_IGN)
        resource.setrlimit(resource.RLIMIT_FSIZE, (LIMIT, LIMIT))

    with tempfile.NamedTemporaryFile() as file:
        process = program.start(file, preexec_fn=limit, restore_signals=False)
        process.wait()
        got = Path(file.name).read_bytes()
    check(len(got) == LIMIT, program.name, "stopped after", len(got))
    program.judge("on a file that is full", whole, got, process, program.failed)


def slow(program, whole):
    """A reader that is slow, on a pipe that does not block."""
    process, end = pipe_of(program, False)
    got = read_all(end, 0.002)
    check(got == whole or program.name == "run", program.name, "not whole for a slow reader")
    program.judge("for a slow reader", whole, got, process, program.failed)


def stalled(all_programs, whole):
    """Readers that wait until the program gives up, on pipes that do not block."""
    started = [(program, *pipe_of(program, False)) for program in all_programs]
    for program, process, end in started:
        process.wait()
        got = read_all(end)
        check(0 < len(got) < len(whole), program.name, "gave", len(got), "bytes to nobody")
        program.judge("for a reader that stands still", whole, got, process, program.failed)


def gone(program, whole):
    """A reader that goes away: each program says so. (Today's runtime lets no signal end the report program there.)"""
    process, end = pipe_of(program, True)
    got = b""
    while len(got) < 100000:
        got += os.read(end, 65536)
    os.close(end)
    program.judge("for a reader that goes away", whole, got, process, program.failed)


def large(folder, paths):
    """A report of many megabytes on each output."""
    finder, run, program = programs(folder, paths)
    whole = subprocess.run([paths[0]], cwd=folder, capture_output=True, check=True).stdout
    check(len(whole) > 10000000 and whole.endswith(b"\nend 512 of 512\n"), "the report has", len(whole), "bytes")
    for each in (finder, run, program):
        process, end = pipe_of(each, True)
        got = read_all(end)
        check(got == whole, each.name, "gives another report")
        each.judge("on a pipe", whole, got, process, 0)
        full_device(each, whole)
        closed(each, whole)
        limited(each, whole)
        slow(each, whole)
        gone(each, whole)
    stalled((finder, run, program), whole)
    process, end = pipe_of(finder, True, restore_signals=False)
    os.close(end)
    finder.judge("for a reader that is gone and told of", whole, b"", process, 0)


def short(paths):
    """A file that cannot be read is said on standard error alone; a refused file's line is a whole report."""
    one = boards.circuit_file([1], [])
    wide = boards.circuit_file([1] * 14, [(v, v + 1) for v in range(13)])
    for is_readable, pattern, line, statuses in ((False, None, b"", (0, 2, 2)), (True, None, b"refused 1 pattern\n", (0, 0, 1)),
                                                 (True, wide, b"refused 11 pattern\n", (0, 0, 1))):
        with tempfile.TemporaryDirectory() as name:
            folder = Path(name)
            (folder / "board.cir").write_bytes(one)
            if not is_readable:
                (folder / "pattern.cir").mkdir()
            elif pattern:
                (folder / "pattern.cir").write_bytes(pattern)
            for program, status in zip(programs(folder, paths), statuses):
                said = subprocess.run(program.command, cwd=program.cwd, capture_output=True, check=False)
                check((said.stdout, said.returncode) == (line, status), program.name, said)
                check(said.stderr.startswith(b"" if is_readable else b"cannot read "), program.name, said)
                check(bool(said.stderr) != is_readable, program.name, said)


def main():
    """Makes a board with a large report, and tries the programs on it."""
    paths = [os.path.abspath(name) for name in sys.argv[1:4]]
    with tempfile.TemporaryDirectory() as name:
        boards.make(Path(name), "one-kind-dense")
        large(Path(name) / "one-kind-dense", paths)
    short(paths)
    print(f"output: {checks} checks")


if __name__ == "__main__":
    main()
