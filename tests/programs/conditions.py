#!/usr/bin/env python3
"""Runs the programs under conditions that affect how they read: conditions.py FINDER SHELF LOADER

Standard input closed, so that a file opens as 0; a file that fails half-way; one of just the buffer's length, and one longer than the buffer; words
that a program does not take. Exits 1 and says what went wrong otherwise.
"""
import os
import pathlib
import subprocess
import sys
import tempfile

TOP = pathlib.Path(__file__).resolve().parents[2]
sys.path.insert(0, str(TOP / "tools"))
import model  # noqa: E402

FAILING = pathlib.Path(__file__).with_name("failing_read.c")
ONE = model.encode(model.Circuit([7], [], []))
ONE_PACKED = model.encode(model.Packed([7], [], [], [0]), 2)
REPORT = b"place 0: 0 /\nend 1 of 1\n"
PATTERN_BYTES = 4 + 2 * 32 + 4 * 256 + 1  # the buffers: a byte more than the longest file that is accepted
BOARD_BYTES = 4 + 2 * 512 + 4 * 4096 + 1
SHELF_BYTES = 4 + 4 * 32 + 4 * 256 + 1
checks = 0


def expect(told, stdout, stderr, what):
    """What a program wrote is this; standard error is given by how it begins, and is one line."""
    global checks
    checks += 1
    is_told = told.stderr.startswith(stderr) and told.stderr.count(b"\n") == 1 if stderr else not told.stderr
    if told.stdout != stdout or not is_told:
        sys.exit(f"conditions.py: {what}: {told}")


def folder(where, files):
    """A folder with these files."""
    path = pathlib.Path(tempfile.mkdtemp(dir=where))
    for name, data in files.items():
        (path / name).write_bytes(data)
    return path


def run(command, path, **more):
    """Runs a program in a folder."""
    return subprocess.run(command, cwd=path, capture_output=True, check=False, **more)


def check_closed(finder, shelf, where):
    """With standard input closed a file opens as 0, and is read as any other."""
    both = folder(where, {"pattern.cir": ONE, "board.cir": ONE})
    expect(run(["sh", "-c", 'exec "$0" <&-', finder], both), REPORT, b"", "finder, standard input closed")
    two = folder(where, {"p00.cir": ONE_PACKED, "p01.cir": ONE_PACKED})
    expect(run(["sh", "-c", 'exec "$0" <&-', shelf], two), b"00\n01\n", b"", "shelf, standard input closed")


def check_half(finder, shelf, where):
    """A file that fails half-way cannot be read: it does not count as one that ends there, nor as absent. What is read of it is a whole circuit."""
    library = pathlib.Path(where) / "failing_read.so"
    subprocess.run(["gcc", "-shared", "-fPIC", "-o", library, FAILING], check=True)
    both = folder(where, {"pattern.cir": ONE + bytes(64), "board.cir": ONE + bytes(64)})
    two = folder(where, {"p00.cir": ONE_PACKED, "p01.cir": ONE_PACKED + bytes(64)})
    for half in (0, 3, len(ONE)):
        for name in ("pattern.cir", "board.cir"):
            env = {**os.environ, "LD_PRELOAD": str(library), "FAILING": "/" + name, "HALF": str(half)}
            expect(run([finder], both, env=env), b"", f"cannot read {name}\n".encode(), f"finder, {name} fails after {half} bytes")
    for half in (0, 3, len(ONE_PACKED)):
        env = {**os.environ, "LD_PRELOAD": str(library), "FAILING": "/p01.cir", "HALF": str(half)}
        expect(run([shelf], two, env=env), b"", b"cannot read p01.cir\n", f"shelf, p01.cir fails after {half} bytes")


def check_lengths(finder, shelf, where):
    """Files about the buffers' lengths are read, and refused by their own."""
    for more in (-1, 0, 1, 5000):
        pattern = ONE + bytes(PATTERN_BYTES + more - len(ONE))
        path = folder(where, {"pattern.cir": pattern, "board.cir": ONE})
        expect(run([finder], path), b"refused 3 pattern\n", b"", f"finder, a pattern of {len(pattern)} bytes")
        board = ONE + bytes(BOARD_BYTES + more - len(ONE))
        path = folder(where, {"pattern.cir": ONE, "board.cir": board})
        expect(run([finder], path), b"refused 3 board\n", b"", f"finder, a board of {len(board)} bytes")
        file = ONE_PACKED + bytes(SHELF_BYTES + more - len(ONE_PACKED))
        path = folder(where, {"p00.cir": file, "p01.cir": ONE_PACKED})
        expect(run([shelf], path), b"01\n", b"", f"shelf, a file of {len(file)} bytes")


def check_told(finder, shelf, loader, where):
    """A word that a program does not take is told, and nothing is printed."""
    path = folder(where, {"pattern.cir": ONE, "board.cir": ONE, "p00.cir": ONE_PACKED})
    for words in (["."], ["--help"], [""], ["samples/mute", "x"]):
        expect(run([finder, *words], path), b"", b"finder takes no argument: ", f"finder {words}")
        expect(run([shelf, *words], path), b"", b"shelf takes no argument: ", f"shelf {words}")
    for words in ([], ["--help"], ["1", "2", "3"], ["1", "2", "3", "4", "5"], ["1", "2", "3", "x"]):
        expect(run([loader, *words], path), b"", b"usage: loader SEED N M K", f"loader {words}")


def main():
    """Runs the programs under each condition."""
    finder, shelf, loader = (str(pathlib.Path(word).resolve()) for word in sys.argv[1:])
    with tempfile.TemporaryDirectory() as where:
        check_closed(finder, shelf, where)
        check_half(finder, shelf, where)
        check_lengths(finder, shelf, where)
        check_told(finder, shelf, loader, where)
    print(f"conditions of reading and words that are not taken: {checks} checks")


if __name__ == "__main__":
    main()
