#!/usr/bin/env python3
"""Compares the shelf program with the second finder's and with the model: compare.py SHELF SECOND

On folders with 0, 1, 16 and 17 files, with gaps, copies, refused and empty files, and circuits that differ in one field of each kind; on random
shelves; on the sample; and tries names that cannot be read, and outputs that fail. Exits 1 and says what went wrong otherwise.
"""
import pathlib
import random
import subprocess
import sys
import tempfile

TOP = pathlib.Path(__file__).resolve().parents[2]
sys.path.insert(0, str(TOP / "tools"))
import model  # noqa: E402

NUMBERS = (0, 1, 255, 256, 511, 65535)
SAMPLE = TOP / "samples" / "shelf"


def pattern(kinds, packages, links):
    return model.encode(model.Packed(kinds, [v for v, _ in links], [w for _, w in links], packages), 2)


# a circuit, and others that differ from it in one field
BASE = ([10, 20, 30], [1, 1, 1], [(0, 1), (1, 2)])
NEAR = [
    ([10, 20, 30, 0], [1, 1, 1, 0], [(0, 1), (1, 2), (2, 3)]),  # N and with it M
    ([10, 20, 30], [1, 1, 1], [(0, 0), (0, 1), (1, 2)]),  # M
    ([10, 20, 256], [1, 1, 1], [(0, 1), (1, 2)]),  # a kind, by its high byte
    ([10, 20, 0], [1, 1, 1], [(0, 1), (1, 2)]),  # a kind
    ([10, 20, 30], [1, 1, 256], [(0, 1), (1, 2)]),  # a package, by its high byte
    ([10, 20, 30], [1, 0, 1], [(0, 1), (1, 2)]),  # a package
    ([10, 20, 30], [1, 1, 1], [(1, 1), (1, 2)]),  # a start (and refused, 6)
    ([10, 20, 30], [1, 1, 1], [(0, 2), (1, 2)]),  # an end
    ([10, 20, 30], [1, 1, 1], [(0, 1), (2, 1)]),  # a start and an end
]
REFUSED = [
    b"",
    b"\x01\x00\x00",
    pattern([], [], []),
    pattern(*BASE)[:-1],
    pattern(*BASE) + b"\x00",
    pattern([1], [0], [(0, 1)]),
    pattern([1, 2], [0, 0], [(0, 1), (0, 1)]),
    pattern([1, 2], [0, 0], []),  # 6
    pattern([1] * 14, [0] * 14, [(v, v + 1) for v in range(13)]),  # 11
    pattern([1] * 33, [0] * 33, [(0, v) for v in range(1, 33)]),
    b"\x20\x00\x00\x01" + b"\x00" * 1153,  # one byte longer than the longest
    b"\x20\x00\x00\x01" + b"\x00" * 5000,
]
# the largest pattern: 32 parts and 256 links
LARGE = pattern(list(range(32)), [7] * 32, [(v, w) for v in range(32) for w in range(8)])
ONE = pattern([10], [0], [])


def fixed():
    base = pattern(*BASE)
    near = [pattern(*circuit) for circuit in NEAR]
    yield []
    yield [base]
    yield [None, base]
    yield [base, None, base]
    yield [ONE] * 16
    yield [ONE] * 17
    yield [base, *near, base, LARGE, ONE, LARGE]
    yield [*reversed(near), base, base]
    for file in near:
        yield [file, base]
        yield [base, file]
        yield [base, file, base, file]
    for file in REFUSED:
        yield [file]
        yield [base, file, ONE]
    yield [*REFUSED, ONE]
    yield [LARGE[:-1] + b"\x01", LARGE, ONE]
    yield [pattern([k], [p], []) for k in (256, 1) for p in (256, 1, 0)]


def shelves():
    rng = random.Random(10)
    for _ in range(200):
        files = []
        for _ in range(rng.choice((2, 5, 16, 17))):
            kinds, packages, links = rng.choice([BASE, *NEAR])
            kinds, packages = list(kinds), list(packages)
            rng.choice((kinds, packages))[rng.randrange(len(kinds))] = rng.choice(NUMBERS)
            files.append(rng.choice([pattern(kinds, packages, links)] * 8 + files + [rng.choice(REFUSED), None]))
        yield files


def folder(where, files):
    path = pathlib.Path(tempfile.mkdtemp(dir=where))
    for number, data in enumerate(files):
        if data is not None:
            (path / f"p{number:02}.cir").write_bytes(data)
    return path


def run(program, path, **more):
    return subprocess.run([program], cwd=path, capture_output=True, check=False, **more)


def check_folders(shelf, second, where):
    count = 0
    for files in [*fixed(), *shelves()]:
        path = folder(where, files)
        expected = model.shelf_text(files)
        told = run(shelf, path)
        assert run(second, path).stdout == expected, f"the second finder and the model differ on {files}"
        assert told.stdout == expected and not told.stderr, f"the shelf {files} differs: {told}"
        count += 1
    return count


def check_failures(shelf, where):
    path = folder(where, [ONE, ONE])
    (path / "p02.cir").mkdir()
    told = run(shelf, path)
    assert told.stdout == b"" and told.stderr == b"cannot read p02.cir\n", told
    path = folder(where, [ONE])
    (path / "p01.cir").symlink_to("p01.cir")
    told = run(shelf, path)
    assert told.stdout == b"" and told.stderr == b"cannot read p01.cir\n", told
    path = folder(where, [ONE] * 3)
    with open("/dev/full", "wb") as full:
        told = subprocess.run([shelf], cwd=path, stdout=full, stderr=subprocess.PIPE, check=False)
    assert told.stderr.startswith(b"the list is not whole"), told
    closed = subprocess.run(["sh", "-c", '"$0" >&-', shelf], cwd=path, stderr=subprocess.PIPE, check=False)
    assert closed.stderr.startswith(b"the list is not whole"), closed


def main():
    shelf, second = (str(pathlib.Path(word).resolve()) for word in sys.argv[1:])
    with tempfile.TemporaryDirectory() as where:
        count = check_folders(shelf, second, where)
        check_failures(shelf, where)
    assert run(shelf, SAMPLE).stdout == (SAMPLE / "shelf.txt").read_bytes(), "the sample"
    print(f"{count} shelves agree with the second finder and the model; failures told")


if __name__ == "__main__":
    main()
