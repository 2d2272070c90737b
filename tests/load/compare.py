#!/usr/bin/env python3
"""Compares the program that makes test loads with the second finder's and with the model: on the table of docs/LOADS.md, on random numbers and on
the edges of their ranges; and tries words that are no numbers, and outputs that fail.

    tests/load/compare.py LOADER SECOND           compares, and says how many loads agree
    tests/load/compare.py --table SECOND          prints the table of docs/LOADS.md as the second finder makes it
"""
import hashlib
import pathlib
import random
import re
import subprocess
import sys

TOP = pathlib.Path(__file__).resolve().parents[2]
sys.path.insert(0, str(TOP / "tools"))
import model  # noqa: E402

TABLE = TOP / "docs" / "LOADS.md"
ROW = re.compile(r"^\| *(\d+) *\| *(\d+) *\| *(\d+) *\| *(\d+) *\| *(\d+) *\| *`([0-9a-f]{64})` *\|$", re.M)


def made(program, words, **more):
    return subprocess.run([program, *map(str, words)], capture_output=True, check=False, **more)


def row(words, data):
    return "| " + " | ".join(str(x) for x in (*words, len(data))) + f" | `{hashlib.sha256(data).hexdigest()}` |"


def rows():
    found = [tuple(map(int, m.groups()[:5])) + (m.group(6),) for m in ROW.finditer(TABLE.read_text())]
    assert len(found) >= 10, "docs/LOADS.md has no table"
    return found


def random_loads():
    rng = random.Random(3)
    for _ in range(150):
        yield rng.randrange(2**32), rng.randint(1, 512), rng.randint(0, rng.choice((5, 200, 4096))), rng.randint(1, rng.choice((3, 500, 65536)))
    for n in (1, 2, 512):
        for m in (0, 1, 4096):
            for k in (1, 2, 65536):
                yield rng.choice((0, 1, 2**31, 2**32 - 1)), n, m, k


def check_loads(loader, second):
    loads = [(*r[:4],) for r in rows()] + list(random_loads())
    for words in loads:
        told = made(loader, words)
        expected = model.load(*words)
        assert made(second, words).stdout == expected, f"the second finder and the model differ on {words}"
        assert told.stdout == expected and not told.stderr, f"the load {words} differs"
    for *words, length, digest in rows():
        data = model.load(*words)
        assert (len(data), hashlib.sha256(data).hexdigest()) == (length, digest), f"docs/LOADS.md differs on {words}"
    return len(loads)


def check_refusals(loader):
    bad_words = ["", "x", "-1", "+1", "1 ", " 1", "1.0", "0x1", "4294967296", "9999999999", "1" * 33, "1" * 300, "\u0661", "1\n"]
    good = [1, 2, 3, 4]
    calls = [good[:at] + [word] + good[at + 1 :] for at in range(4) for word in bad_words]
    calls += [good[:count] for count in range(4)] + [good + [5]]
    for words in calls:
        told = made(loader, words)
        assert not told.stdout and told.stderr.startswith(b"usage: "), f"{words}: {told}"
    for words in [(1, 0, 1, 1), (1, 513, 1, 1), (1, 1, 4097, 1), (1, 1, 1, 0), (1, 1, 1, 65537), (1, 4294967295, 1, 1)]:
        told = made(loader, words)
        assert not told.stdout and told.stderr.startswith(b"refused 10"), f"{words}: {told}"
    return len(calls) + 6


def check_outputs(loader):
    words = [str(x) for x in (1, 512, 4096, 65536)]
    with open("/dev/full", "wb") as full:
        told = subprocess.run([loader, *words], stdout=full, stderr=subprocess.PIPE, check=False)
    assert told.stderr.startswith(b"the load is not whole"), told
    closed = subprocess.run(["sh", "-c", '"$0" "$@" >&-', loader, *words], stderr=subprocess.PIPE, check=False)
    assert closed.stderr.startswith(b"the load is not whole"), closed


def main():
    if sys.argv[1] == "--table":
        for *words, _, _ in rows():
            print(row(words, made(sys.argv[2], words).stdout))
        return
    loader, second = sys.argv[1:]
    count = check_loads(loader, second)
    refused = check_refusals(loader)
    check_outputs(loader)
    print(f"{count} loads agree with the second finder, the model and docs/LOADS.md; {refused} bad calls refused; failing outputs told")


if __name__ == "__main__":
    main()
