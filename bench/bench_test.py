#!/usr/bin/env python3
"""Tests what the report is compared with: bench_test.py SECOND NATIVE [CASES]

SECOND is the second finder's report program, NATIVE the one of
native_report.c. The networkx finder and NATIVE must print the same as SECOND on
the sample, on random small boards, on faulty files and on the benchmark boards
that are quick. The boards must be those of the digests below. Status 1 on a
failure. It needs networkx.
"""

import hashlib
import pathlib
import subprocess
import sys
import tempfile

sys.dont_write_bytecode = True

import boards
import networkx_finder

HERE = pathlib.Path(__file__).resolve().parent
DIGESTS = {
    "chain/board.cir": "fd0db2d0147e31ae",
    "chain/pattern.cir": "cb1360202634073f",
    "full-random/board.cir": "4fe1cc63dbf13f7b",
    "full-random/pattern.cir": "c887396608fbbf82",
    "no-pair-12/board.cir": "41daf89a3b342909",
    "no-pair-12/pattern.cir": "e43fb78277c84f2f",
    "no-pair/board.cir": "41daf89a3b342909",
    "no-pair/pattern.cir": "b94e35e326ec9854",
    "one-kind-dense/board.cir": "9c80276ef8ed6fdd",
    "one-kind-dense/pattern.cir": "4e34a22fb2fdb9e1",
    "one-kind-sparse/board.cir": "985ff01fe9b2e060",
    "one-kind-sparse/pattern.cir": "766faad0b61da8a5",
    "one-kind/board.cir": "0d6409980772ac07",
    "one-kind/pattern.cir": "7825f093312cecf6",
    "one-part/board.cir": "099e5ce74a66c154",
    "one-part/pattern.cir": "a90d4563c6a0ae04",
    "planted-32/board.cir": "07e8addea288562b",
    "planted-32/pattern.cir": "0fa047cfe4cf5f03",
    "planted/board.cir": "523f27f4b73cf1a3",
    "planted/pattern.cir": "591010d95e3ff0f0",
    "strikes-12/board.cir": "03f90f8b50a6217f",
    "strikes-12/pattern.cir": "9b70668aaa467cd3",
    "strikes-small/board.cir": "61512109b80813da",
    "strikes-small/pattern.cir": "d8719584798ea423",
    "strikes/board.cir": "03f90f8b50a6217f",
    "strikes/pattern.cir": "0d90b09501777848",
}
QUICK = ("planted", "chain", "no-pair", "no-pair-12", "one-part", "strikes", "strikes-small")

FAULTY = [
    b"", b"\x02\x00\x01", bytes(4), b"\x01\x00\x00\x00",
    b"\x01\x00\x01\x00\x0a\x00\x00\x00\x01\x00",
    b"\x01\x00\x02\x00\x0a\x00\x00\x00\x00\x00\x00\x00\x00\x00",
    b"\x02\x00\x00\x00\x0a\x00\x14\x00",
    boards.circuit_file([1] * 14, [(v, v + 1) for v in range(13)]),
    boards.circuit_file([1] * 33, [(v, v + 1) for v in range(32)]),
    boards.circuit_file([1] * 513, []),
]


def reports(programs, folder):
    """The reports of the programs, and that of the networkx finder."""
    for program in programs:
        yield subprocess.run([program, folder], capture_output=True, text=True, check=True).stdout
    yield "".join(line + "\n" for line in networkx_finder.report_lines(folder))


def write(folder, pattern, board):
    """Puts two files into a folder."""
    (folder / "pattern.cir").write_bytes(pattern)
    (folder / "board.cir").write_bytes(board)


def small_case(random):
    """A small pattern, and a board of copies of it and of noise."""
    parts, kinds = 1 + random.below(7), 1 + random.below(4)
    pattern_kinds = [1 + random.below(kinds) for _ in range(parts)]
    pattern_links = boards.random_tree(random, parts)
    for _ in range(random.below(parts + 2)):
        pattern_links.add((random.below(parts), random.below(parts)))
    board_kinds, links = [], set()
    for _ in range(random.below(5)):
        at = []
        for kind in pattern_kinds:
            same = [node for node, other in enumerate(board_kinds) if other == kind]
            if same and random.below(4) == 0:
                at.append(same[random.below(len(same))])
            else:
                at.append(len(board_kinds))
                board_kinds.append(kind)
        links |= {(at[u], at[t]) for u, t in pattern_links if random.below(25)}
    board_kinds += [random.below(kinds + 1) for _ in range(random.below(8))]
    if board_kinds:
        for _ in range(random.below(10)):
            links.add((random.below(len(board_kinds)), random.below(len(board_kinds))))
    return boards.circuit_file(pattern_kinds, pattern_links), boards.circuit_file(board_kinds, links)


def check(name, programs, folder):
    """Demands the same report of all finders, and returns it."""
    second, native, networkx = reports(programs, folder)
    if not second == native == networkx:
        kept = "".join(f"{file} {(folder / file).read_bytes().hex()}\n" for file in ("pattern.cir", "board.cir"))
        sys.exit(f"{name}: reports differ\n{kept}second:\n{second}native:\n{native}networkx:\n{networkx}")
    return second


def check_random(programs, folder, cases):
    """Random small boards; prints how many centres have a place."""
    found = centres = 0
    for case in range(cases):
        write(folder, *small_case(boards.Random(case)))
        words = check(f"random case {case}", programs, folder).splitlines()[-1].split()
        found, centres = found + int(words[1]), centres + int(words[3])
    print(f"{cases} random boards: {found} of {centres} centres have a place")


def check_faulty(programs, folder):
    """Faulty files as pattern and as board, and files that are not there."""
    good = boards.circuit_file([10, 20], [(0, 1)])
    for number, faulty in enumerate(FAULTY):
        for pattern, board in ((faulty, good), (good, faulty), (faulty, b"")):
            write(folder, pattern, board)
            check(f"faulty file {number}", programs, folder)
    (folder / "board.cir").unlink()
    (folder / "pattern.cir").write_bytes(good)
    if set(reports(programs, folder)) != {"refused 1 board\n"}:
        sys.exit("a board that is not there is not refused")


def check_boards(programs, folder):
    """The benchmark boards' digests, and the reports on those that are quick."""
    subprocess.run([sys.executable, HERE / "boards.py", folder], check=True)
    for path in sorted(folder.glob("*/*.cir")):
        name = f"{path.parent.name}/{path.name}"
        digest = hashlib.sha256(path.read_bytes()).hexdigest()[:16]
        if DIGESTS.get(name) != digest:
            sys.exit(f"{name} has another digest: {digest}")
    for name in QUICK:
        print(f"{name}: {check(name, programs, folder / name).splitlines()[-1]}")


def main():
    """Runs all tests."""
    if len(sys.argv) not in (3, 4):
        sys.exit(__doc__)
    programs, cases = sys.argv[1:3], int(sys.argv[3]) if len(sys.argv) == 4 else 300
    sample = HERE.parent / "samples" / "mute"
    if check("the sample", programs, sample) != (sample / "report.txt").read_text():
        sys.exit("the sample has another report")
    with tempfile.TemporaryDirectory() as name:
        folder = pathlib.Path(name)
        check_random(programs, folder, cases)
        check_faulty(programs, folder)
        check_boards(programs, folder / "boards")
    print("bench: all tests passed")


if __name__ == "__main__":
    main()
