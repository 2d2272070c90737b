#!/usr/bin/env python3
"""Compares the report program with the second finder's and with the one in C: compare.py FINDER SECOND PROGRAM

All are run in folders with files made here: random boards with copies of the pattern, boards in which what matches hangs together and balls cut
it in every way, the edges of the report's lines, damaged and absent files. Exits 1 on a difference, naming the folder, which is kept.
"""
import os
import random
import shutil
import subprocess
import sys
import tempfile
from pathlib import Path

for place in ("bench", "tools"):
    sys.path.insert(0, str(Path(__file__).resolve().parents[2] / place))
from boards import circuit_file as encode  # noqa: E402
from model import match_table  # noqa: E402


def tree(rng, parts):
    """Links that join all parts, some both ways."""
    links = set()
    for part in range(1, parts):
        other = rng.randrange(part)
        links.add((part, other) if rng.random() < 0.5 else (other, part))
        if rng.random() < 0.3:
            links |= {(part, other), (other, part)}
    return links


def planted(rng):
    """A pattern and a board with copies of it among other nodes and links."""
    parts = rng.choice([1, 2, 3, 5, 8, 12, 32])
    kinds = [rng.randrange(1 + parts // 2) for _ in range(parts)]
    links = tree(rng, parts)
    if rng.random() < 0.2:
        links.add((0, 0))
    copies = rng.randrange(1, 1 + min(40, 500 // parts))
    nodes = kinds * copies
    board = {(c * parts + a, c * parts + b) for c in range(copies) for a, b in links}
    nodes += [rng.randrange(4) for _ in range(rng.randrange(1 + 512 - len(nodes)) // rng.choice([1, 4, 16]))]
    for _ in range(rng.choice([0, 2, 10, 60])):
        if len(board) < 4096:
            board.add((rng.randrange(len(nodes)), rng.randrange(len(nodes))))
    return encode(kinds, links), encode(nodes, board)


def joined(shape, copies):
    """Which copies are joined: in a row, a ring, a tree, a grid of rows, or each to the first."""
    pairs = {
        "row": [(i, i + 1) for i in range(copies - 1)],
        "ring": [(i, (i + 1) % copies) for i in range(copies)],
        "tree": [((i - 1) // 2, i) for i in range(1, copies)],
        "grid": [(i, i + 1) for i in range(copies - 1)] + [(i, i + 6) for i in range(copies - 6)],
        "star": [(0, i) for i in range(1, copies)],
    }
    return pairs[shape]


def hanging(rng):
    """A pattern, and a board on which copies of it are joined by links as the pattern has them, in one piece or a few.

    What matches hangs together along the copies. So a ball holds all of it, or cuts it at an end, on every side, or inside a copy, and what is
    left of a copy that is cut may fall, and with it what it holds up: where the pattern is a ring and the copies are one long ring, all of it. A
    link more is a short cut that matches, or one that brings nodes nearer and does not; a link less lets a copy fall on the whole board.
    """
    parts = rng.choice([2, 2, 3, 3, 4, 6, 9])
    kinds = [rng.randrange(1, 2 + parts) for _ in range(parts)]
    links = {(part, (part + 1) % parts) for part in range(parts)} if rng.random() < 0.4 else tree(rng, parts)
    long = rng.random() < 0.5  # the copies' last links lead on to the next copy, where the pattern is a ring
    nodes, board = [], set()
    for _ in range(rng.choice([1, 1, 2, 5])):
        copies = min(rng.choice([2, 5, 12, 30, 80]), (512 - len(nodes)) // parts)
        at = [range(len(nodes) + copy * parts, len(nodes) + (copy + 1) * parts) for copy in range(copies)]
        nodes += kinds * copies
        for copy in range(copies):
            on = (copy + 1) % copies if long else copy
            board |= {(at[copy][a], at[on if a == parts - 1 and b == 0 else copy][b]) for a, b in links}
        for one, other in joined(rng.choice(["row", "ring", "tree", "grid", "star"]), copies) if copies else []:
            a, b = rng.choice(sorted(links))
            board.add((at[one][a], at[other][b]))
    for _ in range(rng.choice([0, 0, 1, 3])):
        board.add((rng.randrange(len(nodes)), rng.randrange(len(nodes))))
    for _ in range(rng.choice([0, 0, 1, 3])):
        board.discard(rng.choice(sorted(board)))
    order = list(range(len(nodes)))
    rng.shuffle(order)
    moved = [nodes[order.index(node)] for node in range(len(nodes))]
    return encode(kinds, links), encode(moved, {(order[a], order[b]) for a, b in board})


def longest():
    """The longest line that was found: all of 512 nodes, 4,096 links, and no link more than it takes at a node of fewer than three digits.

    A hub with a link to itself drives a leaf. The centre, a hub, drives every node; all other nodes below 101 are leaves, which need no more.
    """
    centre, leaf = 511, 100
    links = {(centre, v) for v in range(512)}
    for v in range(leaf + 1, centre):
        links |= {(v, v), (v, leaf)}
    rng = random.Random(5)
    while len(links) < 4096:
        links.add((rng.randrange(leaf + 1, 512), rng.randrange(leaf + 1, 512)))
    return encode([7, 8], [(0, 0), (0, 1)]), encode([8] * (leaf + 1) + [7] * (511 - leaf), links)


def largest(nodes, links):
    """The file of a circuit of so many nodes of one kind in a ring, with so many links."""
    ring = {(v, (v + 1) % nodes) for v in range(nodes)}
    rng = random.Random(6)
    while len(ring) < links:
        ring.add((rng.randrange(nodes), rng.randrange(nodes)))
    return encode([1] * nodes, ring)


def folders():
    """A name for each folder, and its files' bytes; None for a file that is absent."""
    one = encode([1], [])
    yield "no nodes", one, encode([], [])
    yield "no links", one, encode([1, 2, 1], [])
    yield "self-link", encode([1], [(0, 0)]), encode([1, 1, 1], [(0, 0), (1, 2)])
    yield "no pattern", None, one
    yield "no board", one, None
    yield "neither", None, None
    yield "empty files", b"", b""
    yield "pattern too long", one + bytes(2000), one
    yield "board too long", one, one + bytes(40000)
    yield "both refused", b"\1", b"\2"
    yield "not connected", encode([1, 1], []), one
    for parts in (13, 14):
        yield f"a path of {parts}", encode([1] * parts, [(v, v + 1) for v in range(parts - 1)]), encode([1] * 20, [(v, v + 1) for v in range(19)])
    yield "too wide, and no board", encode([1] * 14, [(v, v + 1) for v in range(13)]), None
    yield "longest line", *longest()
    pattern, board = largest(32, 256), largest(512, 4096)
    yield "largest files", pattern, board
    yield "a byte more than the largest pattern", pattern + b"\0", board
    yield "a byte more than the largest board", pattern, board + b"\0"
    rng = random.Random(2)
    for number in range(300):
        pattern, board = planted(rng)
        if number % 10 == 9:
            cut = rng.randrange(len(board))
            board = board[:cut] + bytes([rng.randrange(256)]) + board[cut + 1:]
        yield f"random {number}", pattern, board
    rng = random.Random(3)
    for number in range(200):
        yield f"cut {number}", *hanging(rng)


def unreadable(finder):
    """A name that is there and is no file is told on standard error, for each of the two, and nothing is printed."""
    one = encode([1], [])
    for missing, there in (("pattern.cir", "board.cir"), ("board.cir", "pattern.cir")):
        folder = Path(tempfile.mkdtemp())
        (folder / there).write_bytes(one)
        (folder / missing).mkdir()
        said = subprocess.run([finder], cwd=folder, capture_output=True, check=False)
        if (said.stdout, said.stderr) != (b"", f"cannot read {missing}\n".encode()):
            sys.exit(f"not told that {missing} cannot be read, in {folder}")
        shutil.rmtree(folder)


def report(folder, *command):
    """What a program prints in a folder."""
    return subprocess.run(command, cwd=folder, capture_output=True, check=False).stdout


def ways(text, pattern, board):
    """How many places of a report have all that hangs together with them, how many are cut, and how many nodes match and have none around them.

    A place is cut where one around a node of it has a node that it has not.
    """
    table = [0] * 512
    match_table(pattern, board, table)
    places = {}
    for line in text.splitlines():
        if line.startswith(b"place "):
            head, body = line.split(b":")
            places[int(head[6:])] = frozenset(map(int, body.split(b"/")[0].split()))
    known = {place: place for place in places.values()}
    around = {centre: known[place] for centre, place in places.items()}
    is_cut = {place: any(not other <= place for other in {around[v] for v in place if v in around}) for place in known}
    total = sum(is_cut[place] for place in around.values())
    return len(around) - total, total, sum(1 for entry in table if entry) - len(around)


def main():
    """Compares the programs in each folder."""
    finder, second, program = (os.path.abspath(name) for name in sys.argv[1:4])
    places = lines = most = 0
    seen = (0, 0, 0)
    rng = random.Random(4)
    for name, pattern, board in folders():
        folder = Path(tempfile.mkdtemp())
        for file, content in (("pattern.cir", pattern), ("board.cir", board)):
            if content is not None:
                (folder / file).write_bytes(content)
        one = report(folder, finder)
        lent = rng.choice([[], ["34829"], ["200000"]])  # at once, or piece by piece
        others = report(folder, second), report(folder, program, "pattern.cir", "board.cir", *lent)
        if others != (one, one) or not one.endswith(b"\n"):
            sys.exit(f"the reports differ: {name}, in {folder}")
        lines += one.count(b"\n")
        places += one.count(b"place ")
        most = max(most, max(map(len, one.split(b"\n"))) + 1)
        if name.startswith("cut "):
            seen = tuple(map(sum, zip(seen, ways(one, pattern, board))))
        shutil.rmtree(folder)
    unreadable(finder)
    if min(seen) < 1000:
        sys.exit(f"where what matches hangs together, too few of a way: {seen}")
    if most != 34609:
        sys.exit(f"the longest line has {most} bytes, and not 34,609")
    print(f"{lines} lines are the same, {places} of them places, the longest of {most} bytes")
    print("where what matches hangs together: {} places have all of it, {} are cut, {} nodes have none around them".format(*seen))


if __name__ == "__main__":
    main()
