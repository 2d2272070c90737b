#!/usr/bin/env python3
"""Makes a shelf of patterns and boards of mixed size, from seeds: pairs.py FOLDER [BOARDS]

The same files come out on every machine. FOLDER gets

  patterns        16 patterns of 3 to 24 parts
  boards/test     half of the boards (500 of 1,000): test boards (docs/LOADS.md)
  boards/planted  four tenths: other nodes and links with copies of one to three
                  of the patterns
  boards/full     the rest: a copy of every pattern, so that each pair has a place
"""

from __future__ import annotations

import pathlib
import sys
from typing import Iterable, Sequence

sys.path.insert(0, str(pathlib.Path(__file__).resolve().parents[1] / "tools"))

from boards import Random, add_links, circuit_file, random_tree  # noqa: E402
from model import load  # noqa: E402

Links = set[tuple[int, int]]
Circuit = tuple[list[int], Links]

PARTS = [3, 4, 5, 6, 6, 7, 8, 8, 9, 10, 11, 12, 12, 14, 16, 24]  # of the patterns
KINDS = 40  # kinds of the patterns and of the planted boards, from 1 on
SIZES = [24, 40, 64, 100, 160, 256, 400, 512]  # nodes of the boards


def radius(links: Links, parts: int) -> int:
    """The largest distance between two parts, directions ignored."""
    far = [[0 if a == b else 1 if {(a, b), (b, a)} & links else parts for b in range(parts)] for a in range(parts)]
    for by in range(parts):
        for a in range(parts):
            for b in range(parts):
                far[a][b] = min(far[a][b], far[a][by] + far[by][b])
    return max(map(max, far))


def pattern(number: int) -> Circuit:
    """A connected pattern of radius 12 at most: a tree and a few more links."""
    parts = PARTS[number]
    random = Random(1000 + number)
    while True:
        links = random_tree(random, parts)
        add_links(random, links, parts, parts + parts // 4)
        if radius(links, parts) <= 12:
            return [1 + random.below(KINDS) for _ in range(parts)], links


def test_board(seed: int, sizes: Sequence[int]) -> bytes:
    """A test board of a size, with two to eight links drawn for a node and kinds as many as the patterns have, or fewer."""
    random = Random(seed)
    nodes = sizes[random.below(len(sizes))]
    return bytes(load(seed, nodes, nodes * (2 + random.below(7)), [8, 20, KINDS][random.below(3)]))


def planted(seed: int, chosen: Iterable[Circuit], nodes: int) -> bytes:
    """A board of at least so many nodes in a random order: a copy of each of the chosen patterns, others, and links between all of them."""
    random = Random(seed)
    kinds: list[int] = []
    links: Links = set()
    for parts, joined in chosen:
        links |= {(len(kinds) + a, len(kinds) + b) for a, b in joined}
        kinds += parts
    kinds += [1 + random.below(KINDS) for _ in range(nodes - len(kinds))]
    add_links(random, links, len(kinds), len(links) + 2 * len(kinds))
    order = list(range(len(kinds)))
    random.shuffle(order)
    moved = [kind for _, kind in sorted(zip(order, kinds))]
    return circuit_file(moved, {(order[a], order[b]) for a, b in links})


def some_planted(seed: int, patterns: list[Circuit], sizes: Sequence[int]) -> bytes:
    """A board with copies of one to three of the patterns."""
    random = Random(seed)
    nodes = sizes[random.below(len(sizes))]
    chosen = [patterns[random.below(len(patterns))] for _ in range(1 + random.below(3))]
    return planted(seed, chosen, nodes)


def write(folder: pathlib.Path, name: str, data: bytes) -> None:
    """Writes a file of a folder."""
    folder.mkdir(parents=True, exist_ok=True)
    (folder / f"{name}.cir").write_bytes(data)


def make(folder: pathlib.Path, boards: int = 1000, sizes: Sequence[int] = SIZES) -> None:
    """Makes the patterns and so many boards."""
    patterns = [pattern(number) for number in range(len(PARTS))]
    for number, circuit in enumerate(patterns):
        write(folder / "patterns", f"p{number:02}", circuit_file(*circuit))
    tests, some = boards // 2, boards * 4 // 10
    for number in range(tests):
        write(folder / "boards/test", f"t{number:05}", test_board(number, sizes))
    for number in range(some):
        write(folder / "boards/planted", f"p{number:05}", some_planted(number, patterns, sizes))
    for number in range(boards - tests - some):
        write(folder / "boards/full", f"f{number:05}", planted(number, patterns, sum(PARTS) + number * max(sizes) % 300))


def main() -> None:
    """Makes them in the folder that is told."""
    if not 2 <= len(sys.argv) <= 3 or sys.argv[1].startswith("-"):
        sys.exit(__doc__)
    make(pathlib.Path(sys.argv[1]), *map(int, sys.argv[2:]))


if __name__ == "__main__":
    main()
