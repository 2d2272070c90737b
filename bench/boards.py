#!/usr/bin/env python3
"""Makes the benchmark boards: boards.py FOLDER

Each board is a folder in it with pattern.cir and board.cir. The same files come
out on every machine.

  full-random     512 nodes, 4,096 links and a pattern of 32 parts, all at random
  planted         copies of a pattern of 12 parts on a board of full size
  planted-32      copies of a pattern of 32 parts, 1,400 links
  chain           copies of a pattern of 12 parts in a row: small balls
  one-kind        512 nodes and 4,096 links of one kind, and 32 parts of that kind
  one-kind-dense  the same with 256 pattern links, and nothing to strike
  one-kind-sparse the same with 64 pattern links on 1,000 links
  no-pair         512 nodes and 4,096 links, none of a kind that a part has; the
                  pattern is a path, too wide for a place, so that only the
                  match table takes it
  no-pair-12      the same board, and a pattern of radius 12
  one-part        a pattern of one part: each ball is a single node
  strikes         a row of sets of 15,810 rounds, one pair struck in each; the
                  pattern has radius 16, so that only the match table takes it
  strikes-12      the same with a pattern of radius 12: 11,730 rounds
  strikes-small   the same on 66 nodes: 448 rounds
"""

import pathlib
import struct
import sys


class Random:
    """The generator splitmix64."""

    MASK = 2**64 - 1

    def __init__(self, seed):
        self.state = seed

    def draw(self):
        """The next 64 bits."""
        self.state = (self.state + 0x9E3779B97F4A7C15) & self.MASK
        bits = self.state
        bits = ((bits ^ (bits >> 30)) * 0xBF58476D1CE4E5B9) & self.MASK
        bits = ((bits ^ (bits >> 27)) * 0x94D049BB133111EB) & self.MASK
        return bits ^ (bits >> 31)

    def below(self, bound):
        """A number below a bound."""
        return self.draw() % bound

    def shuffle(self, values):
        """Puts a list in a random order."""
        for last in range(len(values) - 1, 0, -1):
            other = self.below(last + 1)
            values[last], values[other] = values[other], values[last]


def circuit_file(kinds, links):
    """The bytes of a circuit's file."""
    links = sorted(links)
    fields = [len(kinds), len(links), *kinds, *(v for v, _ in links), *(w for _, w in links)]
    return struct.pack(f"<{len(fields)}H", *fields)


def random_tree(random, nodes):
    """Links, each one way or the other, that join all nodes."""
    links = set()
    for node in range(1, nodes):
        other = random.below(node)
        links.add((node, other) if random.below(2) else (other, node))
    return links


def ring(nodes):
    """A link from each node to the next, and from the last to the first."""
    return {(node, (node + 1) % nodes) for node in range(nodes)}


def add_links(random, links, nodes, total):
    """Random links until there are so many."""
    while len(links) < total:
        links.add((random.below(nodes), random.below(nodes)))


def full_random(nodes=512):
    """A board, by default of full size, with eight links a node, and a pattern
    of full size, with three kinds."""
    random = Random(1)
    pattern_kinds = [1 + random.below(3) for _ in range(32)]
    pattern_links = random_tree(random, 32)
    add_links(random, pattern_links, 32, 48)
    kinds = [1 + random.below(3) for _ in range(nodes)]
    links = set()
    add_links(random, links, nodes, 8 * nodes)
    return (pattern_kinds, pattern_links), (kinds, links)


def planted_32():
    """Copies of a pattern of 32 parts and six kinds, among other nodes of its
    kinds, and links at random between all of them."""
    random = Random(4)
    pattern_kinds = [1 + random.below(6) for _ in range(32)]
    pattern_links = random_tree(random, 32)
    add_links(random, pattern_links, 32, 40)
    kinds = pattern_kinds * 12 + [pattern_kinds[random.below(32)] for _ in range(128)]
    links = {(copy * 32 + u, copy * 32 + t) for copy in range(12) for u, t in pattern_links}
    add_links(random, links, 512, 1400)
    return (pattern_kinds, pattern_links), (kinds, links)


def chain(copies=42):
    """Copies of a pattern of 12 parts, each joined to the next by one link, so
    that a ball holds the copies beside the centre's and no others."""
    random = Random(5)
    pattern_kinds = [1 + random.below(4) for _ in range(12)]
    pattern_links = random_tree(random, 12)
    add_links(random, pattern_links, 12, 16)
    links = {(copy * 12 + u, copy * 12 + t) for copy in range(copies) for u, t in pattern_links}
    links |= {(node, node + 1) for node in range(11, 12 * copies - 1, 12)}
    return (pattern_kinds, pattern_links), (pattern_kinds * copies, links)


def planted():
    """Copies of a pattern of 12 parts, some of them with a link less, among
    other nodes, and further links that are none of the pattern's make, so that
    each whole copy is a place of its own."""
    random = Random(2)
    pattern_kinds = [1 + part // 2 for part in range(12)]
    pattern_links = random_tree(random, 12)
    add_links(random, pattern_links, 12, 16)
    kinds, links = [], set()
    for copy in range(40):
        base = len(kinds)
        kinds += pattern_kinds
        copied = sorted(pattern_links)[copy % 4 // 3:]
        links |= {(base + u, base + t) for u, t in copied}
    kinds += [20 + random.below(4) for _ in range(512 - len(kinds))]
    order = list(range(512))
    random.shuffle(order)
    kinds = [kind for _, kind in sorted(zip(order, kinds))]
    links = {(order[v], order[w]) for v, w in links}
    make = {(pattern_kinds[u], pattern_kinds[t]) for u, t in pattern_links}
    while len(links) < 4096:
        start, end = random.below(512), random.below(512)
        if (kinds[start], kinds[end]) not in make:
            links.add((start, end))
    return (pattern_kinds, pattern_links), (kinds, links)


def strikes(parts, nodes):
    """A ring of parts, the first of which drives one more part, on a ring of
    nodes with a hub that drives all of them and itself. All but one node of the
    ring drive the node of the further part. From that one on a single pair is
    struck in each round, if the rings' lengths have no common divisor."""
    pattern_links = ring(parts) | {(0, parts)}
    hub, driven = nodes, nodes + 1
    links = ring(nodes)
    links |= {(v, driven) for v in range(1, nodes)}
    links |= {(hub, v) for v in range(nodes + 2)}
    return ([1] * parts + [2], pattern_links), ([1] * (nodes + 1) + [2], links)


def one_kind():
    """One kind everywhere; some nodes drive nothing or are driven by nothing."""
    random = Random(3)
    pattern_links = random_tree(random, 32)
    add_links(random, pattern_links, 32, 96)
    links = set()
    while len(links) < 4096:
        start, end = random.below(512), random.below(512)
        if start % 16 and end % 16 != 1:
            links.add((start, end))
    return ([7] * 32, pattern_links), ([7] * 512, links)


def one_kind_dense():
    """One kind everywhere, and every node drives another and is driven."""
    random = Random(6)
    pattern_links, links = ring(32), ring(512)
    add_links(random, pattern_links, 32, 256)
    add_links(random, links, 512, 4096)
    return ([7] * 32, pattern_links), ([7] * 512, links)


def one_kind_sparse(nodes=512, total=1000):
    """One kind everywhere, and few links."""
    random = Random(7)
    pattern_links, links = random_tree(random, 32), random_tree(random, nodes)
    add_links(random, pattern_links, 32, 64)
    add_links(random, links, nodes, total)
    return ([7] * 32, pattern_links), ([7] * nodes, links)


def no_pair(length):
    """A path of parts, the rest of 32 beside its middle, and a board with none
    of their kind."""
    random = Random(8)
    links = set()
    add_links(random, links, 512, 4096)
    parts = {(part, part + 1) for part in range(length - 1)}
    parts |= {(length // 2, part) for part in range(length, 32)}
    return ([9] * 32, parts), ([1 + random.below(3) for _ in range(512)], links)


def one_part():
    """One part; the first half of the board has its kind, the rest another."""
    random = Random(9)
    links = set()
    add_links(random, links, 512, 4096)
    return ([1], set()), ([1] * 256 + [2] * 256, links)


BOARDS = {
    "full-random": full_random,
    "planted": planted,
    "planted-32": planted_32,
    "chain": chain,
    "one-kind": one_kind,
    "one-kind-dense": one_kind_dense,
    "one-kind-sparse": one_kind_sparse,
    "no-pair": lambda: no_pair(32),
    "no-pair-12": lambda: no_pair(13),
    "one-part": one_part,
    "strikes": lambda: strikes(31, 510),
    "strikes-12": lambda: strikes(23, 510),
    "strikes-small": lambda: strikes(7, 64),
}


def make(folder, name, circuits=None):
    """Makes the board of a name, or of two circuits."""
    place = pathlib.Path(folder) / name
    place.mkdir(parents=True, exist_ok=True)
    pattern, board = circuits or BOARDS[name]()
    (place / "pattern.cir").write_bytes(circuit_file(*pattern))
    (place / "board.cir").write_bytes(circuit_file(*board))


def main():
    """Makes all boards."""
    if len(sys.argv) != 2 or sys.argv[1].startswith("-"):
        sys.exit(__doc__)
    for name in BOARDS:
        make(sys.argv[1], name)


if __name__ == "__main__":
    main()
