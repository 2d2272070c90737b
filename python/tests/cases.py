"""Cases for the calls on files: the conditions of refusal, the maxima and one past them, every table just long enough and one short, damaged files,
shapes of every kind, rows of many sets, and small random circuits. test_cases.py runs them through the library, against tools/model.py."""

import random

import conftest  # noqa: F401  puts tools/ on the path
import model
from model import Circuit, encode

T = Circuit([10, 20, 30], [0, 1], [1, 2])
B = Circuit([10, 20, 30, 20, 30, 10], [0, 1, 3], [1, 2, 4])

# the examples of document 01's table of refusals, 1 to 6
REFUSED = [
    bytes.fromhex(text)
    for text in ("020001", "00000000", "01000000", "010001000A0000000100", "010002000A000000000000000000", "020000000A001400")
]


def path(n, kind=7):
    return Circuit([kind] * n, list(range(n - 1)), list(range(1, n)))


def full(n, m, rng):
    """n nodes, and m links of which some join every node to node 0."""
    chosen = {(i // 2, i) for i in range(1, n)}
    while len(chosen) < m:
        chosen.add((rng.randrange(n), rng.randrange(n)))
    pairs = sorted(chosen)
    return Circuit([rng.randrange(65536) for _ in range(n)], [a for a, _ in pairs], [b for _, b in pairs])


def raw(*numbers):
    return b"".join(bytes((x % 256, x // 256)) for x in numbers)


def read_cases():
    rng = random.Random(1)
    out = []

    def case(role, data, k=40, s=40, e=40):
        out.append((role, k, s, e, bytes(data)))

    both = ("pattern", "board")
    # the table of refusals in document 01
    for data in REFUSED:
        for role in both:
            case(role, data)
    case("board", encode(B), 2)
    case("pattern", encode(T), 2)
    # 0 to 5 bytes
    for size in range(6):
        for role in both:
            case(role, b"\x00" * size)
            case(role, b"\x01" * size)
    # lengths one short and one long, and all lengths around a small file
    for role, circuit in (("pattern", T), ("board", B)):
        data = encode(circuit)
        for size in range(len(data) + 1):
            case(role, data[:size])
        case(role, data + b"\x00")
        # each table exactly long enough, and one short
        n, m = len(circuit.kinds), len(circuit.starts)
        for k, s, e in ((n, m, m), (n - 1, m, m), (n, m - 1, m), (n, m, m - 1), (0, 0, 0), (n + 1, m + 1, m + 1)):
            case(role, data, k, s, e)
        # 65,535 in each field
        for at in range(0, len(data), 2):
            case(role, data[:at] + b"\xff\xff" + data[at + 2 :])
        # 8 comes after 4, 5 and 6
        case(role, raw(1, 1, 9, 0, 1), 0, 0, 0)
        case(role, raw(1, 2, 9, 0, 0, 0, 0), 0, 0, 0)
    case("pattern", raw(2, 0, 9, 9), 0, 0, 0)
    # 4 anywhere before 5 anywhere; a start out of range, an end out of range
    case("board", raw(3, 3, 1, 1, 1, 0, 0, 1, 1, 1, 3))
    case("board", raw(3, 2, 1, 1, 1, 0, 3, 1, 1))
    case("board", raw(3, 2, 1, 1, 1, 0, 1, 1, 3))
    # links: equal, falling by start, falling by end, a self-link, both directions
    for starts, ends in (
        ([0, 0], [1, 1]),
        ([1, 0], [0, 1]),
        ([0, 0], [2, 1]),
        ([0, 0], [0, 1]),
        ([0, 1], [1, 0]),
        ([2, 2], [0, 2]),
    ):
        for role in both:
            case(role, encode(Circuit([1, 2, 3], starts, ends)))
    # connected only against the links' directions; two halves; kind 0
    case("pattern", encode(Circuit([0, 0, 0], [1, 2], [0, 0])))
    case("pattern", encode(Circuit([0, 0, 0, 0], [0, 2], [1, 3])))
    case("board", encode(Circuit([0, 0, 0, 0], [0, 2], [1, 3])))
    # N and M at 0, 1, the maxima and one past them
    case("board", raw(0, 0))
    case("board", raw(0, 1, 0, 0))
    case("pattern", raw(1, 0, 5))
    case("pattern", raw(1, 1, 5, 0, 0))
    for n in (32, 33):
        for role in both:
            case(role, encode(path(n)))
    # radius 11, 12 and 13: paths, rings, stars of five arms; 6 before 11, 8 after it
    for n in (12, 13, 14):
        case("pattern", encode(path(n)))
        case("pattern", encode(path(n)), 0, 0, 0)
    for n in (23, 24, 25, 26, 27):
        case("pattern", encode(ring(n)))
    for arm in (5, 6):
        case(
            "pattern",
            encode(circuit_of(5 * arm + 1, [(0 if v % arm == 1 else v - 1, v) for v in range(1, 5 * arm + 1)])),
        )
    case("pattern", encode(Circuit([7] * 16, list(range(14)), list(range(1, 15)))))
    case("pattern", encode(full(32, 256, rng)), 40, 300, 300)
    case("pattern", encode(full(32, 257, rng)), 40, 300, 300)
    case("pattern", encode(Circuit([7] * 32, [], [])))
    for n in (512, 513):
        case("board", encode(path(n)), 600, 600, 600)
    case("board", encode(full(512, 4096, rng)), 600, 4200, 4200)
    case("board", raw(512, 4097))
    case("board", raw(513, 4096))
    # damaged files: one byte changed
    for role, circuit in (("pattern", T), ("board", B), ("pattern", full(5, 9, rng)), ("board", full(6, 12, rng))):
        data = encode(circuit)
        for _ in range(60):
            at = rng.randrange(len(data))
            case(role, data[:at] + bytes((rng.randrange(256),)) + data[at + 1 :])
    return out


def circuit_of(n, pairs):
    """n nodes with the links given, in the file's order and each once."""
    pairs = sorted(set(pairs))
    return Circuit([7 * v % 65536 for v in range(n)], [a for a, _ in pairs], [b for _, b in pairs])


def ring(n):
    return circuit_of(n, [(v, (v + 1) % n) for v in range(n)])


def both_ways(circuit):
    pairs = model.links(circuit)
    return circuit_of(len(circuit.kinds), pairs + [(b, a) for a, b in pairs])


def turned(circuit):
    return circuit_of(len(circuit.kinds), [(b, a) for a, b in model.links(circuit)])


def shapes(n):
    """Connected circuits of n nodes: path, path with links in turn each way, ring, star, tree, comb, and with self-links."""
    out = [path(n), turned(path(n)), circuit_of(n, [(v, v + 1) if v % 2 else (v + 1, v) for v in range(n - 1)])]
    out += [ring(n), circuit_of(n, [(0, v) for v in range(1, n)]), circuit_of(n, [(v, n - 1) for v in range(n - 1)])]
    out += [circuit_of(n, [((v - 1) // 2, v) for v in range(1, n)])]
    out += [circuit_of(n, [(v, v + 2) for v in range(0, n - 2, 2)] + [(v + 1, v) for v in range(0, n - 1, 2)])]
    out += [circuit_of(n, [(v, v) for v in range(n)] + model.links(path(n)))]
    return out


def distance_cases():
    rng = random.Random(2)
    out = []

    def case(data, *queries):
        out.append((bytes(data), queries))

    # the table of refusals in document 01, with a centre and a table that would be refused too
    for data in (b"", *REFUSED):
        case(data, (0, 1, 40), (9, 1, 0))
    # each centre of small circuits, at radius 0, 1, the pattern's and 65,535; tables just long enough, short, and longer
    y = circuit_of(3, [(0, 1), (0, 2)])
    for circuit in (
        T,
        B,
        y,
        ring(4),
        circuit_of(4, [(0, 1), (0, 2), (2, 3)]),
        circuit_of(5, [(1, 0), (1, 2), (3, 2), (3, 4), (4, 4)]),
    ):
        n = len(circuit.kinds)
        wide = model.radius(encode(circuit))[1]
        case(
            encode(circuit),
            *((c, r, n) for c in range(n + 2) for r in (0, 1, wide, 65535)),
            (0, 1, n - 1),
            (0, 1, 0),
            (0, 1, n + 3),
            (n, 1, n - 1),
        )
    # centres past every board, also where their low 16 bits are a node
    case(encode(B), *((c, 2, 6) for c in (5, 6, 7, 512, 65535, 65536, 65537, 131072, 2**31, 2**32 - 1)))
    # N = 0 and N = 1
    case(raw(0, 0), (0, 0, 0), (0, 0, 5), (1, 65535, 5), (65536, 1, 0))
    for numbers in ((1, 0, 5), (1, 1, 5, 0, 0)):
        case(raw(*numbers), (0, 0, 1), (0, 65535, 1), (0, 0, 0), (1, 0, 1), (1, 0, 0))
    # the radius of patterns of every shape; the ball at, below and above it
    for n in (2, 3, 5, 8, 31, 32):
        for circuit in shapes(n):
            wide = model.radius(encode(circuit))[1]
            case(encode(circuit), *((c, r, n) for c in (0, n // 2, n - 1) for r in (wide - 1 if wide else 0, wide, wide + 1)))
    case(encode(both_ways(circuit_of(16, [(a, b) for a in range(16) for b in range(a)]))), (3, 0, 16), (3, 1, 16))
    case(encode(full(32, 256, rng)), (0, 1, 32), (31, 2, 32))
    case(encode(both_ways(path(32))), (0, 30, 32), (0, 31, 32))
    for n in range(2, 33, 3):
        circuit = full(n, n + rng.randrange(min(n * (n - 1) // 2, 20) + 1), rng)
        case(encode(circuit), (rng.randrange(n), rng.randrange(4), n), (rng.randrange(n), 2, 40))
    # boards that are not connected, with lone nodes and self-links
    for _ in range(20):
        n = rng.randrange(1, 40)
        pairs = [(rng.randrange(n), rng.randrange(n)) for _ in range(rng.randrange(n + 8))]
        case(encode(circuit_of(n, pairs)), *((rng.randrange(n), r, n + rng.randrange(3)) for r in (0, 1, 2, 5, 65535)))
    # 512 nodes: a path each way, a ring, a star, two halves; 4,096 links
    halves = circuit_of(512, [(v, v + 1) for v in range(511) if v != 255])
    for circuit in (path(512), turned(path(512)), ring(512), circuit_of(512, [(0, v) for v in range(1, 512)]), halves):
        case(
            encode(circuit),
            *((c, r, 512) for c in (0, 255, 511) for r in (0, 1, 2, 254, 255, 256, 510, 511, 65535)),
            (512, 1, 512),
            (511, 1, 511),
            (0, 3, 600),
        )
    case(encode(full(512, 4096, rng)), *((c, r, 600) for c in (0, 100, 511) for r in (0, 1, 2, 3, 65535)))
    return out


def write_cases():
    rng = random.Random(2)
    out = []

    def case(role, kinds, starts, ends, room=300):
        out.append((role, kinds, starts, ends, room))

    both = ("pattern", "board")
    for role in both:
        # nothing given; a kind alone; kind 0 and the largest; a self-link; both directions
        case(role, [], [], [])
        case(role, [], [0], [0])
        case(role, [0], [], [])
        case(role, [65535], [0], [0])
        case(role, [258, 513], [0, 1], [1, 0])
        # not as many starts as ends, one more and one fewer, before what is wrong with the links
        for starts, ends in (([0], []), ([], [0]), ([0, 1], [1]), ([0], [1, 0]), ([9, 9], [9]), ([1, 0], [0, 1, 2])):
            case(role, [1, 2, 3], starts, ends)
        # a start and an end that are no node, first and last; 4 anywhere before 5 anywhere
        for starts, ends in (
            ([3], [0]),
            ([0], [3]),
            ([0, 3], [1, 1]),
            ([0, 1], [1, 65535]),
            ([1, 0, 2], [1, 1, 3]),
            ([0, 0], [3, 3]),
        ):
            case(role, [1, 2, 3], starts, ends)
        # links: equal, falling by start, falling by end, rising by end alone
        for starts, ends in (
            ([0, 0], [1, 1]),
            ([1, 0], [0, 1]),
            ([0, 0], [2, 1]),
            ([0, 0], [0, 1]),
            ([0, 0, 1, 1], [1, 2, 0, 0]),
        ):
            case(role, [1, 2, 3], starts, ends)
        # connected against the links' directions; two halves; no link
        case(role, [0, 0, 0], [1, 2], [0, 0])
        case(role, [0, 0, 0, 0], [0, 2], [1, 3])
        case(role, [7, 7], [], [])
        # 8 comes after 2 to 6
        for kinds, starts, ends in (
            ([], [0], []),
            ([1], [0], []),
            ([1], [0], [1]),
            ([1], [0, 0], [0, 0]),
            ([1, 2], [], []),
        ):
            case(role, kinds, starts, ends, 0)
        # room: each number of bytes around the file's length
        for circuit in (T, B):
            size = len(encode(circuit))
            for room in (0, 1, 3, 4, size - 2, size - 1, size, size + 1, size + 9):
                case(role, *circuit, room)
    # N and M at the maxima and one past them
    for n in (31, 32, 33, 34):
        for role in both:
            case(role, *path(n))
    case("pattern", *full(32, 256, rng), 1500)
    case("pattern", *full(32, 257, rng), 1500)
    case("pattern", [7] * 32, [], [])
    for n in (511, 512, 513):
        case("board", *path(n), 4000)
    case("board", *full(512, 4096, rng), 17412)
    case("board", [7], [0] * 4096, [0] * 4095)
    case("board", [7], [0] * 4097, [])
    # small circuits, some of them sound
    for _ in range(200):
        n, m = rng.randrange(1, 5), rng.randrange(5)
        pairs = [(rng.randrange(n + (rng.random() < 0.1)), rng.randrange(n)) for _ in range(m)]
        if rng.random() < 0.8:
            pairs = sorted(set(pairs))
        case(
            rng.choice(both),
            [rng.randrange(65536) for _ in range(n)],
            [a for a, _ in pairs],
            [b for _, b in pairs],
            rng.randrange(20, 40),
        )
    return out


def circuit(kinds, pairs):
    pairs = sorted(set(pairs))
    return Circuit(list(kinds), [a for a, _ in pairs], [b for _, b in pairs])


def cycle(n, kind=7):
    return circuit([kind] * n, [(i, (i + 1) % n) for i in range(n)])


def star(n, kind=7):
    """One node that drives n - 1 others."""
    return circuit([kind] * n, [(0, i) for i in range(1, n)])


def long_row(k, size):
    """A pattern and a board whose row is about k * size sets long, where k and size have no common divisor.

    The pattern is a cycle of k parts, the first of which also drives a part of another kind; the board is a cycle whose nodes all drive a
    node of that kind, but for the first. The one pair that fails leaves the pair before it without a partner, and so on round both cycles.
    A node with a link to itself, of which every part occurs, keeps the striking from running the other way too.
    """
    pattern = circuit([7] * k + [8], [(i, (i + 1) % k) for i in range(k)] + [(0, k)])
    other, loop = size, size + 1
    pairs = [(i, (i + 1) % size) for i in range(size)] + [(i, other) for i in range(1, size)]
    board = circuit([7] * size + [8, 7], pairs + [(loop, loop), (loop, other), (loop, 1 % size)])
    return pattern, board


def dense(rng, n, m, kinds):
    """n nodes of so many kinds and exactly m links, which join all of them."""
    pairs = {(rng.randrange(i), i) for i in range(1, n)}
    while len(pairs) < m:
        pairs.add((rng.randrange(n), rng.randrange(n)))
    return circuit([rng.randrange(kinds) for _ in range(n)], pairs)


def some_circuit(rng, n, m, kinds, whole):
    pairs = {(rng.randrange(i), i) if rng.random() < 0.5 else (i, rng.randrange(i)) for i in range(1, n)} if whole else set()
    pairs |= {(rng.randrange(n), rng.randrange(n)) for _ in range(m)}
    return circuit([rng.randrange(kinds) for _ in range(n)], pairs)


def table_cases():
    rng = random.Random(2)
    out = []

    def case(pattern, board, lent=None):
        files = [x if isinstance(x, bytes) else encode(x) for x in (pattern, board)]
        out.append((len(board.kinds) if lent is None else lent, *files))

    two_way = circuit([10, 20], [(0, 1), (1, 0)])
    ring = circuit([10, 20, 10, 20], [(0, 1), (1, 2), (2, 3), (3, 0)])
    # E2, E5, and E9's pattern; the table exactly long enough, longer, one short, absent
    for lent in (6, 7, 600, 5, 0):
        case(T, B, lent)
    case(two_way, ring)
    case(two_way, ring, 3)
    case(circuit([10, 20], [(0, 1)]), circuit([10, 20], [(0, 1), (1, 0)]))
    # striking in one round only, and striking from a set that is partly new, both give other tables here
    case(path(4), path(9))
    case(path(9), path(4))
    case(path(3), cycle(5))
    # forward links alone, backward links alone
    case(star(3), circuit([7] * 5, [(0, 1), (0, 2), (3, 4)]))
    case(circuit([1, 2, 2], [(1, 0), (2, 0)]), circuit([1, 2, 1, 2, 2], [(1, 0), (3, 2), (4, 2), (0, 3)]))
    # a self-link with and without its partner
    loop = circuit([7], [(0, 0)])
    case(loop, circuit([7, 7, 7], [(0, 0), (1, 2)]))
    case(loop, circuit([7, 7], [(0, 1), (1, 0)]))
    case(loop, path(20))
    case(path(3), circuit([7], [(0, 0)]))
    case(circuit([7, 7], [(0, 0), (0, 1)]), circuit([7, 7, 7], [(0, 0), (0, 1), (1, 2)]))
    # M = 0 in either file; boards with N = 0, whose table may be of any length; one node
    case(path(1), circuit([7, 8, 7], []))
    case(path(2), circuit([7, 8, 7], []))
    case(path(1), circuit([8, 9], []))
    case(path(1), path(6))
    case(path(1), circuit([], []))
    case(path(2), path(1))
    case(loop, path(1))
    case(T, circuit([], []), 0)
    case(T, circuit([], []), 3)
    # kind 0, any part in the pattern and an unidentified one on the board, in the pattern, on the board, and in both; the largest kind
    case(path(2, 0), circuit([0, 1, 0, 2], [(0, 1), (1, 2), (0, 2), (3, 2)]))
    case(path(2, 5), circuit([0, 5, 5, 0], [(0, 1), (1, 2), (2, 3)]))
    case(path(2, 0), path(4))
    case(path(2), path(4, 0))
    case(path(2, 0), path(4, 0))
    case(circuit([0, 65535], [(0, 1)]), circuit([65535, 0, 255, 65535, 65280], [(0, 1), (1, 2), (1, 3), (3, 4)]))
    # patterns in several bits: all bits there, one of them, none; a part without links, of a kind that no node has and of one that some
    # node has; a bit that is struck while the other stays; radius above 12
    stereo = circuit([10, 20, 30, 11, 21, 31], [(0, 1), (1, 2), (3, 4), (4, 5)])
    case(stereo, circuit([10, 20, 30, 11, 21, 31, 20], [(0, 1), (1, 2), (3, 4), (4, 5)]))
    case(stereo, B)
    case(stereo, stereo, 5)
    case(stereo, circuit([], []))
    case(circuit([10, 20, 99], [(0, 1)]), B)
    case(circuit([10, 20, 30], [(0, 1)]), B)
    case(circuit([10, 20, 0], [(0, 1)]), B)
    case(circuit([10, 20, 30, 30], [(0, 1), (2, 3)]), B)
    case(circuit([10, 20, 20, 10], [(0, 1), (2, 3)]), B)
    case(circuit([7] * 32, [(v, v + 1) for v in range(15)] + [(v, v + 1) for v in range(16, 31)]), path(30))
    case(circuit([7] * 32, []), path(3))
    # the table N - 1, N and N + 1 long, on boards with one kind
    for board in (path(1), path(9), circuit([7, 7], [])):
        for lent in (-1, 0, 1):
            case(path(1), board, len(board.kinds) + lent)
            case(path(2), board, len(board.kinds) + lent)
    # 32 and 33 parts, 256 and 257 pattern links; 512 and 513 nodes, 4,096 and 4,097 board links
    case(path(32), path(40))
    case(path(33), path(40))
    case(cycle(32), cycle(64))
    case(star(32), star(40))
    case(cycle(32), cycle(512))
    case(dense(rng, 32, 256, 1), dense(rng, 20, 190, 1))
    case(dense(rng, 32, 257, 1), path(2))
    case(dense(rng, 32, 256, 3), dense(rng, 512, 4096, 3))
    case(T, raw(512, 4097), 512)
    case(path(3), path(512))
    case(path(3), path(512), 511)
    case(path(3), path(513), 600)
    case(cycle(2), path(512))
    # rows of many sets
    case(cycle(3), path(50))
    case(cycle(4), circuit([7] * 40, [(i, i + 1) for i in range(39)] + [(39, 0), (5, 5)]))
    for k, size in ((2, 5), (3, 7), (5, 12), (7, 30), (11, 61), (31, 510)):
        case(*long_row(k, size))
    # each refusal of the pattern, of the board, and of both; 8 comes last
    bad = [b"\x02\x00\x01", raw(0, 0), raw(1, 0), raw(1, 1, 10, 0, 1), raw(1, 2, 10, 0, 0, 0, 0), raw(2, 0, 10, 20)]
    for x in bad:
        case(x, B, 6)
        case(x, B, 0)
        case(T, x, 6)
        case(T, x, 0)
        for y in bad:
            case(x, y, 6)
        case(x, bad[0], 0)
    case(encode(T) + b"\x00", B, 6)
    case(T, encode(B)[:-1], 6)
    # small random ones, most of them with many matches
    for _ in range(150):
        kinds = rng.randrange(1, 4)
        pattern = some_circuit(rng, rng.randrange(1, 6), rng.randrange(0, 4), kinds, True)
        board = some_circuit(rng, rng.randrange(1, 14), rng.randrange(0, 40), kinds, False)
        case(pattern, board, len(board.kinds) + rng.randrange(3))
    for _ in range(12):
        kinds = rng.randrange(1, 3)
        pattern = some_circuit(rng, rng.randrange(4, 33), rng.randrange(0, 30), kinds, True)
        board = some_circuit(rng, rng.randrange(20, 60), rng.randrange(100, 300), kinds, False)
        case(pattern, board)
    return out


def bounded_cases():
    """Patterns with bounds on first-edition boards."""
    rng = random.Random(12)
    out = []

    def case(pattern, bounds, board, lent=None):
        first = pattern if isinstance(pattern, bytes) else model.encode_bounded(pattern, bounds)
        second = board if isinstance(board, bytes) else encode(board)
        out.append((len(board.kinds) if lent is None else lent, first, second))

    two = circuit([10, 20], [(0, 1)])
    chain = circuit([10, 99, 99, 99, 99, 20], [(v, v + 1) for v in range(5)])
    # a path of each length, for each bound; the other way round; one link of it turned
    for gap in range(5):
        board = circuit([10] + [99] * gap + [20], [(v, v + 1) for v in range(gap + 1)])
        for bound in (1, 2, 3, 4):
            case(two, [bound], board)
    case(two, [4], turned(chain))
    case(two, [3], circuit([10, 99, 99, 20], [(0, 1), (2, 1), (2, 3)]))
    # a path that ends where it began, by way of others, by itself, and of no link
    loop = circuit([10], [(0, 0)])
    for bound in (1, 2, 3, 4):
        case(loop, [bound], circuit([10, 99, 99], [(0, 1), (1, 2), (2, 0)]))
        case(loop, [bound], circuit([10, 10], [(0, 0), (0, 1)]))
        case(loop, [bound], circuit([10], []))
    # a node passed more than once: in, round and out again; round twice
    for bound in (3, 4):
        case(two, [bound], circuit([10, 99, 99, 20], [(0, 1), (1, 2), (2, 1), (1, 3)]))
    case(circuit([10, 20], [(0, 1), (1, 0)]), [1, 3], circuit([10, 20, 99], [(0, 1), (1, 2), (2, 1), (2, 0)]))
    # links of one part with different bounds; the backward partner alone farther; all links 4
    star = circuit([1, 2, 3], [(0, 1), (0, 2)])
    for bounds in ([1, 2], [2, 1], [2, 2], [1, 1]):
        case(star, bounds, circuit([1, 9, 2, 3, 9], [(0, 1), (0, 3), (1, 2), (3, 4)]))
        case(star, bounds, circuit([1, 9, 3, 2, 9], [(0, 1), (0, 3), (1, 2), (3, 4)]))
    # inner nodes that match nothing, that match another part, and of kind 0
    case(circuit([10, 20, 30], [(0, 1), (1, 2)]), [2, 2], circuit([10, 30, 20, 10, 30], [(0, 1), (1, 2), (2, 3), (3, 4)]))
    case(two, [2], circuit([10, 0, 20], [(0, 1), (1, 2)]))
    case(circuit([0, 0], [(0, 1)]), [2], circuit([5, 0, 6], [(0, 1), (1, 2)]))
    # several bits, one of which is left out; no link, and so no bound; one kind; the table's lengths
    case(circuit([10, 20, 99], [(0, 1)]), [2], circuit([10, 9, 20], [(0, 1), (1, 2)]))
    case(circuit([10, 20], []), [], B)
    for lent in (5, 6, 7, 0):
        case(T, [2, 1], B, lent)
    case(cycle(3), [2, 3, 4], path(30))
    case(path(5), [4, 3, 2, 1], path(9))
    case(cycle(5), [2] * 5, cycle(7))
    # 13, its place in the order, and all else that is refused
    for bound in (0, 5, 256, 257, 65535):
        case(two, [bound], chain)
        case(T, [1, bound], b"", 0)
    case(circuit([10, 20], [(0, 1)])._replace(ends=[2]), [0], chain)
    case(raw(1, 2, 10, 0, 0, 0, 0, 0, 5, 5), [], chain, 6)
    case(encode(two, 2), [], chain, 6)
    case(encode(two), [], chain, 6)
    case(model.encode_bounded(two, [2]) + b"\x00", [], chain, 6)
    case(b"\x02\x00\x01", [], chain, 6)
    case(raw(0, 0), [], chain, 6)
    case(raw(33, 0), [], chain, 6)
    case(two, [2], raw(1, 1, 10, 0, 1), 6)
    case(two, [2], encode(chain)[:-1], 6)
    case(two, [2], chain, 5)
    case(two, [2], circuit([], []), 0)
    # the largest pattern on a board
    case(dense(rng, 32, 256, 2), [rng.randrange(1, 5) for _ in range(256)], dense(rng, 60, 200, 2))
    case(dense(rng, 32, 256, 1), [4] * 256, dense(rng, 40, 60, 1))
    # small random ones
    for _ in range(120):
        kinds = rng.randrange(1, 4)
        pattern = some_circuit(rng, rng.randrange(1, 6), rng.randrange(0, 4), kinds, True)
        board = some_circuit(rng, rng.randrange(1, 14), rng.randrange(0, 24), kinds, False)
        case(pattern, [rng.randrange(1, 5) for _ in pattern.starts], board, len(board.kinds) + rng.randrange(3))
    return out
