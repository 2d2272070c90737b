"""Document 01's definitions, and what document 02 adds to them, in plain Python, written from the paper and from nothing else: sets, lists and simple loops.

The library is compared with it, case by case (python/tests). It is no part of the product and shares no code with it.
"""
from collections import namedtuple

Circuit = namedtuple("Circuit", "kinds starts ends")
Packed = namedtuple("Packed", "kinds starts ends packages")  # of a second-edition file

LIMITS = {"pattern": (1, 32, 256), "board": (0, 512, 4096)}  # least N, most N, most M


def field(data, at):
    return data[at] + 256 * data[at + 1]


def fields(data, at, count):
    return [field(data, at + 2 * i) for i in range(count)]


def packages(circuit):
    """A package for each node: a circuit of a first-edition file counts as having all packages 0."""
    return list(circuit.packages) if isinstance(circuit, Packed) else [0] * len(circuit.kinds)


def encode(circuit, edition=1):
    numbers = [len(circuit.kinds), len(circuit.starts), *circuit.kinds]
    if edition == 2:
        numbers += packages(circuit)
    numbers += [*circuit.starts, *circuit.ends]
    return b"".join(bytes((x % 256, x // 256)) for x in numbers)


def links(circuit):
    return list(zip(circuit.starts, circuit.ends))


def neighbours(circuit):
    near = [set() for _ in circuit.kinds]
    for v, w in links(circuit):
        near[v].add(w)
        near[w].add(v)
    return near


def distances(circuit, centre):
    """Each reachable node's distance from the centre, directions ignored."""
    near = neighbours(circuit)
    found = {centre: 0}
    frontier = [centre]
    while frontier:
        reached = []
        for v in frontier:
            for w in sorted(near[v]):
                if w not in found:
                    found[w] = found[v] + 1
                    reached.append(w)
        frontier = reached
    return found


def connected(circuit):
    return len(distances(circuit, 0)) == len(circuit.kinds)


def link_refusal(role, circuit):
    n = len(circuit.kinds)
    if any(v >= n for v in [*circuit.starts, *circuit.ends]):
        return 4
    pairs = links(circuit)
    if any(not a < b for a, b in zip(pairs, pairs[1:])):
        return 5
    return 0


def shape_refusal(role, circuit):
    if role == "board":
        return 0
    return 6 if not connected(circuit) else 11 if width(circuit) > 12 else 0


def width(circuit):
    """The radius of a connected circuit."""
    return max(max(distances(circuit, v).values()) for v in range(len(circuit.kinds)))


def out_of_range(role, n, m):
    least, most, most_links = LIMITS[role]
    return not (least <= n <= most and m <= most_links)


def parse(role, data, edition=1):
    """The circuit of a file of an edition, or the number of the first of the conditions 1 to 6 and 11 that holds."""
    circuit = parse_in_bits(role, data, edition)
    return circuit if isinstance(circuit, int) else shape_refusal(role, circuit) or circuit


def parse_in_bits(role, data, edition=1):
    """The circuit, connected or not, or the number of the first of the conditions 1 to 5 that holds."""
    if len(data) < 4:
        return 1
    n, m = field(data, 0), field(data, 2)
    if out_of_range(role, n, m):
        return 2
    at = 4 + 2 * n if edition == 1 else 4 + 4 * n  # where the starts begin
    if len(data) != at + 4 * m:
        return 3
    circuit = Circuit(fields(data, 4, n), fields(data, at, m), fields(data, at + 2 * m, m))
    if edition == 2:
        circuit = Packed(*circuit, fields(data, 4 + 2 * n, n))
    return link_refusal(role, circuit) or circuit


def read(role, data, kinds, starts, ends):
    """The reply of the reading call; kinds, starts and ends are lists that it fills in place."""
    circuit = parse(role, data)
    if isinstance(circuit, int):
        return ("refused", circuit, role)
    n, m = len(circuit.kinds), len(circuit.starts)
    if len(kinds) < n or len(starts) < m or len(ends) < m:
        return ("refused", 8, "neither")
    kinds[:n], starts[:m], ends[:m] = circuit.kinds, circuit.starts, circuit.ends
    return ("read", n, m)


def convert(role, edition, new_edition, data, out):
    """The reply of the converter; out is a list of bytes that it fills in place."""
    circuit = parse(role, data, edition)
    if isinstance(circuit, int):
        return ("refused", circuit, role)
    if new_edition == 1 and any(packages(circuit)):
        return ("refused", 12, role)
    new = encode(circuit, new_edition)
    if len(out) < len(new):
        return ("refused", 8, "neither")
    out[:len(new)] = new
    return ("converted", len(new))


def radius(data):
    """The reply of the radius call."""
    circuit = parse("pattern", data)
    if isinstance(circuit, int):
        return ("refused", circuit, "pattern")
    return ("radius", width(circuit))


def ball(data, centre, r, out):
    """The reply of the ball lookup; out is a list that it fills in place."""
    circuit = parse("board", data)
    if isinstance(circuit, int):
        return ("refused", circuit, "board")
    n = len(circuit.kinds)
    if centre >= n:
        return ("refused", 7, "neither")
    if len(out) < n:
        return ("refused", 8, "neither")
    found = distances(circuit, centre)
    out[:n] = [found[v] if v in found and found[v] <= r else 65535 for v in range(n)]
    return ("ball", n)


def write(role, kinds, starts, ends, out):
    """The reply of the writing call; out is a list of bytes that it fills in place."""
    if out_of_range(role, len(kinds), len(starts)):
        return ("refused", 2, role)
    if len(starts) != len(ends):
        return ("refused", 3, role)
    circuit = Circuit(kinds, starts, ends)
    number = link_refusal(role, circuit) or shape_refusal(role, circuit)
    if number:
        return ("refused", number, role)
    data = encode(circuit)
    if len(out) < len(data):
        return ("refused", 8, "neither")
    out[:len(data)] = data
    return ("written", len(data))


def agree(part, node):
    """Whether a part of one kind matches a node of another: kind 0 in a pattern is any part, on a board an unidentified one."""
    return part == 0 or part == node


def start_set(pattern, board):
    """R0: the pairs (part, node) whose kinds agree and whose packages are the same number."""
    parts, nodes = (list(enumerate(zip(circuit.kinds, packages(circuit)))) for circuit in (pattern, board))
    return {(u, v) for u, (k, p) in parts for v, (j, q) in nodes if agree(k, j) and p == q}


def directed(circuit):
    """What each node drives, and what drives each node."""
    out, into = [set() for _ in circuit.kinds], [set() for _ in circuit.kinds]
    for v, w in links(circuit):
        out[v].add(w)
        into[w].add(v)
    return out, into


def stays(ways, pairs, u, v):
    """Whether each link of part u, from it or to it, has a partner at node v in the set."""
    return all(any((x, w) in pairs for w in nodes[v]) for parts, nodes in ways for x in parts[u])


def row(pattern, board, one_way=False):
    """The row of sets as defined: each keeps those pairs of the last whose links, one way those from the part, have partners in the last whole."""
    ways = list(zip(directed(pattern), directed(board)))[: 1 if one_way else 2]
    sets = [start_set(pattern, board)]
    while True:
        new = {(u, v) for u, v in sets[-1] if stays(ways, sets[-1], u, v)}
        if new == sets[-1]:
            return sets
        sets.append(new)


def largest(pattern, board, one_way=False):
    """The last set of the row, and the counts started, kept, struck and rounds; one way, only what a part drives needs partners.

    The same row without looking at every pair in each round: after the first, only a pair with a link to or from a pair struck in the
    round before can have lost a partner. All pairs of a round are tested before any is struck.
    """
    ways = list(zip(directed(pattern), directed(board)))
    back = ways[1:] if one_way else ways[::-1]  # a pair struck takes a partner from what drives it, and two ways also from what it drives
    ways = ways[:1] if one_way else ways
    pairs = start_set(pattern, board)
    started, rounds, doubtful = len(pairs), 0, set(pairs)
    while True:
        struck = [(u, v) for u, v in doubtful if (u, v) in pairs and not stays(ways, pairs, u, v)]
        if not struck:
            return pairs, (started, len(pairs), started - len(pairs), rounds)
        pairs.difference_update(struck)
        rounds += 1
        doubtful = {(x, w) for u, v in struck for parts, nodes in back for x in parts[u] for w in nodes[v]}


def match_table(pattern_data, board_data, table, editions=(1, 1), one_way=False):
    """The reply of the whole-board call, two ways or one way; the table is a list that it fills in place. The pattern may be in several bits."""
    pattern = parse_in_bits("pattern", pattern_data, editions[0])
    if isinstance(pattern, int):
        return ("refused", pattern, "pattern")
    board = parse("board", board_data, editions[1])
    if isinstance(board, int):
        return ("refused", board, "board")
    n = len(board.kinds)
    if len(table) < n:
        return ("refused", 8, "neither")
    pairs, counts = largest(pattern, board, one_way)
    if len({u for u, _ in pairs}) < len(pattern.kinds):
        pairs, counts = set(), (counts[0], 0, counts[0], counts[3])
    table[:n] = [0] * n
    for u, v in pairs:
        table[v] += 2**u
    return ("matched", *counts)


def parse_bounded(data):
    """The pattern of a third-edition file, connected or not, and a bound for each link; or the number of the first of the conditions 1 to 5
    and 13 that holds."""
    if len(data) < 4:
        return 1
    n, m = field(data, 0), field(data, 2)
    if out_of_range("pattern", n, m):
        return 2
    if len(data) != 4 + 4 * n + 6 * m:
        return 3
    at = 4 + 4 * n + 4 * m  # where the bounds begin
    pattern, bounds = parse_in_bits("pattern", data[:at], 2), fields(data, at, m)
    if isinstance(pattern, int):
        return pattern
    return 13 if any(not 1 <= bound <= 4 for bound in bounds) else (pattern, bounds)


def encode_bounded(pattern, bounds):
    """The third-edition file of a pattern and a bound for each link."""
    return encode(pattern, 2) + b"".join(bytes((bound % 256, bound // 256)) for bound in bounds)


def ends(board, start, links_left):
    """The ends of the directed paths of 1 to so many links from a node, each path followed link by link."""
    near, found, here = directed(board)[0], set(), {start}
    for _ in range(links_left):
        here = {w for v in here for w in near[v]}
        found |= here
    return found


def bounded_row(pattern, bounds, board):
    """The row of sets, where a pattern link with bound h has a partner at the other end of a directed path of 1 to h board links."""
    joined = {h: [ends(board, v, h) for v in range(len(board.kinds))] for h in set(bounds)}
    sets = [start_set(pattern, board)]
    while True:
        last, new = sets[-1], set()
        for u, v in sets[-1]:
            forward = all(any((t, w) in last for w in joined[h][v]) for (s, t), h in zip(links(pattern), bounds) if s == u)
            backward = all(
                any(v in joined[h][w] for x, w in last if x == s) for (s, t), h in zip(links(pattern), bounds) if t == u)
            if forward and backward:
                new.add((u, v))
        if new == last:
            return sets
        sets.append(new)


def match_bounded(pattern_data, board_data, table, edition=1):
    """The reply of the whole-board call on a third-edition pattern; the table is a list that it fills in place."""
    drawn = parse_bounded(pattern_data)
    if isinstance(drawn, int):
        return ("refused", drawn, "pattern")
    board = parse("board", board_data, edition)
    if isinstance(board, int):
        return ("refused", board, "board")
    n = len(board.kinds)
    if len(table) < n:
        return ("refused", 8, "neither")
    pattern, bounds = drawn
    sets = bounded_row(pattern, bounds, board)
    pairs = sets[-1] if len({u for u, _ in sets[-1]}) == len(pattern.kinds) else set()
    table[:n] = [0] * n
    for u, v in pairs:
        table[v] += 2**u
    return ("matched", len(sets[0]), len(pairs), len(sets[0]) - len(pairs), len(sets) - 1)


def load(seed, n, m, k):
    """The file of a test load: n kinds below k are drawn, then m times a start and an end below n."""
    state = seed

    def draw(below):
        nonlocal state
        state = (1664525 * state + 1013904223) % 2**32
        return state // 2**16 % below

    kinds = [draw(k) for _ in range(n)]
    pairs = [(draw(n), draw(n)) for _ in range(m)]
    drawn = sorted(set(pairs))
    return encode(Circuit(kinds, [v for v, _ in drawn], [w for _, w in drawn]))


def compare(first, second):
    """How the circuits of two accepted second-edition patterns rank: -1, 0 or 1. By N, then M, then kinds, packages, starts, ends."""

    def key(circuit):
        return (len(circuit.kinds), len(circuit.starts), list(circuit.kinds), packages(circuit), list(circuit.starts), list(circuit.ends))

    return (key(first) > key(second)) - (key(first) < key(second))


def shelf(files):
    """The numbers of the files that are accepted as second-edition patterns, in order, of equal circuits the lower number first."""
    order = []
    for number, data in enumerate(files):
        circuit = parse("pattern", data, 2)
        if isinstance(circuit, int):
            continue
        at = sum(compare(other, circuit) <= 0 for _, other in order)
        order.insert(at, (number, circuit))
    return [number for number, _ in order]


def shelf_text(files):
    """What the shelf program prints of files, given as bytes, None for an absent one."""
    there = files[: files.index(None)] if None in files else files
    return "".join(f"{number:02}\n" for number in shelf(there[:16])).encode()
