"""Patterns on boards, as circuits: match tables, places, what stands in the way of one, checking, cutting, merging and order.

Each function asks the proved library. What it answers is looked at a second time where that is cheap, and a difference is a Bug."""

from __future__ import annotations

from contextlib import contextmanager
from dataclasses import dataclass, field
from functools import cmp_to_key
from itertools import chain, compress
from operator import and_
from typing import Iterable, Iterator, Mapping, Sequence

from . import bindings
from .bindings import OUTSIDE, Counts, File, Marks
from .circuits import BITS, SECOND, Circuit, Link, Node
from .errors import BOARD, NEITHER, PATTERN, Bug, Faults, Refused

Roles = tuple[tuple[int, ...], ...]


@dataclass(frozen=True)
class Match:
    """A match table on a whole board: for each node the parts that match it, as a number whose bit u stands for part u."""

    pattern: Circuit = field(repr=False)
    board: Circuit = field(repr=False)
    table: tuple[int, ...]
    counts: Counts | None = None  # a session returns none

    @property
    def roles(self) -> Roles:
        """For each part the nodes that match it."""
        return _roles(self.pattern, enumerate(self.table))

    def parts(self, node: Node) -> tuple[int, ...]:
        """The parts that match a node."""
        word = self.table[self.board.number(node)]
        return tuple(part for part in range(len(self.pattern.names)) if word >> part & 1)

    def __bool__(self) -> bool:
        """Whether anything matches."""
        return any(self.table)


@dataclass(frozen=True)
class Place:
    """A place: the centres around which it is the one, its nodes and links, the nodes that play each part, and the distances of the
    nodes in the ball from the first centre."""

    pattern: Circuit = field(repr=False)
    board: Circuit = field(repr=False)
    centres: tuple[int, ...]
    nodes: tuple[int, ...]
    links: tuple[Link, ...]
    roles: Roles
    distances: Mapping[int, int]
    counts: Counts
    marks: bytes = field(repr=False)  # a byte for each node of the board, then one for each link: 1 in the place, else 0

    @property
    def rings(self) -> dict[int, tuple[int, ...]]:
        """The place's nodes by their distance from the first centre."""
        steps = sorted({self.distances[node] for node in self.nodes})
        return {step: tuple(node for node in self.nodes if self.distances[node] == step) for step in steps}

    @property
    def parts(self) -> dict[str, list[str]]:
        """By names, for each part the nodes that play it."""
        return {name: self.board.named(nodes) for name, nodes in zip(self.pattern.names, self.roles)}

    @property
    def mask(self) -> int:
        """The marks as one number, of which another place's are a part where this one contains it."""
        return int.from_bytes(self.marks, "little")

    def contains(self, other: Place) -> bool:
        """Whether this place has all nodes and links of another."""
        return not other.mask & ~self.mask


@dataclass(frozen=True)
class Merged:
    """A merged pattern: the parts of each class, and the pattern with a part for each, which has the name of the class's first."""

    classes: Roles
    pattern: Circuit


def _file(circuit: Circuit) -> File:
    return File(circuit.to_bytes(), circuit.edition)


def _roles(pattern: Circuit, table: Iterable[tuple[int, int]]) -> Roles:
    """For each part the nodes whose number has its bit, of nodes and their numbers in a table. Few numbers differ, so nodes are first put
    together by them, and parts that the same nodes play have one tuple of them."""
    alike: dict[int, list[int]] = {}
    for node, word in table:
        alike.setdefault(word, []).append(node)
    played: dict[tuple[int, ...], tuple[int, ...]] = {}  # the nodes of some of those numbers, made once
    roles = []
    for part in range(len(pattern.names)):
        words = tuple(word for word in alike if word >> part & 1)
        if words not in played:
            played[words] = tuple(sorted(chain.from_iterable(alike[word] for word in words)))
        roles.append(played[words])
    return tuple(roles)


def _without_bounds(pattern: Circuit) -> File:
    """The file of a pattern for a call that takes no bounds."""
    if pattern.bounds is not None:
        told = "the pattern has bounds, and only the two-way match table of the whole board takes them"
        mend = "Ask for that (heronditch match), or leave the bounds out (--without-bounds)."
        raise Refused(3, PATTERN, told, mend)
    return _file(pattern)


def _agree(pattern: Circuit, board: Circuit) -> None:
    """Demands that no name of a kind or a package stands for one number in the pattern and another on the board."""
    wrong = pattern.register.differences(board.register)
    if wrong:
        told = "is {} in the pattern and {} on the board: one name has one number"
        raise Faults(f"{what} '{name}' {told.format(here, there)}" for what, name, here, there in wrong)


@contextmanager
def _worded(circuits: Mapping[str, Circuit], role: str = PATTERN) -> Iterator[None]:
    """Words a refusal of the library by the circuit that it means, where that says more."""
    try:
        yield
    except Refused as refused:
        circuit = circuits.get(refused.file)
        better = None if circuit is None else _misfit(circuit, role if refused.file == PATTERN else refused.file)
        if better is None or better.number != refused.number:
            raise
        raise better from None


def _misfit(circuit: Circuit, role: str) -> Refused | None:
    """Why a circuit does not fit a role, or None."""
    try:
        circuit.check_role(role)
    except Refused as refused:
        return refused
    return None


@contextmanager
def _pair(pattern: Circuit, board: Circuit, role: str = PATTERN) -> Iterator[tuple[File, File]]:
    """The files of a pattern without bounds and of a board, for calls whose refusals are worded."""
    _agree(pattern, board)
    with _worded({PATTERN: pattern, BOARD: board}, role):
        yield _without_bounds(pattern), _file(board)


def match(pattern: Circuit, board: Circuit, one_way: bool = False) -> Match:
    """The match table of a pattern, in several bits or with bounds too, on the whole board; one way, only what a part drives counts."""
    _agree(pattern, board)
    with _worded({PATTERN: pattern, BOARD: board}, BITS):
        told = _without_bounds(pattern) if one_way else _file(pattern)
        counts, table = bindings.match(told, _file(board), one_way)
    return Match(pattern, board, tuple(table), counts)


def radius(pattern: Circuit) -> int:
    """The largest distance between two parts of a pattern."""
    with _worded({PATTERN: pattern}):
        return bindings.radius(_without_bounds(pattern))


def ball(board: Circuit, centre: Node, within: int) -> dict[int, int]:
    """The distance from a centre of each node of the ball around it."""
    far = bindings.ball(_file(board), board.number(centre), _sixteen_bits(within))
    return {node: distance for node, distance in enumerate(far) if distance != OUTSIDE}


def neighbours(circuit: Circuit, node: Node, backward: bool = False) -> tuple[int, ...]:
    """The nodes that a node drives, or backward those that drive it."""
    return tuple(bindings.neighbours(len(circuit.names), circuit.links, circuit.number(node), backward))


def _sixteen_bits(within: int) -> int:
    """A radius as the calls take it. One above 65535 is as good as that: no two nodes of a board are so far apart."""
    if within < 0:
        raise Faults([f"{within} is no radius: it is a number from 0 on"])
    return min(within, 65535)


def place(pattern: Circuit, board: Circuit, centre: Node, radius: int | None = None) -> Place | None:
    """The place around a centre, at the pattern's radius or at one told, or None where there is none."""
    number = board.number(centre)
    within = None if radius is None else _sixteen_bits(radius)
    with _pair(pattern, board) as files:
        counts, marks = bindings.place(*files, number, within)
        if marks is None:
            return None
        if within is None and not bindings.check(*files, number, marks.nodes, marks.links):
            raise Bug(f"the place found around '{board.names[number]}' is none by heronditch_check")
    return _placed(pattern, board, (number,), marks, counts)


def _placed(pattern: Circuit, board: Circuit, centres: Sequence[int], marks: Marks, counts: Counts) -> Place:
    """A place from its marks."""
    nodes = tuple(compress(range(len(board.names)), marks.nodes))
    return Place(
        pattern,
        board,
        tuple(centres),
        nodes,
        tuple(compress(board.links, marks.links)),
        _roles(pattern, zip(nodes, compress(marks.table, marks.nodes))),
        {node: distance for node, distance in enumerate(marks.distances) if distance != OUTSIDE},
        counts,
        marks.nodes + marks.links,
    )


def report(pattern: Circuit, board: Circuit) -> bytes:
    """The bytes of the report; a refused file is refused here, too, and is no line."""
    with _pair(pattern, board) as files:
        bindings.radius(files[0])
        bindings.match(*files)
        return bindings.report(*files)


def places(pattern: Circuit, board: Circuit) -> list[Place]:
    """Each distinct place once, in the order of their first centres, with all its centres."""
    lines = report(pattern, board)
    elsewhere = [~parts for parts in match(pattern, board).table]  # the parts that a node does not play on the whole board
    words = _Words(board)
    found = []
    with _pair(pattern, board) as files:
        for body, centres in bodies(lines, len(board.names)).items():
            around = board.names[centres[0]]
            counts, marks = bindings.place(*files, centres[0])
            if marks is None or not bindings.check(*files, centres[0], marks.nodes, marks.links):
                raise Bug(f"the report has a place around '{around}', and the place call or the check has none")
            if any(map(and_, marks.table, elsewhere)):
                raise Bug(f"a part in the place around '{around}' is not in the table of the whole board")
            if words.body(marks.nodes + marks.links) != body:
                raise Bug(f"the report and the place call differ around '{around}'")
            found.append(_placed(pattern, board, centres, marks, counts))
    return found


class _Words:
    """The words of a board's nodes and links in a report, made once."""

    def __init__(self, board: Circuit) -> None:
        self.nodes = [b"%d" % node for node in range(len(board.names))]
        self.links = [b" %d-%d" % link for link in board.links]

    def body(self, marks: bytes) -> bytes:
        """What the report has of a place after its centre and the colon."""
        links = marks[len(self.nodes) :]
        return b" ".join(compress(self.nodes, marks)) + b" /" + b"".join(compress(self.links, links))


def report_of(found: Iterable[Place], board: Circuit) -> bytes:
    """The report that places come to, a line for each centre."""
    words = _Words(board)
    lines = {centre: body for place in found for body in [words.body(place.marks)] for centre in place.centres}
    told = [b"place %d: %s\n" % (centre, lines[centre]) for centre in sorted(lines)]
    return b"".join(told) + b"end %d of %d\n" % (len(lines), len(board.names))


def bodies(lines: bytes, nodes: int) -> dict[bytes, list[int]]:
    """The distinct places of a report on a board of so many nodes, each by what stands after the colon, and their centres."""
    found: dict[bytes, list[int]] = {}
    *heads, last, rest = [b"", *lines.split(b"\n")]
    for line in heads[1:]:
        head, _, body = line.partition(b": ")
        centre = head.removeprefix(b"place ")
        if not centre.isdigit() or int(centre) >= nodes:
            raise Bug(f"the report has a line that is none: {line[:60]!r}")
        found.setdefault(body, []).append(int(centre))
    if rest or last != b"end %d of %d" % (len(heads) - 1, nodes):
        raise Bug(f"the report does not end as it has to: {last[:60]!r}")
    return found


def why(pattern: Circuit, board: Circuit, centre: Node) -> tuple[Link, ...] | None:
    """The links of the pattern that stand in the way of a place around a node, few of them and none to spare; none of them where no part
    matches the node's kind and package; None where the node has a place."""
    number = board.number(centre)
    with _pair(pattern, board) as files:
        marks = bindings.bar(*files, number)
        if (marks is None) != (bindings.place(*files, number)[1] is not None):
            raise Bug(f"heronditch_bar and the place call differ on whether '{board.names[number]}' has a place")
    return None if marks is None else tuple(link for link, mark in zip(pattern.links, marks) if mark)


def check(pattern: Circuit, board: Circuit, centre: Node, nodes: Iterable[Node], links: Iterable[tuple[Node, Node]]) -> bool:
    """Whether nodes and links of a board are a perfect subgraph around a centre, largest or not."""
    chosen = {board.number(node) for node in nodes}
    joined = {(board.number(start), board.number(end)) for start, end in links}
    strange = sorted(joined - set(board.links))
    if strange:
        raise Faults([f"the board has no link '{board.told(link)}'" for link in strange])
    marks = bytes(node in chosen for node in range(len(board.names)))
    number = board.number(centre)
    with _pair(pattern, board) as files:
        return bindings.check(*files, number, marks, bytes(link in joined for link in board.links))


def merge(pattern: Circuit) -> Merged:
    """The parts of a pattern that match each other, class by class, and the pattern merged by them."""
    with _worded({PATTERN: pattern}):
        numbers, data = bindings.merge(_without_bounds(pattern))
    classes = tuple(tuple(part for part, number in enumerate(numbers) if number == one) for one in range(max(numbers) + 1))
    plain = Circuit.from_bytes(data)
    names = tuple(pattern.names[parts[0]] for parts in classes)
    merged = Circuit(names, plain.kinds, plain.links, plain.packages, None, pattern.register)
    return Merged(classes, merged)


class Session:
    """A match table that goes on while links of the board are cut one after another."""

    def __init__(self, pattern: Circuit, board: Circuit) -> None:
        self.pattern = pattern
        self.board = board
        with _pair(pattern, board, BITS) as files:
            self._session = bindings.Session(*files)

    def cut(self, link: int | tuple[Node, Node]) -> Link:
        """Cuts a link, told by its place in the board's file or by its ends; refused with 14 where it is out already or is none."""
        number = link if isinstance(link, int) else self._place(link)
        if not 0 <= number < len(self.board.links):
            raise Refused(14, NEITHER, f"the board has {len(self.board.links)} links, from 0 on, and none at place {number}")
        try:
            self._session.cut(number)
        except Refused as refused:
            told = f"the link '{self.board.told(self.board.links[number])}' is out already"
            raise Refused(refused.number, NEITHER, told) from None
        return self.board.links[number]

    def _place(self, link: tuple[Node, Node]) -> int:
        """The place of a link in the board's file."""
        ends = (self.board.number(link[0]), self.board.number(link[1]))
        if ends not in self.board.links:
            raise Refused(14, NEITHER, f"the board has no link '{self.board.told(ends)}'")
        return self.board.links.index(ends)

    def match(self) -> Match:
        """The match table on the links that are left."""
        return Match(self.pattern, self.board, tuple(self._session.table()))


def compare(first: Circuit, second: Circuit) -> int:
    """How two patterns rank, -1, 0 or 1: by the numbers of nodes and links, then kinds, packages, starts and ends."""
    return bindings.compare(first.to_bytes(SECOND), second.to_bytes(SECOND))


def order(patterns: Sequence[Circuit]) -> list[int]:
    """The numbers of patterns in their order, of equal ones the lower first."""
    for pattern in patterns:
        radius(pattern)  # so that one that is refused is named

    def ranked(one: int, other: int) -> int:
        """How two of the patterns rank."""
        return compare(patterns[one], patterns[other])

    return sorted(range(len(patterns)), key=cmp_to_key(ranked))


def shelf(files: Sequence[bytes]) -> list[int]:
    """The numbers of those of up to 16 second-edition pattern files that are accepted, in order."""
    return bindings.shelf(files)


def test_board(seed: int, nodes: int, links: int, kinds: int) -> Circuit:
    """The test board of four numbers, the same everywhere."""
    return Circuit.from_bytes(bindings.test_board(seed, nodes, links, kinds), BOARD)


def convert(circuit: Circuit, edition: int, role: str = BOARD) -> Circuit:
    """The same circuit in the first or the second edition; refused as reading it in the role is, and with 12 for a package lost."""
    data = bindings.convert(role, _file(circuit.in_edition(SECOND) if circuit.bounds is not None else circuit), edition)
    plain = Circuit.from_bytes(data)
    return Circuit(circuit.names, plain.kinds, plain.links, plain.packages, None, circuit.register)
