"""The calls of the proved library, on bytes and numbers: a thin function over each, which lends it what it needs."""

from __future__ import annotations

import struct
import threading
from typing import Any, NamedTuple, Sequence

from .errors import BOARD, NEITHER, PATTERN, Refused

try:
    from _heronditch import ffi, lib
except ImportError as error:
    raise ImportError(
        "the extension _heronditch is not there: ./heronditch makes it in a checkout, and a wheel of python/ brings it"
    ) from error

if lib.heronditch_version() != lib.HERONDITCH_VERSION:
    raise ImportError(
        f"the library is of version {lib.heronditch_version()}, and its header of {lib.HERONDITCH_VERSION}: make it again"
    )

FILES = {lib.HERONDITCH_NEITHER: NEITHER, lib.HERONDITCH_PATTERN: PATTERN, lib.HERONDITCH_BOARD: BOARD}
ROLES = {PATTERN: lib.HERONDITCH_PATTERN, BOARD: lib.HERONDITCH_BOARD}
ORDERS = {lib.HERONDITCH_LESS: -1, lib.HERONDITCH_EQUAL: 0, lib.HERONDITCH_GREATER: 1}
OUTSIDE: int = lib.HERONDITCH_OUTSIDE
SHELF: int = lib.HERONDITCH_SHELF

_new = ffi.new_allocator(should_clear_after_alloc=False)
_rooms = threading.local()


class File(NamedTuple):
    """A circuit file: its bytes and its edition."""

    data: bytes
    edition: int

    @property
    def nodes(self) -> int:
        """How many nodes the file says that it has."""
        return int(struct.unpack_from("<H", self.data)[0])

    @property
    def links(self) -> int:
        """How many links the file says that it has."""
        return int(struct.unpack_from("<H", self.data, 2)[0])


class Counts(NamedTuple):
    """The counts of matching: pairs that agree in kind and package, those kept, those struck, and the rounds that struck some."""

    started: int
    kept: int
    struck: int
    rounds: int


class Marks(NamedTuple):
    """A place as the library marks it: a byte for each node and each link, the table over its nodes, and each node's distance."""

    nodes: bytes
    links: bytes
    table: list[int]
    distances: list[int]


class Tables(NamedTuple):
    """What a file has: kinds, packages (none in the first edition), link starts and link ends."""

    kinds: list[int]
    packages: list[int] | None
    starts: list[int]
    ends: list[int]


def version() -> int:
    """The version of the library."""
    return int(lib.heronditch_version())


def library_sha256() -> str:
    """The SHA-256 of the library's archive that was linked."""
    return str(ffi.string(lib.LIBRARY_SHA256), "ascii")


def message(number: int) -> str:
    """The library's sentence for a number of refusal, as it stands after a colon."""
    sentence = str(ffi.string(lib.heronditch_message(number)), "utf-8")
    return sentence[:1].lower() + sentence[1:]


def demand(reply: Any) -> None:
    """Demands that a call accepted."""
    if reply.number != lib.HERONDITCH_ACCEPTED:
        raise Refused(reply.number, FILES[reply.file], message(reply.number))


def _counts(reply: Any) -> Counts:
    return Counts(reply.started, reply.kept, reply.struck, reply.rounds)


def _told(*files: File) -> list[Any]:
    """Files as the calls are told them: bytes, length and edition."""
    return [item for file in files for item in (file.data, len(file.data), file.edition)]


def _lent(kind: str, count: int) -> tuple[Any, list[Any]]:
    """Room for so many elements, and how the calls are told it."""
    room = _new(f"{kind}[]", max(count, 1))
    return room, [room, count]


def read(role: str, file: File) -> Tables:
    """Reads a file in a role."""
    rooms, told = [], []
    for most in (lib.HERONDITCH_NODES, lib.HERONDITCH_NODES, lib.HERONDITCH_BOARD_LINKS, lib.HERONDITCH_BOARD_LINKS):
        room, lent = _lent("uint16_t", most)
        rooms.append(room)
        told += lent
    reply = lib.heronditch_read(ROLES[role], *_told(file), *told)
    demand(reply)
    kinds, packages, starts, ends = (
        ffi.unpack(room, count) for room, count in zip(rooms, (reply.first, reply.first, reply.second, reply.second))
    )
    return Tables(kinds, packages if file.edition != lib.HERONDITCH_FIRST else None, starts, ends)


def write(role: str, edition: int, tables: Tables) -> bytes:
    """Writes the file of a circuit in a role and an edition."""
    told: list[Any] = []
    for numbers in (tables.kinds, tables.packages or [], tables.starts, tables.ends):
        told += [ffi.new("uint16_t[]", numbers), len(numbers)]
    out, lent = _lent("uint8_t", lib.HERONDITCH_BOARD_BYTES)
    reply = lib.heronditch_write(ROLES[role], edition, *told, *lent)
    demand(reply)
    return bytes(ffi.buffer(out, reply.first))


def convert(role: str, file: File, to_edition: int) -> bytes:
    """Converts a file from its edition to another."""
    out, lent = _lent("uint8_t", lib.HERONDITCH_BOARD_BYTES)
    reply = lib.heronditch_convert(ROLES[role], *_told(file), to_edition, *lent)
    demand(reply)
    return bytes(ffi.buffer(out, reply.first))


def test_board(seed: int, nodes: int, links: int, kinds: int) -> bytes:
    """Makes a test board from four numbers."""
    if any(not 0 <= number < 2**32 for number in (seed, nodes, links, kinds)):
        raise Refused(lib.HERONDITCH_NUMBER_RANGE, NEITHER, message(lib.HERONDITCH_NUMBER_RANGE))
    out, lent = _lent("uint8_t", lib.HERONDITCH_BOARD_BYTES)
    reply = lib.heronditch_test_board(seed, nodes, links, kinds, *lent)
    demand(reply)
    return bytes(ffi.buffer(out, reply.first))


def radius(pattern: File) -> int:
    """The radius of a pattern."""
    reply = lib.heronditch_radius(*_told(pattern))
    demand(reply)
    return int(reply.first)


def ball(board: File, centre: int, within: int) -> list[int]:
    """Each node's distance from a centre, OUTSIDE for one outside the ball of a radius."""
    out, lent = _lent("uint16_t", lib.HERONDITCH_NODES)
    reply = lib.heronditch_ball(*_told(board), centre, within, *lent)
    demand(reply)
    return list(ffi.unpack(out, reply.first))


def _grouped(nodes: int, pairs: Sequence[tuple[int, int]]) -> list[Any]:
    """A link table as the lookup is told it: offsets, and the second of each pair grouped by the first."""
    offsets = [0] * (nodes + 1)
    for first, _ in pairs:
        offsets[first + 1] += 1
    for node in range(nodes):
        offsets[node + 1] += offsets[node]
    others = [other for _, other in sorted(pairs)]
    return [ffi.new("uint16_t[]", offsets), len(offsets), ffi.new("uint16_t[]", others), len(others)]


def neighbours(nodes: int, links: Sequence[tuple[int, int]], node: int, backward: bool) -> list[int]:
    """What a node drives, or backward what drives it, rising."""
    out, lent = _lent("uint16_t", len(links))
    direction = lib.HERONDITCH_BACKWARD if backward else lib.HERONDITCH_FORWARD
    tables = [*_grouped(nodes, links), *_grouped(nodes, [(end, start) for start, end in links])]
    reply = lib.heronditch_neighbours(direction, *tables, node, *lent)
    demand(reply)
    return list(ffi.unpack(out, reply.first))


def match(pattern: File, board: File, one_way: bool = False) -> tuple[Counts, list[int]]:
    """Matches a pattern on the whole board: the counts, and a number for each node, in which bit u says that part u matches it."""
    table, lent = _lent("uint32_t", lib.HERONDITCH_NODES)
    call = lib.heronditch_match_one_way if one_way else lib.heronditch_match
    reply = call(*_told(pattern, board), *lent)
    demand(reply)
    return _counts(reply), list(ffi.unpack(table, board.nodes))


def place(pattern: File, board: File, centre: int, within: int | None = None) -> tuple[Counts, Marks | None]:
    """The place around a centre, at the pattern's radius or at one told: the counts of the ball, and the marks, or None."""
    nodes, lent_nodes = _lent("uint8_t", lib.HERONDITCH_NODES)
    links, lent_links = _lent("uint8_t", lib.HERONDITCH_BOARD_LINKS)
    table, lent_table = _lent("uint32_t", lib.HERONDITCH_NODES)
    distances, lent_distances = _lent("uint16_t", lib.HERONDITCH_NODES)
    lent = [*lent_nodes, *lent_links, *lent_table, *lent_distances]
    if within is None:
        reply = lib.heronditch_place_editions(*_told(pattern, board), centre, *lent)
    else:
        reply = lib.heronditch_place_within_editions(*_told(pattern, board), centre, within, *lent)
    if reply.number == lib.HERONDITCH_NO_PLACE:
        return _counts(reply), None
    demand(reply)
    size = board.nodes
    marked = (bytes(ffi.buffer(nodes, size)), bytes(ffi.buffer(links, board.links)))
    return _counts(reply), Marks(*marked, list(ffi.unpack(table, size)), list(ffi.unpack(distances, size)))


def check(pattern: File, board: File, centre: int, nodes: bytes, links: bytes) -> bool:
    """Whether a byte for each node and each link mark a perfect subgraph around a centre."""
    reply = lib.heronditch_check(*_told(pattern, board), centre, nodes, len(nodes), links, len(links))
    demand(reply)
    return bool(reply.first)


def bar(pattern: File, board: File, centre: int) -> bytes | None:
    """A byte for each link of the pattern, 1 for one that stands in the way of a place around a centre; None where it has one."""
    out, lent = _lent("uint8_t", lib.HERONDITCH_PATTERN_LINKS)
    reply = lib.heronditch_bar(*_told(pattern, board), centre, *lent)
    if reply.number == lib.HERONDITCH_HAS_PLACE:
        return None
    demand(reply)
    return bytes(ffi.buffer(out, pattern.links))


def _report_room() -> Any:
    """Room for any report, one for each thread, which is kept: 18 MB that are lent and given back for each report scatter the heap, so that
    many reports one after another take more and more memory."""
    if not hasattr(_rooms, "report"):
        _rooms.report = _new("uint8_t[]", lib.HERONDITCH_REPORT_BYTES)
    return _rooms.report


def report(pattern: File, board: File) -> bytes:
    """The report of a pattern on a board, whole."""
    out = _report_room()
    reply = lib.heronditch_report_editions(*_told(pattern, board), 0, 0, out, lib.HERONDITCH_REPORT_BYTES)
    demand(reply)
    return bytes(ffi.buffer(out, reply.size))


def merge(pattern: File) -> tuple[bytes, bytes]:
    """The class of each part of a pattern, and the merged pattern's file."""
    classes, lent_classes = _lent("uint8_t", lib.HERONDITCH_PARTS)
    out, lent_out = _lent("uint8_t", len(pattern.data))
    reply = lib.heronditch_merge(*_told(pattern), *lent_classes, *lent_out)
    demand(reply)
    return bytes(ffi.buffer(classes, pattern.nodes)), bytes(ffi.buffer(out, reply.second))


def compare(first: bytes, second: bytes) -> int:
    """How the circuits of two second-edition pattern files rank: -1, 0 or 1."""
    reply = lib.heronditch_compare(first, len(first), second, len(second))
    demand(reply)
    return ORDERS[reply.order]


def shelf(files: Sequence[bytes]) -> list[int]:
    """The numbers of those of up to 16 second-edition pattern files that are accepted, in the order of their circuits."""
    data = b"".join(files)
    order, lent = _lent("uint8_t", SHELF)
    lengths = ffi.new("uint32_t[]", [len(file) for file in files])
    reply = lib.heronditch_shelf(data, len(data), lengths, len(files), *lent)
    demand(reply)
    return list(ffi.buffer(order, reply.first)[:])


class Session:
    """A session of cutting links: the library's struct, and the calls on it."""

    def __init__(self, pattern: File, board: File) -> None:
        """Opens it on a pattern and a board, with all links left."""
        self._session = ffi.new("heronditch_session *")
        demand(lib.heronditch_open(self._session, *_told(pattern, board)))

    def cut(self, link: int) -> None:
        """Cuts a link, told by its place in the board's file; refused with 14 where it is out already or is none."""
        demand(lib.heronditch_cut(self._session, link))

    def table(self) -> list[int]:
        """The match table on the links that are left."""
        out, lent = _lent("uint32_t", lib.HERONDITCH_NODES)
        reply = lib.heronditch_table(self._session, *lent)
        demand(reply)
        return list(ffi.unpack(out, reply.first))
