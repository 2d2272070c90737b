"""The calls on files, case by case, against tools/model.py: each reply, and every entry of every lent table."""

from __future__ import annotations

from typing import Any

import cases
import model
import pytest
from heronditch.bindings import ffi, lib

FILLER = {"uint8_t": 77, "uint16_t": 7777, "uint32_t": 7777}
FIRST = lib.HERONDITCH_FIRST
FILES = {"neither": lib.HERONDITCH_NEITHER, "pattern": lib.HERONDITCH_PATTERN, "board": lib.HERONDITCH_BOARD}


class Lent:
    """A table lent to the library and one of the same content lent to the model."""

    def __init__(self, kind: str, size: int) -> None:
        self.model = [FILLER[kind]] * size
        self.library = ffi.new(f"{kind}[]", self.model or 1)
        self.told = [self.library if size else ffi.NULL, size]

    def same(self) -> bool:
        """Whether both hold the same now."""
        return list(self.library)[: len(self.model)] == self.model


def expected(reply: tuple[Any, ...], slots: int) -> list[int]:
    """The model's reply as the library's struct has it: number, file, and the values or 0."""
    word, *rest = reply
    head, values = ([rest[0], FILES[rest[1]]], []) if word == "refused" else ([0, 0], rest)
    return head + values + [0] * (slots - 2 - len(values))


def agrees(reply: Any, by_model: tuple[Any, ...], *tables: Lent) -> bool:
    """Whether the library and the model gave the same reply, and left the same in every table."""
    said = [getattr(reply, name) for name, _ in ffi.typeof(reply).fields]
    return said == expected(by_model, len(said)) and all(table.same() for table in tables)


def test_reading() -> None:
    """Every case of reading, in the first edition, in which no package is touched."""
    for role, *sizes, data in cases.read_cases():
        kinds, starts, ends = (Lent("uint16_t", size) for size in sizes)
        by_model = model.read(role, data, kinds.model, starts.model, ends.model)
        packages = Lent("uint16_t", 3)
        reply = lib.heronditch_read(FILES[role], data, len(data), FIRST, *kinds.told, *packages.told, *starts.told, *ends.told)
        assert agrees(reply, by_model, kinds, packages, starts, ends), (role, sizes, data.hex())


def test_writing() -> None:
    """Every case of writing, in the first edition."""
    for role, *tables, room in cases.write_cases():
        out = Lent("uint8_t", room)
        by_model = model.write(role, *tables, out.model)
        kinds, starts, ends = ([ffi.new("uint16_t[]", table), len(table)] for table in tables)
        reply = lib.heronditch_write(FILES[role], FIRST, *kinds, ffi.NULL, 0, *starts, *ends, *out.told)
        assert agrees(reply, by_model, out), (role, tables, room)


def test_distances() -> None:
    """Every case of the radius and of the ball."""
    for data, queries in cases.distance_cases():
        assert agrees(lib.heronditch_radius(data, len(data), FIRST), model.radius(data)), data.hex()
        for centre, radius, size in queries:
            out = Lent("uint16_t", size)
            by_model = model.ball(data, centre, radius, out.model)
            reply = lib.heronditch_ball(data, len(data), FIRST, centre, radius, *out.told)
            assert agrees(reply, by_model, out), (data.hex(), centre, radius, size)


@pytest.mark.parametrize("one_way", (False, True))
def test_tables(one_way: bool) -> None:
    """Every case of matching on the whole board, both ways and one way."""
    call = lib.heronditch_match_one_way if one_way else lib.heronditch_match
    for size, pattern, board in cases.table_cases():
        table = Lent("uint32_t", size)
        by_model = model.match_table(pattern, board, table.model, one_way=one_way)
        reply = call(pattern, len(pattern), FIRST, board, len(board), FIRST, *table.told)
        assert agrees(reply, by_model, table), (pattern.hex(), board.hex(), size)


def test_bounds() -> None:
    """Every case of a pattern with bounds."""
    for size, pattern, board in cases.bounded_cases():
        table = Lent("uint32_t", size)
        by_model = model.match_bounded(pattern, board, table.model)
        reply = lib.heronditch_match(pattern, len(pattern), lib.HERONDITCH_THIRD, board, len(board), FIRST, *table.told)
        assert agrees(reply, by_model, table), (pattern.hex(), board.hex(), size)


def rounds(pattern: bytes, board: bytes) -> int:
    """The rounds of a case by the model's quick row, which is held to the definition's row where that is quick enough."""
    drawn, graph = model.parse_in_bits("pattern", pattern), model.parse("board", board)
    if isinstance(drawn, int) or isinstance(graph, int):
        return 0
    last, (started, *_, count) = model.largest(drawn, graph)
    if started * count < 100000:
        sets = model.row(drawn, graph)
        assert (sets[-1], len(sets) - 1) == (last, count)
    return int(count)


def test_the_model_itself() -> None:
    """The model's quick row is the definition's; some row is long; with all bounds 1 it is the row without bounds."""
    assert max(rounds(pattern, board) for _, pattern, board in cases.table_cases()) > 10000
    for _, pattern, board in cases.bounded_cases():
        drawn, graph = model.parse_bounded(pattern), model.parse("board", board)
        if not isinstance(drawn, int) and not isinstance(graph, int):
            last, counts = model.largest(drawn[0], graph)
            sets = model.bounded_row(drawn[0], [1] * len(drawn[1]), graph)
            assert (sets[-1], len(sets) - 1) == (last, counts[3])
