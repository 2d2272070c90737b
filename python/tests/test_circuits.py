"""Circuits: files of the three editions, graphs, and what is refused."""

from __future__ import annotations

import struct

import networkx
import pytest
from hypothesis import given, settings
from hypothesis import strategies as st

from drawing import boards, circuits, patterns
from heronditch import FIRST, SECOND, THIRD, Circuit, Faults, Kinds, Refused, bindings, from_text, to_text
from heronditch.circuits import edition_of


@given(circuits())
def test_there_and_back(circuit: Circuit) -> None:
    """A circuit comes back from its file, its text and its graph."""
    plain = Circuit.from_bytes(circuit.to_bytes())
    assert plain.to_bytes() == circuit.to_bytes()
    assert from_text(to_text(circuit)) == circuit
    assert Circuit.from_graph(circuit.to_graph()) == circuit


@given(circuits())
def test_editions(circuit: Circuit) -> None:
    """Every edition that a circuit has is told by its length, and holds the same circuit."""
    for edition in (FIRST, SECOND, THIRD):
        try:
            other = circuit.in_edition(edition)
        except (Refused, Faults):
            lost_package = edition == FIRST and any(circuit.packages or ())
            assert lost_package or any(bound != 1 for bound in circuit.bounds or ())
            continue
        assert circuit.to_bytes(edition) == other.to_bytes()
        assert edition_of(other.to_bytes()) == edition or not circuit.names or not circuit.links
        assert (other.names, other.kinds, other.links) == (circuit.names, circuit.kinds, circuit.links)


def told(call: object, *arguments: object) -> int:
    """The number by which a call refuses, 0 where it does not."""
    try:
        call(*arguments)  # type: ignore[operator]
    except Refused as refused:
        assert refused.sentence and refused.mend
        return refused.number
    return 0


def damaged(data: bytes, at: int, byte: int) -> bytes:
    """A file with a byte changed."""
    at %= max(len(data), 1)
    return data[:at] + bytes([byte]) + data[at + 1 :]


@settings(max_examples=300)
@given(st.one_of(circuits(), patterns(), boards()), st.integers(0, 99), st.integers(0, 255), st.integers(0, 3))
def test_refusals_are_the_librarys(circuit: Circuit, at: int, byte: int, fewer: int) -> None:
    """A file is refused by the number that the library gives for it, damaged or not; 6 and 11 are for the calls that ask them."""
    data = damaged(circuit.to_bytes(), at, byte)
    data = data[: len(data) - fewer]
    edition = edition_of(data) or FIRST
    for role in ("pattern", "board"):
        number = told(Circuit.from_bytes, data, role)
        if edition == THIRD and role == "pattern":
            theirs = told(bindings.match, bindings.File(data, THIRD), bindings.File(bytes(4), FIRST))
        else:
            theirs = told(bindings.read, role, bindings.File(data, edition))
        assert number == theirs or (not number and theirs in (6, 11))


@given(st.one_of(patterns(), boards()))
def test_reading_and_writing_are_the_librarys(circuit: Circuit) -> None:
    """What the library reads of a file is the circuit, and what it writes of that is the file."""
    file = bindings.File(circuit.to_bytes(), circuit.edition)
    tables = bindings.read("board", file)
    assert tuple(tables.kinds) == circuit.kinds and tuple(zip(tables.starts, tables.ends)) == circuit.links
    assert (None if tables.packages is None else tuple(tables.packages)) == circuit.packages
    assert bindings.write("board", circuit.edition, tables) == file.data


UNSOUND = [
    (("a", "a"), (1, 1), (), "one name"),
    (("a",), (1, 1), (), "2 kinds for 1 nodes"),
    (("a",), (65536,), (), "from 0 to 65535"),
    (("a",), (1,), ((0, 1),), "not there"),
    (("a",), (1,), ((0, 0), (0, 0)), "rise"),
]


@pytest.mark.parametrize("names, kinds, links, message", UNSOUND)
def test_unsound(names: tuple[str, ...], kinds: tuple[int, ...], links: tuple[tuple[int, int], ...], message: str) -> None:
    """A circuit that no file has is told."""
    with pytest.raises(Faults, match=message):
        Circuit(names, kinds, links)


def test_unsound_bounds_and_packages() -> None:
    """Bounds and packages are one for each, and in their range."""
    with pytest.raises(Faults, match="2 bounds for 1 links"):
        Circuit(("a",), (1,), ((0, 0),), None, (1, 1))
    with pytest.raises(Faults, match="bounds are numbers from 1 to 4"):
        Circuit(("a",), (1,), ((0, 0),), None, (5,))
    with pytest.raises(Faults, match="2 packages for 1 nodes"):
        Circuit(("a",), (1,), (), (1, 2))


BAD_FILES = [
    ("020001", 1, "3 bytes, and a circuit file has at least 4"),
    ("01000000", 3, "4 bytes, and a circuit file of 1 nodes and 0 links has 6"),
    ("010001000a0000000100", 4, "link 0 is 0-1, and there are 1 nodes"),
    ("010002000a000000000000000000", 5, "link 1, 0-0, does not come after 0-0"),
    ("010001000a00000000000000" "0500", 13, "link 0 has bound 5"),
]


@pytest.mark.parametrize("data, number, message", BAD_FILES)
def test_bad_files(data: str, number: int, message: str) -> None:
    """What is wrong with a file is told in words."""
    with pytest.raises(Refused, match=message) as caught:
        Circuit.from_bytes(bytes.fromhex(data))
    assert caught.value.number == number


def test_graph_by_names() -> None:
    """A graph whose kinds are names takes their numbers from a register, or from one made for it."""
    graph = networkx.DiGraph()
    graph.add_node("Q1", kind="npn", package="SOT-23")
    graph.add_node("X", kind="any")
    graph.add_edge("Q1", "X", within=2)
    circuit = Circuit.from_graph(graph)
    assert (circuit.kinds, circuit.packages, circuit.bounds) == ((1, 0), (1, 0), (2,))
    shared = Kinds({"npn": 12}, {"SOT-23": 3})
    assert Circuit.from_graph(graph, shared).kinds == (12, 0)
    with pytest.raises(Faults, match="no kind is named 'npn'"):
        Circuit.from_graph(graph, Kinds({"pnp": 1}))


def test_registers() -> None:
    """Two registers are joined where no name stands for two numbers."""
    one, other = Kinds({"npn": 12, "pnp": 13}), Kinds({"npn": 12, "net": 1}, {"SOT-23": 3})
    assert one.joined(other) == Kinds({"npn": 12, "pnp": 13, "net": 1}, {"SOT-23": 3})
    with pytest.raises(Faults, match="kind 'npn' is 12 in one register and 13 in the other"):
        one.joined(Kinds({"npn": 13}))


def test_nodes_by_name() -> None:
    """A node is told by name or number; a name that is none is told with those near it."""
    circuit = from_text("node R10 1\nnode R11 1\nnode Q 2")
    assert circuit.number("R11") == circuit.number(1) == 1
    with pytest.raises(Faults, match="no node is named 'R12'; near it are 'R1"):
        circuit.number("R12")
    with pytest.raises(Refused) as caught:
        circuit.number(3)
    assert caught.value.number == 7


def test_third_edition_boards() -> None:
    """A board of the third edition is refused: bounds are for patterns."""
    data = struct.pack("<7H", 1, 1, 5, 0, 0, 0, 1)
    assert Circuit.from_bytes(data, "pattern").bounds == (1,)
    with pytest.raises(Refused, match="which is for patterns"):
        Circuit.from_bytes(data, "board")
