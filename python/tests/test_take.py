"""take: what is cut out of a board is a pattern, and is found where it was cut out."""

from __future__ import annotations

import pathlib

import pytest
from hypothesis import given, settings
from hypothesis import strategies as some

from conftest import run, write
from drawing import circuits
from heronditch import Circuit, Refused, from_text, place, to_text
from heronditch.taking import take


@settings(max_examples=60, deadline=None)
@given(circuits(1, 12, 3, False, False), some.integers(0, 4), some.data())
def test_what_is_taken_is_found(board: Circuit, radius: int, data: some.DataObject) -> None:
    """The pattern has the nodes within the radius and all links between them, and a place around its centre."""
    centre = data.draw(some.integers(0, len(board.names) - 1))
    pattern = take(board, centre, radius)
    near = {node for node, far in board.distances(centre).items() if far <= radius}
    assert set(pattern.names) == {board.names[node] for node in near}
    assert {pattern.told(link) for link in pattern.links} == {board.told(link) for link in board.links if set(link) <= near}
    assert from_text(to_text(pattern), role="pattern").to_bytes() == pattern.to_bytes()
    found = place(pattern, board, centre)
    assert found is not None and near <= set(found.nodes)


def chain(length: int) -> Circuit:
    """A board of nodes in a row."""
    nodes = [f"node n{node} 1" for node in range(length)]
    return from_text("\n".join([*nodes, " -> ".join(f"n{node}" for node in range(length))]))


def test_told_why_not() -> None:
    """Too many nodes, and nodes too far apart, are told, with the radius that fits."""
    with pytest.raises(Refused, match="Radius 6 fits, with 13 nodes") as wide:
        take(chain(40), "n20", 7)
    assert wide.value.number == 11
    leaves = "\n".join(f"node leaf{leaf} 2\nhub -> leaf{leaf}" for leaf in range(40))
    board = from_text(f"node hub 1\nnode Q 3\nhub -> Q\n{leaves}")
    with pytest.raises(Refused, match="Radius 1 fits, with 2 nodes; or leave out a net that joins much, such as hub") as many:
        take(board, "Q", 2)
    assert many.value.number == 2
    assert take(board, "Q", 2, ["hub"]).names == ("Q",)


def test_names_that_begin_with_a_hyphen(folder: pathlib.Path) -> None:
    """A node may be called -12V: after '--' stands no option."""
    write("board.txt", "node -12V 1\nnode b 2\n-12V -> b")
    assert (
        run("take", "--radius", 1, "-o", "taken.txt", "--", "board.txt", "-12V").out
        == "taken.txt: 2 parts, 1 link, around -12V\n"
    )
    assert run("take", "board.txt", "b", "--leave-out=-12V", "--radius", 1, "-o", "one.txt").out.startswith("one.txt: 1 part,")
    assert run("draw", "-o", "out.svg", "--", "taken.txt", "board.txt", "-12V").status == 0
