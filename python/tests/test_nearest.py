"""What the page says where there is no place: what comes nearest, the rarest kind, and what bars."""

from __future__ import annotations

from hypothesis import given, settings

from drawing import boards, patterns
from heronditch import Circuit, from_text, match, place, places
from heronditch.pages.none import barred, nearest, rarest

RING = " -> ".join([*(f"n{node}" for node in range(6)), "n0"])


def test_the_whole_board() -> None:
    """A ring of two kinds matches a longer ring as a whole, and yet around no node of it."""
    pattern = from_text("node a 1\nnode b 2\na -> b -> a")
    board = from_text("\n".join([*(f"node n{node} {1 + node % 2}" for node in range(6)), RING]))
    assert not places(pattern, board)
    what, near = nearest(pattern, board)
    assert what == "whole" and near[0].nodes == board.names


def test_one_link() -> None:
    """One link too many is named, and what matches without it; a two-way link counts as one."""
    pattern = from_text("node a 1\nnode b 2\nnode c 3\na -> b <-> c")
    board = from_text("node p 1\nnode q 2\nnode r 3\nnode s 3\np -> q")
    what, near = nearest(pattern, board)
    assert what == "link" and [tuple(one) for one in near] == [("b <-> c", ("p", "q", "r", "s"))]


def test_one_part() -> None:
    """Where no single link is in the way, the part is named."""
    pattern = from_text("node a 1\nnode b 2\nnode c 3\na -> b -> c -> a")
    board = from_text("node p 1\nnode q 2\nnode r 3\np -> q")
    what, near = nearest(pattern, board)
    assert what == "part" and [tuple(one) for one in near] == [("c", ("p", "q"))]


def test_nothing() -> None:
    """Where nothing helps, nothing is named."""
    pattern = from_text("node a 1\nnode b 2\na -> b")
    assert nearest(pattern, from_text("node p 3\nnode q 4\np -> q")) == ("part", [])
    assert rarest(pattern, from_text("node p 3")) is None


@settings(max_examples=60, deadline=None)
@given(patterns(), boards())
def test_of_any(pattern: Circuit, board: Circuit) -> None:
    """What comes nearest matches with less, the rarest kind is that, and every node of it without a place is barred, once."""
    what, near = nearest(pattern, board)
    assert (what == "whole") == bool(match(pattern, board)) and all(one.nodes for one in near)
    rare = rarest(pattern, board)
    if rare is None:
        assert not set(pattern.kinds) & set(board.kinds) - {0}
        return
    kind, nodes = rare
    assert kind in pattern.kinds and nodes == tuple(node for node, other in enumerate(board.kinds) if other == kind)
    assert all(not 0 < board.kinds.count(other) < len(nodes) for other in pattern.kinds if other)
    told = [name for group in barred(pattern, board, nodes) for name in group.nodes]
    assert sorted(told) == sorted(board.names[node] for node in nodes if place(pattern, board, node) is None)
