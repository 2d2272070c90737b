"""Random circuits, for properties."""

from __future__ import annotations

from typing import Any

from hypothesis import strategies as st

from heronditch import Circuit


@st.composite
def circuits(draw: Any, least: int = 0, most: int = 6, kinds: int = 3, connected: bool = False, bounds: bool = True) -> Circuit:
    """Circuits of few nodes and few kinds, of every edition."""
    count = draw(st.integers(least, most))
    nodes = st.integers(0, max(count - 1, 0))
    links = draw(st.sets(st.tuples(nodes, nodes), max_size=2 * count)) if count else set()
    if connected:
        for node in range(1, count):
            other = draw(st.integers(0, node - 1))
            links.add((node, other) if draw(st.booleans()) else (other, node))
    numbers = st.lists(st.integers(0, kinds), min_size=count, max_size=count)
    packages = draw(st.one_of(st.none(), st.lists(st.integers(0, 1), min_size=count, max_size=count)))
    bound = st.integers(1, 4)
    joined: Any = {link: draw(bound) for link in sorted(links)} if bounds and links and draw(st.booleans()) else links
    return Circuit.of([f"n{number}" for number in range(count)], draw(numbers), joined, packages if count else None)


def patterns(bounds: bool = False) -> st.SearchStrategy[Circuit]:
    """Connected patterns."""
    return circuits(1, 4, 2, True, bounds)


def boards() -> st.SearchStrategy[Circuit]:
    """Boards."""
    return circuits(0, 9, 2, False, False)
