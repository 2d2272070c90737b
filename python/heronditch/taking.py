"""A pattern cut out of a board: the nodes within a distance of one of them, and the links between them."""

from __future__ import annotations

from dataclasses import replace
from shlex import quote
from typing import Collection

from .circuits import LIMITS, Circuit, Node
from .errors import BOARD, PATTERN, Faults, Refused
from .finding import ball


def without_nodes(board: Circuit, left_out: Collection[int]) -> Circuit:
    """A board without some of its nodes and their links."""
    return part_of(board, [node for node in range(len(board.names)) if node not in left_out])


def part_of(circuit: Circuit, nodes: Collection[int]) -> Circuit:
    """The circuit of some nodes, in their order, and of the links between them."""
    kept = sorted(nodes)
    numbers = {node: number for number, node in enumerate(kept)}
    return Circuit.of(
        [circuit.names[node] for node in kept],
        [circuit.kinds[node] for node in kept],
        [(numbers[start], numbers[end]) for start, end in circuit.links if start in numbers and end in numbers],
        None if circuit.packages is None else [circuit.packages[node] for node in kept],
        circuit.register,
    )


def used_names(circuit: Circuit) -> Circuit:
    """The circuit with names for those kinds and packages alone that it has."""
    register = circuit.register
    kinds = {name: number for name, number in register.kinds.items() if number in circuit.kinds}
    packages = {name: number for name, number in register.packages.items() if number in (circuit.packages or ())}
    return replace(circuit, register=replace(register, kinds=kinds, packages=packages))


def take(board: Circuit, centre: Node, radius: int, left_out: Collection[Node] = ()) -> Circuit:
    """The pattern of all nodes within a radius of a centre, on the board without those that are left out; refused where it is none."""
    board.check_role(BOARD)
    gone = {board.number(node) for node in left_out}
    middle = board.names[board.number(centre)]
    if board.number(centre) in gone:
        raise Faults([f"'{middle}' is the centre, and can't be left out"])
    rest = without_nodes(board, gone)
    far = ball(rest, middle, radius)
    pattern = used_names(part_of(rest, far))
    try:
        pattern.check_role(PATTERN)
    except Refused as refused:
        raise Refused(refused.number, PATTERN, refused.sentence, mend(rest, middle, radius, refused.number)) from None
    return pattern


def mend(board: Circuit, centre: str, radius: int, refusal: int) -> str:
    """How to take less: the largest radius that fits, and, of too many nodes, one with many links that may be left out."""
    _, most, most_links = LIMITS[PATTERN]
    fitting = None
    for smaller in range(radius):
        less = part_of(board, ball(board, centre, smaller))
        if len(less.names) <= most and len(less.links) <= most_links and less.shape() is None:
            fitting = (smaller, len(less.names))
    told = f"Radius {fitting[0]} fits, with {fitting[1]} nodes" if fitting else "No smaller radius fits"
    if refusal != 2:
        return f"{told}."
    whole = part_of(board, ball(board, centre, radius))
    ends = [end for link in whole.links for end in link if whole.names[end] != centre]
    busiest = max(range(len(whole.names)), key=lambda node: (ends.count(node), -node))
    return (
        f"{told}; or leave out a net that joins much, such as {whole.names[busiest]} (--leave-out {quote(whole.names[busiest])})."
    )
