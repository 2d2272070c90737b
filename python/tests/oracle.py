"""Places as the papers define them, on the model's sets (tools/model.py): what the library is compared with."""

from __future__ import annotations

from typing import Any

import conftest  # noqa: F401  puts tools/ and bench/ on the path
import model

from heronditch import Circuit

Place = tuple[list[int], list[tuple[int, int]], dict[int, set[int]]]


def plain(circuit: Circuit) -> Any:
    """A circuit as the model has it."""
    starts, ends = [v for v, _ in circuit.links], [w for _, w in circuit.links]
    return model.Packed(list(circuit.kinds), starts, ends, list(circuit.packages or [0] * len(circuit.kinds)))


def ball(board: Circuit, centre: int, radius: int) -> tuple[list[int], Circuit]:
    """The nodes of a ball, and the circuit of them and the links between them."""
    far = model.distances(plain(board), centre)
    nodes = sorted(node for node, distance in far.items() if distance <= radius)
    numbers = {node: number for number, node in enumerate(nodes)}
    links = [(numbers[v], numbers[w]) for v, w in board.links if v in numbers and w in numbers]
    packages = None if board.packages is None else [board.packages[node] for node in nodes]
    return nodes, Circuit.of([str(node) for node in nodes], [board.kinds[node] for node in nodes], links, packages)


def pairs_of(pattern: Circuit, graph: Circuit) -> set[tuple[int, int]]:
    """The largest dual simulation, empty where some part is left out."""
    pairs, _ = model.largest(plain(pattern), plain(graph))
    return pairs if {part for part, _ in pairs} == set(range(len(pattern.names))) else set()


def place(pattern: Circuit, board: Circuit, centre: int, radius: int) -> Place | None:
    """The nodes, the links and the nodes of each part of the place around a centre."""
    nodes, inside = ball(board, centre, radius)
    pairs = {(part, nodes[node]) for part, node in pairs_of(pattern, inside)}
    joined = {
        (v, w)
        for v, w in ((nodes[v], nodes[w]) for v, w in inside.links)
        if any((u, v) in pairs and (t, w) in pairs for u, t in pattern.links)
    }
    if centre not in {node for _, node in pairs}:
        return None
    reached = {centre}
    while more := {end for link in joined if set(link) & reached for end in link} - reached:
        reached |= more
    links = sorted(link for link in joined if link[0] in reached)
    parts = {u: {v for part, v in pairs if part == u and v in reached} for u in range(len(pattern.names))}
    return sorted(reached), links, parts


def radius(pattern: Circuit) -> int:
    """The radius of a connected pattern."""
    return int(model.width(plain(pattern)))
