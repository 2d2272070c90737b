"""What comes nearest to a place where there is none: what would match with less asked for, and what bars around each node of the rarest
kind."""

from __future__ import annotations

from typing import Iterable, NamedTuple, Sequence

from ..circuits import Circuit, Link
from ..finding import match, why
from ..taking import part_of


class Near(NamedTuple):
    """What is left out of the pattern, by names, and the nodes of the board that would match then."""

    left_out: str
    nodes: tuple[str, ...]


class Barred(NamedTuple):
    """Nodes of the board, and the least links of the pattern that bar a place around each of them; none where its kind does."""

    nodes: tuple[str, ...]
    links: tuple[Link, ...]


def matched(pattern: Circuit, board: Circuit) -> tuple[str, ...]:
    """The nodes that match on the whole board."""
    return tuple(board.names[node] for node, word in enumerate(match(pattern, board).table) if word)


def joints(pattern: Circuit) -> list[tuple[str, set[Link]]]:
    """The links of a pattern by names, those that go both ways in one."""
    found = {}
    for start, end in pattern.links:
        pair = {(start, end), (end, start)} & set(pattern.links)
        arrow = "<->" if len(pair) == 2 else "->"
        names = (pattern.names[start], pattern.names[end])
        if len(pair) == 1 or start <= end:
            found[f"{names[0]} {arrow} {names[1]}"] = pair
    return list(found.items())


def without_links(pattern: Circuit, links: set[Link]) -> Circuit:
    """A pattern without some links."""
    kept = [link for link in pattern.links if link not in links]
    return Circuit.of(pattern.names, pattern.kinds, kept, pattern.packages, pattern.register)


def fewer_links(pattern: Circuit, board: Circuit) -> list[Near]:
    """What would match with one link left out, or two that go opposite ways."""
    tried = ((told, matched(without_links(pattern, links), board)) for told, links in joints(pattern))
    return [Near(told, nodes) for told, nodes in tried if nodes]


def fewer_parts(pattern: Circuit, board: Circuit) -> list[Near]:
    """What would match with one part left out, and its links."""
    found = []
    for part, name in enumerate(pattern.names if len(pattern.names) > 1 else ()):
        rest = part_of(pattern, [other for other in range(len(pattern.names)) if other != part])
        nodes = matched(rest, board)
        if nodes:
            found.append(Near(name, nodes))
    return found


def rarest(pattern: Circuit, board: Circuit) -> tuple[int, tuple[int, ...]] | None:
    """The kind of the pattern that the fewest nodes of the board have, but some, and those nodes."""
    nodes = {
        kind: tuple(node for node, other in enumerate(board.kinds) if other == kind) for kind in sorted(set(pattern.kinds) - {0})
    }
    some = [(len(have), kind) for kind, have in nodes.items() if have]
    return (min(some)[1], nodes[min(some)[1]]) if some else None


def barred(pattern: Circuit, board: Circuit, nodes: Iterable[int]) -> list[Barred]:
    """What bars around each of some nodes; those that the same links bar stand together."""
    groups: dict[tuple[Link, ...], list[str]] = {}
    for node in nodes:
        links = why(pattern, board, node)
        if links is not None:
            groups.setdefault(links, []).append(board.names[node])
    return [Barred(tuple(names), links) for links, names in groups.items()]


def nearest(pattern: Circuit, board: Circuit) -> tuple[str, Sequence[Near]]:
    """What comes nearest, and what that means: what matches on the whole board, or would with a link or else a part left out."""
    whole = matched(pattern, board)
    if whole:
        return "whole", [Near("nothing", whole)]
    links = fewer_links(pattern, board)
    return ("link", links) if links else ("part", fewer_parts(pattern, board))
