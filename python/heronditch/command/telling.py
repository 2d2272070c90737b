"""How nodes, parts and links are laid out for a reader."""

from __future__ import annotations

from bisect import bisect_right
from itertools import accumulate
from typing import Iterable, Mapping, Sequence

from ..circuits import Circuit, Link
from ..finding import Place, Roles

WIDTH = 100
Rows = Iterable[tuple[str, Sequence[str]]]


def count(number: int, what: str) -> str:
    """A number of things: '1 node', '2 nodes'."""
    return f"{number} {what}" if number == 1 else f"{number} {what}s"


def listed(words: Sequence[str]) -> str:
    """Words in a sentence: 'a', 'a and b', 'a, b and c'; of many the first ones, and how many more there are."""
    if len(words) > 8:
        words = [*words[:6], f"{len(words) - 6} more"]
    return " and ".join([", ".join(words[:-1]), words[-1]] if len(words) > 1 else words)


def filled(words: Iterable[str], first: str, further: str) -> list[str]:
    """Words in lines of a width, after a beginning for the first line and one for each further line."""
    words = list(words)
    ends = [end + spaces for spaces, end in enumerate(accumulate(map(len, words)))]  # where each ends, were all in one line
    lines, begin, at = [], first, 0
    while at < len(words):
        before = ends[at - 1] + 1 if at else 0
        after = max(bisect_right(ends, before + WIDTH - len(begin), at), at + 1)
        lines.append(begin + " ".join(words[at:after]))
        begin, at = further, after
    return lines or [first.rstrip()]


def rows(pairs: Rows) -> list[str]:
    """A line for each label, with its words in a column of their own. Words that several labels share are laid out once."""
    pairs = list(pairs)
    wide = max((len(label) for label, _ in pairs), default=0)
    further = " " * (wide + 4)
    made: dict[int, list[str]] = {}  # by which words they are, which `pairs` keeps
    lines = []
    for label, words in pairs:
        if id(words) not in made:
            made[id(words)] = filled(words, further, further)
        first, *rest = made[id(words)]
        lines += [f"  {label.ljust(wide)}  {first[wide + 4:]}".rstrip(), *rest]
    return lines


def role_rows(pattern: Circuit, board: Circuit, roles: Roles) -> list[str]:
    """A line for each part, with the nodes that play it."""
    names = {id(nodes): board.named(nodes) or ["-"] for nodes in {id(nodes): nodes for nodes in roles}.values()}
    return rows((label, names[id(nodes)]) for label, nodes in zip(part_labels(pattern), roles))


def part_labels(pattern: Circuit) -> list[str]:
    """The parts by name, or by number where the pattern has no names."""
    numbered = all(name == str(number) for number, name in enumerate(pattern.names))
    return [f"part {name}" for name in pattern.names] if numbered else list(pattern.names)


def by_names(pattern: Circuit, board: Circuit, roles: Roles) -> dict[str, list[str]]:
    """For each part the nodes that play it, by names."""
    return {name: board.named(nodes) for name, nodes in zip(pattern.names, roles)}


def united(places: Sequence[Place]) -> Roles:
    """For each part the nodes that play it in any of the places."""
    return tuple(tuple(sorted(set().union(*parts))) for parts in zip(*(place.roles for place in places)))


def link_names(circuit: Circuit, links: Iterable[Link]) -> list[list[str]]:
    """Links, each by the names of its ends."""
    return [circuit.named(link) for link in links]


def link_lines(circuit: Circuit, links: Iterable[Link]) -> list[str]:
    """Links as the text form has them, joined to chains."""
    return [line for chain in chains(circuit, links) for line in filled(chain, "  ", "    ")]


def chains(circuit: Circuit, links: Iterable[Link]) -> list[list[str]]:
    """The words of chains that have each link once. A first one begins with what nothing drives, or with what is driven two ways alone,
    and the others branch off from those before, as long as they do."""
    joined = set(links)
    ways = _ways(joined)
    driven = {end for start, end in joined if start != end}
    one_way = {end for start, end in joined if start != end and (end, start) not in joined}
    found = []
    for first in sorted(ways, key=lambda node: ((node in driven) + (node in one_way), node)):
        passed = [first]  # grows while its nodes are gone through
        for start in passed:
            while ways[start]:
                nodes, words = _chain(circuit, ways, start)
                passed += nodes
                found.append(words)
    return found


def _ways(links: set[Link]) -> dict[int, dict[int, str]]:
    """From each node the nodes at the other end of a link from it, and the arrow; a two-way one stands at both ends."""
    ways: dict[int, dict[int, str]] = {node: {} for link in sorted(links) for node in link}
    for start, end in sorted(links):
        ways[start][end] = "<->" if start != end and (end, start) in links else "->"
    return dict(sorted(ways.items()))


def _chain(circuit: Circuit, ways: Mapping[int, dict[int, str]], start: int) -> tuple[list[int], list[str]]:
    """The nodes and the words of a chain from a node on, whose links are taken out."""
    nodes, words = [], [circuit.names[start]]
    while ways[start]:
        end = min(ways[start])
        arrow = ways[start].pop(end)
        if arrow == "<->":
            ways[end].pop(start)
        words += [arrow, circuit.names[end]]
        nodes.append(end)
        start = end
    return nodes, words
