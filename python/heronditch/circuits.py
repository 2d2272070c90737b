"""Circuits: named nodes with kinds and packages, and the links between them; as circuit files and as networkx graphs."""

from __future__ import annotations

import struct
from dataclasses import dataclass, field, replace
from importlib import import_module
from typing import Any, Iterable, Mapping, Sequence, Union

from .errors import BOARD, NEITHER, PATTERN, Faults, Refused

Link = tuple[int, int]
Node = Union[int, str]

FIRST, SECOND, THIRD = 1, 2, 3
EDITIONS = {"first": FIRST, "second": SECOND, "third": THIRD}
MOST = 65535  # the largest number of a kind or a package, and the most nodes or links of a file
FARTHEST = 4  # the largest bound of a link
WIDEST = 12  # the largest radius of a pattern
BITS = "bits"  # the role of a pattern that need not be connected nor of radius 12 at most
LIMITS = {PATTERN: (1, 32, 256), BITS: (1, 32, 256), BOARD: (0, 512, 4096)}  # least and most nodes, most links
ZERO = {"any": PATTERN, "unidentified": BOARD}  # the names of kind 0, and the role each is for


@dataclass(frozen=True)
class Kinds:
    """A register of names for kinds and for packages, which patterns and boards share."""

    kinds: Mapping[str, int] = field(default_factory=dict)
    packages: Mapping[str, int] = field(default_factory=dict)

    @classmethod
    def of_graphs(cls, *graphs: Any) -> Kinds:
        """Numbers the kinds and packages that the nodes of networkx graphs have by name, from 1 on, in the order of their names."""
        found: dict[str, set[str]] = {"kind": set(), "package": set()}
        for graph in graphs:
            for _, data in graph.nodes(data=True):
                for what, names in found.items():
                    word = data.get(what)
                    if isinstance(word, str) and word not in ZERO:
                        names.add(word)
        kinds, packages = ({name: number for number, name in enumerate(sorted(names), 1)} for names in found.values())
        return cls(kinds, packages)

    def kind_name(self, number: int) -> str:
        """The first name of a kind, or its number where it has none."""
        return next((name for name, other in self.kinds.items() if other == number), str(number))

    def package_name(self, number: int) -> str:
        """The first name of a package, or its number where it has none."""
        return next((name for name, other in self.packages.items() if other == number), str(number))

    def differences(self, other: Kinds) -> list[tuple[str, str, int, int]]:
        """The names that stand for two numbers: 'kind' or 'package', the name, its number here and there."""
        found = []
        for what, here, there in (("kind", self.kinds, other.kinds), ("package", self.packages, other.packages)):
            found += [(what, name, here[name], there[name]) for name in here if there.get(name, here[name]) != here[name]]
        return found

    def joined(self, other: Kinds) -> Kinds:
        """Both registers in one; a name that stands for two numbers is an error."""
        wrong = self.differences(other)
        if wrong:
            raise Faults(
                f"{what} '{name}' is {here} in one register and {there} in the other" for what, name, here, there in wrong
            )
        return Kinds({**self.kinds, **other.kinds}, {**self.packages, **other.packages})


@dataclass(frozen=True)
class Circuit:
    """Nodes, numbered from 0, each with a name, a kind and, in the second edition, a package; and links, each from one node to
    another or to itself, in the order of the file, with a bound each in the third edition. `register` names kinds and packages.
    """

    names: tuple[str, ...]
    kinds: tuple[int, ...]
    links: tuple[Link, ...]
    packages: tuple[int, ...] | None = None
    bounds: tuple[int, ...] | None = None
    register: Kinds = field(default_factory=Kinds, compare=False)

    def __post_init__(self) -> None:
        """Demands that the circuit is sound: that there is a file of it."""
        faults = [*self._unsound_nodes(), *self._unsound_links()]
        if faults:
            raise Faults(faults)

    def _unsound_nodes(self) -> Iterable[str]:
        count = len(self.names)
        if len(set(self.names)) != count:
            yield "two nodes have one name"
        if count > MOST:
            yield f"{count} nodes, and a file holds at most {MOST}"
        for what, numbers in (("kinds", self.kinds), ("packages", self.packages)):
            if numbers is None:
                continue
            if len(numbers) != count:
                yield f"{len(numbers)} {what} for {count} nodes"
            if any(not 0 <= number <= MOST for number in numbers):
                yield f"{what} are numbers from 0 to {MOST}"

    def _unsound_links(self) -> Iterable[str]:
        count = len(self.names)
        if len(self.links) > MOST:
            yield f"{len(self.links)} links, and a file holds at most {MOST}"
        if any(not (0 <= start < count and 0 <= end < count) for start, end in self.links):
            yield f"a link to or from a node that is not there: the {count} nodes are numbered from 0"
        if any(one >= other for one, other in zip(self.links, self.links[1:])):
            yield "links rise by start, then by end, each once (Circuit.of sorts them)"
        if self.bounds is not None:
            if len(self.bounds) != len(self.links):
                yield f"{len(self.bounds)} bounds for {len(self.links)} links"
            if any(not 1 <= bound <= FARTHEST for bound in self.bounds):
                yield f"bounds are numbers from 1 to {FARTHEST}"

    @classmethod
    def of(
        cls,
        names: Iterable[str],
        kinds: Iterable[int],
        links: Iterable[Link] | Mapping[Link, int],
        packages: Iterable[int] | None = None,
        register: Kinds | None = None,
    ) -> Circuit:
        """The circuit of links in any order; of links with a bound each where they are given as a mapping."""
        bounds = tuple(links[link] for link in sorted(links)) if isinstance(links, Mapping) else None
        packed = None if packages is None else tuple(packages)
        return cls(tuple(names), tuple(kinds), tuple(sorted(links)), packed, bounds, register or Kinds())

    @property
    def edition(self) -> int:
        """The edition of the circuit's file: the third has bounds, the second packages, the first neither."""
        return THIRD if self.bounds is not None else SECOND if self.packages is not None else FIRST

    def number(self, node: Node) -> int:
        """The number of a node, told by its name or by that number."""
        if isinstance(node, int):
            if not 0 <= node < len(self.names):
                raise Refused(7, NEITHER, f"there is no node {node}: the {len(self.names)} nodes are numbered from 0")
            return node
        if node not in self.names:
            raise Faults([f"no node is named '{node}'{self._near(node)}"])
        return self.names.index(node)

    def _near(self, word: str) -> str:
        """What a word that names no node may have meant."""
        close: list[str] = import_module("difflib").get_close_matches(word, self.names, 3)
        return "; near it are " + ", ".join(f"'{name}'" for name in close) if close else ""

    def named(self, nodes: Iterable[int]) -> list[str]:
        """The names of nodes."""
        return list(map(self.names.__getitem__, nodes))

    def told(self, link: Link) -> str:
        """A link by names."""
        return f"{self.names[link[0]]} -> {self.names[link[1]]}"

    def without_packages(self) -> Circuit:
        """The circuit with all packages left out."""
        return replace(self, packages=None)

    def without_bounds(self) -> Circuit:
        """The circuit with all bounds left out."""
        return replace(self, bounds=None)

    def in_edition(self, edition: int) -> Circuit:
        """The same circuit for a file of an edition; an error where the edition has no place for a package or a bound."""
        packages = self.packages if self.packages is not None else (0,) * len(self.kinds)
        if edition == THIRD:
            return replace(self, packages=packages, bounds=self.bounds or (1,) * len(self.links))
        word = {FIRST: "first", SECOND: "second"}[edition]
        for link, bound in zip(self.links, self.bounds or ()):
            if bound != 1:
                told = f"the link '{self.told(link)}' has bound {bound}, and the {word} edition has none"
                raise Faults([f"{told}: make it without bounds (heronditch make --without-bounds), or keep the third edition"])
        if edition == SECOND:
            return replace(self, packages=packages, bounds=None)
        for name, package in zip(self.names, packages):
            if package:
                raise Refused(12, NEITHER, f"'{name}' has package {package}, and the first edition has none")
        return replace(self, packages=None, bounds=None)

    def to_bytes(self, edition: int | None = None) -> bytes:
        """The bytes of the circuit's file, in its own edition or in one told."""
        if edition is not None and edition != self.edition:
            return self.in_edition(edition).to_bytes()
        packages = self.packages or (() if self.bounds is None else (0,) * len(self.kinds))
        fields = [len(self.kinds), len(self.links), *self.kinds, *packages]
        fields += [start for start, _ in self.links]
        fields += [end for _, end in self.links]
        fields += self.bounds or ()
        return struct.pack(f"<{len(fields)}H", *fields)

    @classmethod
    def from_bytes(cls, data: bytes, role: str | None = None) -> Circuit:
        """The circuit of a file, whose edition its length tells; its nodes are named by their numbers. Refused as reading it in
        the role is, or in none, but that a pattern need be neither connected nor of radius 12 at most."""
        file = PATTERN if role == BITS else role or NEITHER
        nodes, links = _sizes(data, role, file)
        edition = edition_of(data)
        fields = struct.unpack(f"<{len(data) // 2}H", data)[2:]
        kinds, fields = fields[:nodes], fields[nodes:]
        packed = nodes if edition != FIRST else 0
        packages, fields = fields[:packed], fields[packed:]
        pairs = tuple(zip(fields[:links], fields[links : 2 * links]))
        bounds = fields[2 * links :]
        _check_links(nodes, pairs, file)
        _check_bounds(bounds, file)
        names = tuple(map(str, range(nodes)))
        return cls(names, kinds, pairs, packages if packed else None, bounds or None)

    @classmethod
    def from_graph(cls, graph: Any, kinds: Kinds | None = None) -> Circuit:
        """The circuit of a networkx DiGraph: each node's `kind` is a number or a name of the register (None, 'any' and
        'unidentified' are kind 0), and so is its `package`, where one has any; a link's `within` is its bound, where one has any.
        """
        register = kinds or Kinds.of_graphs(graph)
        nodes = list(graph.nodes)
        numbers = {node: number for number, node in enumerate(nodes)}
        packed = any(data.get("package") is not None for _, data in graph.nodes(data=True))
        edges = {(numbers[v], numbers[w]): data.get("within") for v, w, data in graph.edges(data=True)}
        links: Iterable[Link] | dict[Link, int] = list(edges)
        if any(bound is not None for bound in edges.values()):
            links = {link: 1 if bound is None else int(bound) for link, bound in edges.items()}
        return cls.of(
            map(str, nodes),
            [_number(data.get("kind"), register.kinds, "kind", node) for node, data in graph.nodes(data=True)],
            links,
            [_number(data.get("package"), register.packages, "package", node) for node, data in graph.nodes(data=True)]
            if packed
            else None,
            register,
        )

    def to_graph(self) -> Any:
        """The circuit as a networkx DiGraph, whose nodes are the names, with `kind`, and `package` and `within` where it has them."""
        graph = import_module("networkx").DiGraph()
        for number, name in enumerate(self.names):
            graph.add_node(name, kind=self.kinds[number], **({} if self.packages is None else {"package": self.packages[number]}))
        for place, (start, end) in enumerate(self.links):
            within = {} if self.bounds is None else {"within": self.bounds[place]}
            graph.add_edge(self.names[start], self.names[end], **within)
        return graph

    def distances(self, centre: int) -> dict[int, int]:
        """The distance of each node that a path joins to a node, directions ignored."""
        near: list[set[int]] = [set() for _ in self.names]
        for start, end in self.links:
            near[start].add(end)
            near[end].add(start)
        far, ring = {centre: 0}, {centre}
        while ring:
            ring = {other for node in ring for other in near[node]} - far.keys()
            far.update(dict.fromkeys(ring, max(far.values()) + 1))
        return far

    def farthest(self) -> tuple[int, str, str]:
        """The largest distance between two nodes of a connected circuit, and the names of two so far apart."""
        found = (-1, 0, 0)
        for start in range(len(self.names)):
            far = self.distances(start)
            end = max(far, key=lambda node: (far[node], -node))
            found = max(found, (far[end], start, end), key=lambda three: three[0])
        return found[0], self.names[found[1]], self.names[found[2]]

    def shape(self) -> Refused | None:
        """Why a pattern is none for places: it is not connected (6), or its radius is above 12 (11); None where it is one."""
        joined = self.distances(0)
        apart = [name for number, name in enumerate(self.names) if number not in joined]
        if apart:
            return Refused(6, PATTERN, f"a pattern is connected, but no path joins '{apart[0]}' to '{self.names[0]}'")
        far, one, other = self.farthest()
        if far > WIDEST:
            told = f"'{one}' and '{other}' are {far} links apart, and the parts of a pattern at most {WIDEST}"
            return Refused(11, PATTERN, told)
        return None

    def check_role(self, role: str) -> None:
        """Demands that the circuit fits a role: 'pattern', 'board', or 'bits' for a pattern of the whole-board table alone."""
        file = PATTERN if role == BITS else role
        _check_size(len(self.kinds), len(self.links), role, file)
        if role == BOARD and self.bounds is not None:
            raise Refused(3, file, "it has bounds, which are for patterns", "Leave them out.")
        wrong = self.shape() if role == PATTERN and self.bounds is None else None
        if wrong:
            raise wrong


def edition_of(data: bytes) -> int:
    """The edition of a file, by its length; of lengths that two editions have, the lower one, and 0 for that of none."""
    if len(data) < 4:
        return 0
    nodes, links = struct.unpack_from("<HH", data)
    lengths = _lengths(nodes, links)
    return lengths.index(len(data)) + 1 if len(data) in lengths else 0


def _lengths(nodes: int, links: int) -> list[int]:
    """The length of a file of each edition."""
    return [4 + 2 * nodes + 4 * links, 4 + 4 * nodes + 4 * links, 4 + 4 * nodes + 6 * links]


def _sizes(data: bytes, role: str | None, file: str) -> Link:
    """The numbers of nodes and links of a file that has a length for them."""
    if len(data) < 4:
        raise Refused(1, file, f"{len(data)} bytes, and a circuit file has at least 4")
    nodes, links = struct.unpack_from("<HH", data)
    if role:
        _check_size(nodes, links, role, file)
    edition = edition_of(data)
    if not edition:
        first, second, third = _lengths(nodes, links)
        told = f"{len(data)} bytes, and a circuit file of {nodes} nodes and {links} links has {first}"
        raise Refused(3, file, f"{told}, or {second} in the second edition, or {third} in the third")
    if role == BOARD and edition == THIRD:
        told = "the length is that of the third edition, which is for patterns"
        raise Refused(3, file, told, "Give a board in the first or the second edition.")
    return nodes, links


def _check_size(nodes: int, links: int, role: str, file: str) -> None:
    """Demands that a role has so many nodes and links."""
    least, most, most_links = LIMITS[role]
    if not least <= nodes <= most:
        raise Refused(2, file, f"{nodes} nodes, and a {file} has {least} to {most}")
    if links > most_links:
        raise Refused(2, file, f"{links} links, and a {file} has at most {most_links}")


def _check_links(nodes: int, links: Sequence[Link], file: str) -> None:
    """Demands that the links of a file are between its nodes and rise."""
    for number, (start, end) in enumerate(links):
        if max(start, end) >= nodes:
            raise Refused(4, file, f"link {number} is {start}-{end}, and there are {nodes} nodes")
    for number, (one, other) in enumerate(zip(links, links[1:]), 1):
        if one >= other:
            told = f"link {number}, {other[0]}-{other[1]}, does not come after {one[0]}-{one[1]}"
            raise Refused(5, file, told)


def _check_bounds(bounds: Sequence[int], file: str) -> None:
    """Demands that the bounds of a file are in their range."""
    for number, bound in enumerate(bounds):
        if not 1 <= bound <= FARTHEST:
            raise Refused(13, file, f"link {number} has bound {bound}, and a bound is 1 to {FARTHEST}")


def _number(word: Any, names: Mapping[str, int], what: str, node: Any) -> int:
    """The number of a kind or a package that a graph's node has as a number, by name, or not at all."""
    if word is None or (what == "kind" and word in ZERO):
        return 0
    if isinstance(word, str):
        if word not in names:
            raise Faults([f"node '{node}': no {what} is named '{word}'"])
        return names[word]
    return int(word)
