#!/usr/bin/env python3
"""The finder over networkx, as one writes it in an afternoon.

  networkx_finder.py [--centres A-B] [FOLDER]

Reads pattern.cir and board.cir in the folder, or in the current one, and prints
the report. With --centres only the centres from A to B are tried, so that a
part of a long run can be timed; the last line then counts those alone.
It needs networkx.
"""

import argparse
import pathlib
import struct

import networkx as nx

LIMITS = {"pattern": (1, 32, 256), "board": (0, 512, 4096)}


class Refused(Exception):
    """A file is refused, by a number."""


def read_circuit(path, role):
    """The circuit of a file as a graph whose nodes have a kind."""
    data = path.read_bytes() if path.exists() else b""
    if len(data) < 4:
        raise Refused(f"refused 1 {role}")
    nodes, links = struct.unpack_from("<HH", data)
    least, most, most_links = LIMITS[role]
    if not least <= nodes <= most or links > most_links:
        raise Refused(f"refused 2 {role}")
    if len(data) != 4 + 2 * nodes + 4 * links:
        raise Refused(f"refused 3 {role}")
    fields = struct.unpack(f"<{nodes + 2 * links}H", data[4:])
    pairs = list(zip(fields[nodes:nodes + links], fields[nodes + links:]))
    if any(start >= nodes or end >= nodes for start, end in pairs):
        raise Refused(f"refused 4 {role}")
    if any(one >= two for one, two in zip(pairs, pairs[1:])):
        raise Refused(f"refused 5 {role}")
    graph = nx.DiGraph()
    for node in range(nodes):
        graph.add_node(node, kind=fields[node])
    graph.add_edges_from(pairs)
    if role == "pattern" and not nx.is_weakly_connected(graph):
        raise Refused(f"refused 6 {role}")
    if role == "pattern" and nx.diameter(graph.to_undirected()) > 12:
        raise Refused(f"refused 11 {role}")
    return graph


def has_partners(pattern, graph, matches, part, node):
    """Whether each link of the part has a partner at the node."""
    for other in pattern.successors(part):
        if not any(end in matches[other] for end in graph.successors(node)):
            return False
    for other in pattern.predecessors(part):
        if not any(start in matches[other] for start in graph.predecessors(node)):
            return False
    return True


def dual_simulation(pattern, graph):
    """The nodes of each part in the largest dual simulation."""
    matches = {}
    for part, kind in pattern.nodes(data="kind"):
        matches[part] = {node for node, other in graph.nodes(data="kind") if other == kind}
    changed = True
    while changed:
        changed = False
        for part in pattern:
            for node in list(matches[part]):
                if not has_partners(pattern, graph, matches, part, node):
                    matches[part].remove(node)
                    changed = True
    return matches


def match_graph(pattern, graph, matches):
    """The nodes that occur in the matches, and the links that pattern links mean."""
    result = nx.DiGraph()
    for nodes in matches.values():
        result.add_nodes_from(nodes)
    for part, other in pattern.edges:
        for node in matches[part]:
            for end in graph.successors(node):
                if end in matches[other]:
                    result.add_edge(node, end)
    return result


def find_place(pattern, board, centre, radius):
    """The nodes and links of the place around a centre, or None."""
    ball = nx.ego_graph(board, centre, radius=radius, undirected=True)
    matches = dual_simulation(pattern, ball)
    matched = match_graph(pattern, ball, matches)
    if centre not in matched:
        return None
    nodes = nx.node_connected_component(matched.to_undirected(), centre)
    place = matched.subgraph(nodes)
    return sorted(place.nodes), sorted(place.edges)


def report_lines(folder, first=0, last=None):
    """The lines of the report."""
    try:
        pattern = read_circuit(folder / "pattern.cir", "pattern")
        board = read_circuit(folder / "board.cir", "board")
    except Refused as refused:
        yield str(refused)
        return
    radius = nx.diameter(pattern.to_undirected())
    centres = [c for c in board if first <= c and (last is None or c <= last)]
    found = 0
    for centre in centres:
        place = find_place(pattern, board, centre, radius)
        if place is None:
            continue
        found += 1
        nodes, links = place
        items = [f"place {centre}:", *map(str, nodes), "/", *(f"{v}-{w}" for v, w in links)]
        yield " ".join(items)
    yield f"end {found} of {len(centres)}"


def main():
    """Prints the report."""
    parser = argparse.ArgumentParser(description="The finder over networkx.")
    parser.add_argument("--centres", metavar="A-B", help="try these centres only")
    parser.add_argument("folder", metavar="FOLDER", nargs="?", default=".", type=pathlib.Path)
    arguments = parser.parse_args()
    first, last = map(int, arguments.centres.split("-")) if arguments.centres else (0, None)
    for line in report_lines(arguments.folder, first, last):
        print(line)


if __name__ == "__main__":
    main()
