#!/usr/bin/env python3
"""The places of one networkx DiGraph on another, each distinct place once, by the proved library.

  networkx_places.py [--compare] PATTERN BOARD

What a script over networkx has is two DiGraphs whose nodes have a kind; here they are made from two circuits, texts or files. Then it is
two calls: Circuit.from_graph and places. With --compare the finder over networkx (bench/networkx_finder.py) looks for the same around
every node; both must agree, and both times are told. Run it with the Python that python/interpreter names, and with python/ and
target/python on PYTHONPATH, or with the wheel installed.
"""

import argparse
import pathlib
import sys
import time

import networkx

from heronditch import Circuit, Kinds, places
from heronditch.command.inputs import load


def find(pattern: networkx.DiGraph, board: networkx.DiGraph) -> list[tuple[list[str], list[str], dict[str, list[str]]]]:
    """The centres, the nodes and the nodes of each part of every distinct place, by the names of the board's nodes."""
    kinds = Kinds.of_graphs(pattern, board)  # one register for both, so that a kind has one number
    one, other = Circuit.from_graph(pattern, kinds), Circuit.from_graph(board, kinds)
    return [(other.named(place.centres), other.named(place.nodes), place.parts) for place in places(one, other)]


def find_by_networkx(pattern: networkx.DiGraph, board: networkx.DiGraph) -> dict[str, list[str]]:
    """The nodes of the place around each node that has one, by the script over networkx."""
    sys.path.insert(0, str(pathlib.Path(__file__).resolve().parents[1] / "bench"))
    import networkx_finder

    radius = networkx.diameter(pattern.to_undirected())
    found = {centre: networkx_finder.find_place(pattern, board, centre, radius) for centre in board}
    return {centre: place[0] for centre, place in found.items() if place}


def main() -> None:
    """Prints the places, and where asked the times of both."""
    parser = argparse.ArgumentParser(description=__doc__, formatter_class=argparse.RawDescriptionHelpFormatter)
    parser.add_argument("--compare", action="store_true", help="look by networkx, too, and tell both times")
    parser.add_argument("pattern", metavar="PATTERN")
    parser.add_argument("board", metavar="BOARD")
    arguments = parser.parse_args()
    pattern, board = load(arguments.pattern, "pattern").to_graph(), load(arguments.board, "board").to_graph()
    begun = time.perf_counter()
    found = find(pattern, board)
    spent = time.perf_counter() - begun
    for centres, nodes, parts in found:
        print(f"around {' '.join(centres)}: {len(nodes)} nodes")
        for part, played in parts.items():
            print(f"  {part}: {' '.join(played)}")
    if arguments.compare:
        begun = time.perf_counter()
        expected = find_by_networkx(pattern, board)
        theirs = time.perf_counter() - begun
        if {centre: sorted(nodes) for centres, nodes, _ in found for centre in centres} != expected:
            sys.exit("the two differ")
        print(f"heronditch {spent:.4f} s, networkx {theirs:.2f} s: {theirs / spent:.0f} times")


if __name__ == "__main__":
    main()
