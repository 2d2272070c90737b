"""What the module finds, against the model and the finder over networkx."""

from __future__ import annotations

import hashlib
import itertools
import re

import model
import networkx
import networkx_finder
import oracle
import pytest
from hypothesis import assume, given, settings
from hypothesis import strategies as st

from conftest import ROOT
from drawing import boards, circuits, patterns
from heronditch import Circuit, Faults, Refused, Session, bindings, from_text, load_text
from heronditch import (
    ball,
    check,
    compare,
    convert,
    match,
    merge,
    neighbours,
    order,
    place,
    places,
    radius,
    report,
    shelf,
    test_board,
    why,
)
from heronditch.finding import report_of

T = from_text("node a 10\nnode b 20\nnode c 30\na -> b -> c", role="pattern")
B = from_text("node p 10\nnode q 20\nnode r 30\nnode s 20\nnode t 30\nnode u 10\np -> q -> r\ns -> t", role="board")


@settings(max_examples=200, deadline=None)
@given(patterns(), boards())
def test_places_are_the_models(pattern: Circuit, board: Circuit) -> None:
    """Each distinct place stands once, with all its centres, and has the nodes, links and parts that the definitions give."""
    found = places(pattern, board)
    expected = {centre: oracle.place(pattern, board, centre, oracle.radius(pattern)) for centre in range(len(board.names))}
    seen = {
        centre: (list(one.nodes), list(one.links), {u: set(nodes) for u, nodes in enumerate(one.roles)})
        for one in found
        for centre in one.centres
    }
    assert seen == {centre: one for centre, one in expected.items() if one}
    assert len({(one.nodes, one.links) for one in found}) == len(found)
    assert report_of(found, board) == report(pattern, board)


@settings(max_examples=100, deadline=None)
@given(patterns(), boards(), st.integers(0, 8), st.one_of(st.none(), st.integers(0, 3)))
def test_a_place_is_the_models(pattern: Circuit, board: Circuit, centre: int, within: int | None) -> None:
    """The place around one node, at the pattern's radius or at one told, and each node's distance."""
    assume(centre < len(board.names))
    found = place(pattern, board, centre, within)
    reach = oracle.radius(pattern) if within is None else within
    expected = oracle.place(pattern, board, centre, reach)
    assert (found is None) == (expected is None)
    far = {node: distance for node, distance in model.distances(oracle.plain(board), centre).items() if distance <= reach}
    assert ball(board, centre, reach) == far
    if found and expected:
        assert (list(found.nodes), list(found.links)) == expected[:2] and found.distances == far
        assert sorted(node for ring in found.rings.values() for node in ring) == list(found.nodes)
        assert check(pattern, board, centre, found.nodes, found.links) or within is not None


@settings(max_examples=150, deadline=None)
@given(circuits(1, 5, 2), boards(), st.booleans())
def test_tables_are_the_models(pattern: Circuit, board: Circuit, one_way: bool) -> None:
    """The match table and its counts, of patterns in several bits and with bounds, too."""
    table = [0] * len(board.names)
    files = pattern.to_bytes(), board.to_bytes()
    if pattern.bounds is not None:
        reply = model.match_bounded(*files, table, board.edition)
        one_way = False
    else:
        reply = model.match_table(*files, table, (pattern.edition, board.edition), one_way)
    found = match(pattern, board, one_way)
    assert ("matched", *(found.counts or ())) == reply and list(found.table) == table
    assert [[v for v, word in enumerate(table) if word >> u & 1] for u in range(len(pattern.names))] == list(
        map(list, found.roles)
    )
    assert all(part in found.parts(node) for part, nodes in enumerate(found.roles) for node in nodes)


@given(boards())
def test_neighbours(board: Circuit) -> None:
    """What each node drives, and what drives it."""
    for node in range(len(board.names)):
        assert neighbours(board, node) == tuple(end for start, end in board.links if start == node)
        assert neighbours(board, node, backward=True) == tuple(sorted(start for start, end in board.links if end == node))


def barred(pattern: Circuit, board: Circuit, centre: int, kept: set[tuple[int, int]]) -> bool:
    """Whether some links of a pattern leave a centre without a match in the ball."""
    nodes, inside = oracle.ball(board, centre, oracle.radius(pattern))
    part = Circuit.of(pattern.names, pattern.kinds, kept, pattern.packages)
    pairs, _ = model.largest(oracle.plain(part), oracle.plain(inside))
    return nodes.index(centre) not in {node for _, node in pairs}


@settings(max_examples=100, deadline=None)
@given(patterns(), boards(), st.integers(0, 8))
def test_why_is_least(pattern: Circuit, board: Circuit, centre: int) -> None:
    """The links that bar do, with any of them taken away the rest does not, and a node with a place has none."""
    assume(centre < len(board.names))
    links = why(pattern, board, centre)
    assert (links is None) == (place(pattern, board, centre) is not None)
    if links is None:
        return
    assert barred(pattern, board, centre, set(links))
    assert not any(barred(pattern, board, centre, set(links) - {link}) for link in links)


@settings(max_examples=100, deadline=None)
@given(patterns(), boards(), st.data())
def test_cutting(pattern: Circuit, board: Circuit, data: st.DataObject) -> None:
    """After each cut the table is that of the board without the links cut; a cut twice is refused by 14."""
    session, left = Session(pattern, board), list(board.links)
    for _ in range(data.draw(st.integers(0, 4))):
        if not left:
            break
        link = data.draw(st.sampled_from(left))
        left.remove(link)
        assert session.cut(link) == link
        with pytest.raises(Refused) as caught:
            session.cut(board.links.index(link))
        assert caught.value.number == 14
        rest = Circuit.of(board.names, board.kinds, left, board.packages)
        assert session.match().table == match(pattern, rest).table


@settings(max_examples=100, deadline=None)
@given(patterns())
def test_merging(pattern: Circuit) -> None:
    """Two parts share a class when each matches the other in the pattern's table on itself."""
    merged = merge(pattern)
    table = match(pattern, pattern).table
    for one, other in itertools.combinations(range(len(pattern.names)), 2):
        alike = table[one] >> other & 1 and table[other] >> one & 1
        assert bool(alike) == any({one, other} <= set(parts) for parts in merged.classes)
    assert merged.pattern.names == tuple(pattern.names[parts[0]] for parts in merged.classes)
    classes = {part: number for number, parts in enumerate(merged.classes) for part in parts}
    assert set(merged.pattern.links) == {(classes[v], classes[w]) for v, w in pattern.links}


@settings(max_examples=60, deadline=None)
@given(st.lists(patterns(), min_size=1, max_size=6))
def test_order(drawn: list[Circuit]) -> None:
    """The order is the model's, that of a shelf, and total."""
    files = [pattern.to_bytes(2) for pattern in drawn]
    assert order(drawn) == shelf(files) == model.shelf(files)
    for one, other in itertools.product(range(len(drawn)), repeat=2):
        assert compare(drawn[one], drawn[other]) == -compare(drawn[other], drawn[one])
        assert (compare(drawn[one], drawn[other]) == 0) == (files[one] == files[other])


@given(boards())
def test_convert(board: Circuit) -> None:
    """The library's conversion is the circuit's own."""
    assert convert(board, 2).to_bytes() == board.to_bytes(2)
    if any(board.packages or ()):
        with pytest.raises(Refused) as caught:
            convert(board, 1)
        assert caught.value.number == 12
    else:
        assert convert(board, 1).to_bytes() == board.to_bytes(1)


def test_convert_bounds() -> None:
    """A pattern of the third edition is converted where its bounds are all 1."""
    bounded = T.in_edition(3)
    assert convert(bounded, 1, "pattern") == T
    with pytest.raises(Faults, match="has bound 2"):
        convert(from_text("node a 1\na -> a within 2"), 2)


def test_loads() -> None:
    """Every test board of docs/LOADS.md."""
    rows = re.findall(r"^\| (\d+) \| (\d+) \| (\d+) \| (\d+) \| (\d+) \| `(\w+)` \|$", (ROOT / "docs/LOADS.md").read_text(), re.M)
    assert len(rows) > 5
    for seed, nodes, links, kinds, size, digest in rows:
        data = test_board(int(seed), int(nodes), int(links), int(kinds)).to_bytes()
        assert len(data) == int(size) and hashlib.sha256(data).hexdigest() == digest
    for numbers in (
        (1, 0, 0, 1),
        (1, 513, 0, 1),
        (1, 1, 4097, 1),
        (1, 1, 0, 0),
        (1, 1, 0, 65537),
        (2**32, 1, 0, 1),
        (-1, 1, 0, 1),
    ):
        with pytest.raises(Refused) as caught:
            test_board(*numbers)
        assert caught.value.number == 10


test_board.__test__ = False  # type: ignore[attr-defined]


def test_examples() -> None:
    """T and B of the papers."""
    (found,) = places(T, B)
    assert found.parts == {"a": ["p"], "b": ["q"], "c": ["r"]} and found.centres == (0, 1, 2)
    assert radius(T) == 2 and place(T, B, "s") is None and why(T, B, "s") == ((0, 1),) and why(T, B, "q") is None
    assert match(T, B).counts == (6, 3, 3, 2)
    assert report(T, B) == (ROOT / "samples/worked/report.txt").read_bytes()
    assert check(T, B, "p", ["p", "q", "r"], [("p", "q"), ("q", "r")]) and not check(T, B, "p", ["p", "q"], [("p", "q")])
    with pytest.raises(Faults, match="the board has no link 'p -> r'"):
        check(T, B, "p", ["p", "r"], [("p", "r")])


def test_refusals() -> None:
    """What the library refuses is told by names where they say more."""
    apart = from_text("node a 1\nnode b 1")
    long = from_text("".join(f"node n{n} 1\n" for n in range(14)) + " -> ".join(f"n{n}" for n in range(14)))
    bounded = from_text("node a 1\na -> a within 2")
    for pattern, number, words in (
        (apart, 6, "no path joins 'b' to 'a'"),
        (long, 11, "'n0' and 'n13' are 13"),
        (bounded, 3, "bounds"),
    ):
        for call in (
            lambda: places(pattern, B),
            lambda: place(pattern, B, 0),
            lambda: why(pattern, B, 0),
            lambda: merge(pattern),
        ):
            with pytest.raises(Refused, match=words) as caught:
                call()
            assert (caught.value.number, caught.value.file) == (number, "pattern")
    assert match(long, long) and match(apart, apart) and match(bounded, bounded.without_bounds())
    with pytest.raises(Refused, match="the pattern has bounds"):
        match(bounded, bounded.without_bounds(), one_way=True)
    with pytest.raises(Refused, match="refused 3 board: it has bounds, which are for patterns"):
        match(bounded, bounded)
    wide = Circuit.of(map(str, range(513)), [1] * 513, [])
    with pytest.raises(Refused, match="513 nodes, and a board has 0 to 512") as caught:
        places(T, wide)
    assert (caught.value.number, caught.value.file) == (2, "board")


def test_every_number_has_its_words() -> None:
    """Every refusal has a sentence and a way to mend it."""
    for number in range(1, 16):
        assert str(Refused(number, "", bindings.message(number))).startswith(f"refused {number}: ")
        assert Refused(number, "", "x").mend.endswith(".")


@settings(max_examples=30, deadline=None)
@given(circuits(1, 4, 2, True, False), boards())
def test_against_networkx(pattern: Circuit, board: Circuit) -> None:
    """The finder over networkx finds the same, where kinds alone count and none is 0."""
    pattern, board = (Circuit.of(one.names, [kind + 1 for kind in one.kinds], one.links) for one in (pattern, board))
    graphs = [networkx.convert_node_labels_to_integers(one.to_graph()) for one in (pattern, board)]
    reach = networkx.diameter(graphs[0].to_undirected())
    for centre in range(len(board.names)):
        expected = networkx_finder.find_place(*graphs, centre, reach)
        found = place(pattern, board, centre)
        assert (found and ([*found.nodes], [*found.links])) == expected


@pytest.mark.parametrize("name", ["mute", "any", "packages", "rail", "coupling"])
def test_reports_of_the_samples(name: str) -> None:
    """The report of each sample's texts, without packages and bounds, is the stored one."""
    pattern, board = (load_text(f"samples/{name}/{role}.txt", role) for role in ("pattern", "board"))
    pattern = pattern.without_packages().without_bounds()
    assert report(pattern, board.without_packages()) == (ROOT / f"samples/{name}/report.txt").read_bytes()


def test_registers_that_differ() -> None:
    """A name that has two numbers in a pattern and on a board is an error in the module, too."""
    pattern, board = from_text("kind npn 12\nnode Q npn"), from_text("kind npn 13\nnode Q1 npn")
    for call in (lambda: match(pattern, board), lambda: places(pattern, board), lambda: Session(pattern, board)):
        with pytest.raises(Faults, match="kind 'npn' is 12 in the pattern and 13 on the board"):
            call()


def test_places_in_places() -> None:
    """Of samples/mute the place of left and right has each of them in it, and nothing else has another in it."""
    found = places(*(load_text(f"samples/mute/{role}.txt", role) for role in ("pattern", "board")))
    within = {(a, b) for a, one in enumerate(found) for b, other in enumerate(found) if a != b and one.contains(other)}
    assert within == {(1, 0), (1, 2)}
