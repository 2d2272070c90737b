"""What a picture of a pattern has, and one of places on a board: the nodes of the places with the parts that they play, and one ring of nodes
around them."""

from __future__ import annotations

from typing import Iterable, NamedTuple, Sequence

from ..circuits import Circuit, Link
from ..errors import Faults
from ..finding import Place
from .layout import Picture, Spot, Tie
from .styles import PLAIN, Style, styles

MOST_NODES = 90  # the most nodes of places in a picture: more are a hairball
MOST_AROUND = 60  # the most nodes around them
CROWD = 4  # the most nodes that are drawn around a single one; of more, all but the first are told by their number
LONGEST = 22  # the longest name that is drawn whole


def short(name: str) -> str:
    """A name with its middle left out where it is long."""
    return name if len(name) <= LONGEST else f"{name[: LONGEST - 9]}…{name[-8:]}"


def parts_label(parts: Sequence[str]) -> str:
    """The parts that a node plays: all where there is room, else the first and how many more."""
    whole = ", ".join(parts)
    return whole if len(whole) <= LONGEST or len(parts) == 1 else f"{short(parts[0])} +{len(parts) - 1}"


def ways(links: Iterable[Link]) -> list[tuple[Link, bool]]:
    """Links, those that go both ways in one, each with whether it does."""
    have = set(links)
    return [((a, b), a != b and (b, a) in have) for a, b in sorted(have) if a <= b or (b, a) not in have]


def kind_told(kind: int, *circuits: Circuit) -> str:
    """A kind by its name, in whichever circuit it has one."""
    names = [circuit.register.kind_name(kind) for circuit in circuits]
    named = [name for name in names if name != str(kind)]
    return named[0] if named else f"kind {kind}"


def looks(pattern: Circuit, board: Circuit | None = None) -> dict[int, Style]:
    """A style for each kind: the pattern's first, so that they look the same on every board."""
    return styles([*sorted(set(pattern.kinds)), *sorted(set(board.kinds if board else ()))])


def pattern_picture(pattern: Circuit, title: str) -> Picture:
    """The picture of a pattern."""
    style = looks(pattern)
    names = {0: "any kind"}
    kinds = sorted(set(pattern.kinds))
    spots = []
    for number, name in enumerate(pattern.names):
        package = pattern.packages[number] if pattern.packages else 0
        lines = [short(name)] + ([pattern.register.package_name(package)] if package else [])
        kind = names.get(pattern.kinds[number]) or kind_told(pattern.kinds[number], pattern)
        spots.append(Spot(tuple(lines), style[pattern.kinds[number]], told=f"{name}, {kind}"))
    bounds = dict(zip(pattern.links, pattern.bounds or ()))
    ties = []
    for (start, end), both in ways(pattern.links):
        bound = max(bounds.get((start, end), 1), bounds.get((end, start), 1) if both else 1)
        ties.append(Tie(start, end, both, word=f"≤ {bound}" if bound > 1 else ""))
    told = tuple((style[kind], names.get(kind) or kind_told(kind, pattern)) for kind in kinds)
    remarks = []
    if any(pattern.packages or ()):
        remarks.append("Below a name: its package.")
    if any(tie.word for tie in ties):
        remarks.append("≤ 3: a path of up to so many links of the board meets the link.")
    below = (f"{len(pattern.names)} parts, {len(pattern.links)} links.",)
    return Picture(title, below, tuple(spots), tuple(ties), told, tuple(remarks))


class Around(NamedTuple):
    """The ring around places: the nodes that are drawn, and beside a node of the places the number of those that are not."""

    drawn: tuple[int, ...]
    crowds: tuple[tuple[int, int], ...]
    left_out: int


def ring(board: Circuit, nodes: set[int]) -> Around:
    """The nodes a link away from places. Where many hang on a single node of them, the first are drawn and the rest counted."""
    beside: dict[int, set[int]] = {}
    for start, end in board.links:
        for inner, outer in ((start, end), (end, start)):
            if inner in nodes and outer not in nodes:
                beside.setdefault(outer, set()).add(inner)
    hanging: dict[int, list[int]] = {}
    for outer in sorted(beside):
        if len(beside[outer]) == 1:
            hanging.setdefault(min(beside[outer]), []).append(outer)
    hidden = {outer for group in hanging.values() if len(group) > CROWD for outer in group[CROWD - 1 :]}
    drawn = tuple(outer for outer in sorted(beside) if outer not in hidden)
    crowds = tuple((inner, len(group) - CROWD + 1) for inner, group in sorted(hanging.items()) if len(group) > CROWD)
    if len(drawn) + len(crowds) > MOST_AROUND:
        return Around((), (), len(beside))
    return Around(drawn, crowds, 0)


def parts_of(found: Sequence[Place]) -> dict[int, list[str]]:
    """The parts that each node plays in any of the places."""
    parts: dict[int, list[str]] = {}
    for place in found:
        for name, nodes in zip(place.pattern.names, place.roles):
            for node in nodes:
                if name not in parts.setdefault(node, []):
                    parts[node].append(name)
    return parts


def place_spots(found: Sequence[Place], style: dict[int, Style], centre: int | None) -> dict[int, Spot]:
    """The spots of the nodes of places, each with the parts that it plays, and with its distance from a centre where one is told."""
    pattern, board, parts = found[0].pattern, found[0].board, parts_of(found)
    spots = {}
    for node in sorted({node for place in found for node in place.nodes}):
        plays = ", ".join(parts.get(node, []))
        away = "" if centre is None else str(found[0].distances[node])
        told = f"{board.names[node]}, {kind_told(board.kinds[node], board, pattern)}, plays {plays}"
        told += f", {away} from {board.names[centre]}" if centre is not None else ""
        lines = (short(board.names[node]), short(parts_label(parts.get(node, []))))
        spots[node] = Spot(lines, style[board.kinds[node]], thick=node == centre, badge=away, told=told)
    return spots


def place_ties(board: Circuit, links: set[Link], nodes: set[int], drawn: set[int]) -> list[tuple[Link, bool, bool]]:
    """The links to draw: those of places, strong, and the others that have an end in them; a link both ways that is in places one way is
    drawn as two."""
    strong = [(link, both, True) for link, both in ways(links)]
    faint = {(a, b) for a, b in board.links if (a in nodes or b in nodes) and {a, b} <= nodes | drawn} - links
    return strong + [(link, both, False) for link, both in ways(faint)]


def place_picture(found: Sequence[Place], title: str, centre: int | None = None) -> Picture:
    """The picture of one place, or of several together, and of what is around."""
    pattern, board = found[0].pattern, found[0].board
    style = looks(pattern, board)
    spots = place_spots(found, style, centre)
    if len(spots) > MOST_NODES:
        mend = "draw the place around one node, or look at its table (heronditch find)"
        raise Faults([f"{len(spots)} nodes, and a picture of more than {MOST_NODES} can't be read: {mend}"])
    nodes = set(spots)
    links = {link for place in found for link in place.links}
    around = ring(board, nodes)
    for node in around.drawn:
        told = f"{board.names[node]}, {kind_told(board.kinds[node], board, pattern)}, not in the place"
        spots[node] = Spot((short(board.names[node]),), style[board.kinds[node]], strong=False, told=told)
    numbers = {node: number for number, node in enumerate(spots)}
    ties = [
        Tie(numbers[start], numbers[end], both, strong)
        for (start, end), both, strong in place_ties(board, links, nodes, set(around.drawn))
    ]
    more = [Spot((f"{count} more",), PLAIN, strong=False, told=f"{count} more nodes") for _, count in around.crowds]
    ties += [Tie(numbers[inner], len(spots) + at, True, False) for at, (inner, _) in enumerate(around.crowds)]
    kinds = dict.fromkeys(board.kinds[node] for node in sorted(spots, key=lambda node: (node not in nodes, board.kinds[node])))
    filled = {board.kinds[node] for node in nodes}
    told_kinds = tuple(
        (style[kind] if kind in filled else style[kind].unfilled(), kind_told(kind, board, pattern) if kind else "unidentified")
        for kind in kinds
    )
    below = (f"{len(nodes)} nodes, {len(links)} links.",)
    return Picture(title, below, (*spots.values(), *more), tuple(ties), told_kinds, remarks(board, around, centre))


def remarks(board: Circuit, around: Around, centre: int | None) -> tuple[str, ...]:
    """What the legend of places says beside the kinds."""
    told = ["Below a name: the part that the node plays. Strong arrows: the links of the place."]
    if around.drawn:
        told.append("White nodes and grey arrows: what else the board has one link away.")
    if around.left_out:
        told.append(f"The {around.left_out} nodes that the board has one link away are left out.")
    if centre is not None:
        told.append(f"In a circle: the distance from {board.names[centre]}.")
    return tuple(told)
