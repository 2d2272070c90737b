"""Where the nodes and links of a picture go. Graphviz lays them out; it is told the size of every node, so that no font has a say in it."""

from __future__ import annotations

import json
import shutil
import subprocess
from dataclasses import dataclass
from typing import Any, NamedTuple, Sequence

from ..errors import Faults
from .styles import Style

Point = tuple[float, float]

PROGRAM = "dot"
SECONDS = 60  # how long graphviz may take
INCH = 72.0  # the points in one, which graphviz measures nodes by


class Spot(NamedTuple):
    """A node of a picture: its lines of text, how it looks, whether it is one that the picture is about, and the number beside it."""

    lines: tuple[str, ...]
    style: Style
    strong: bool = True
    thick: bool = False
    badge: str = ""
    told: str = ""  # what it is, for who cannot see it


class Tie(NamedTuple):
    """A link of a picture, or two that go opposite ways, between spots by their numbers; and a word on it."""

    start: int
    end: int
    both: bool
    strong: bool = True
    word: str = ""


@dataclass(frozen=True)
class Picture:
    """What is to be drawn: a title, a line or two below it, nodes and links, and what the legend says of kinds and of the rest."""

    title: str
    below: tuple[str, ...]
    spots: tuple[Spot, ...]
    ties: tuple[Tie, ...]
    kinds: tuple[tuple[Style, str], ...]
    remarks: tuple[str, ...] = ()


class Path(NamedTuple):
    """How a tie goes: the points of its curve, and those of each of its arrow heads."""

    curve: tuple[Point, ...]
    heads: tuple[tuple[Point, ...], ...]


class Layout(NamedTuple):
    """A picture laid out: its width and height, the middle of each spot, and the way of each tie; y grows downwards."""

    width: float
    height: float
    middles: tuple[Point, ...]
    paths: tuple[Path, ...]


def size(spot: Spot) -> Point:
    """The width and height of a spot, which has room for its lines."""
    longest = max(map(len, spot.lines), default=0)
    room = spot.style.room
    return max(46.0, (longest * 7.4 + 10) * room), 14.0 * len(spot.lines) + (14 if room < 1.3 else 16)


def spread(spots: Sequence[int], ties: Sequence[Tie]) -> dict[int, int]:
    """For each of some spots how far it is, along ties, from what nothing drives; or else from what is driven by two-way ties alone."""
    after: dict[int, list[int]] = {spot: [] for spot in spots}
    driven, held = set(), set()  # driven at all, and driven by a tie that goes one way
    for tie in ties:
        after[tie.start].append(tie.end)
        driven.add(tie.end)
        if tie.both:
            after[tie.end].append(tie.start)
            driven.add(tie.start)
        elif tie.start != tie.end:
            held.add(tie.end)
    far: dict[int, int] = {}
    rest = sorted(spots, key=lambda spot: ((spot in driven) + (spot in held), spot))
    for first in [[spot for spot in spots if spot not in driven], *([spot] for spot in rest)]:
        ring, step = [spot for spot in first if spot not in far], 0
        while ring:
            far.update(dict.fromkeys(ring, step))
            step += 1
            ring = list(dict.fromkeys(other for spot in ring for other in after[spot] if other not in far))
    return far


def flow(picture: Picture) -> list[int]:
    """For each spot how far it is from what nothing drives, by strong ties alone, and faint spots a step behind; two-way ties are laid
    out by it, so that signals run from left to right."""
    strong = [number for number, spot in enumerate(picture.spots) if spot.strong]
    far = spread(strong, [tie for tie in picture.ties if tie.strong])
    for tie in picture.ties:
        for inner, outer in ((tie.start, tie.end), (tie.end, tie.start)):
            if inner in far and not picture.spots[outer].strong:
                far.setdefault(outer, far[inner] + 1)
    return [far[spot] for spot in range(len(picture.spots))]


def source(picture: Picture) -> str:
    """The picture in graphviz's language."""
    lines = ["digraph g {", "graph [rankdir=LR nodesep=0.16 ranksep=0.42 splines=true outputorder=nodesfirst]"]
    lines += ['node [label="" fixedsize=true]', "edge [arrowsize=0.7]"]
    for number, spot in reversed(list(enumerate(picture.spots))):  # graphviz lays out the last one on top
        wide, high = size(spot)
        lines.append(f"{number} [shape={spot.style.shape} width={wide / INCH:.4f} height={high / INCH:.4f}]")
    depth = flow(picture)
    for number, tie in enumerate(picture.ties):
        start, end, way = tie.start, tie.end, "both" if tie.both else "forward"
        if tie.both and (depth[end], end) < (depth[start], start):
            start, end = end, start
        told = "weight=8" if tie.strong else "weight=1"
        if not tie.strong and picture.spots[start].strong and picture.spots[end].strong:
            told = "constraint=false"  # a link within the place that is not the place's has no say in the layout
        lines.append(f"{start} -> {end} [id={number} dir={way} {told}]")
    return "\n".join([*lines, "}"]) + "\n"


def run_graphviz(text: str) -> Any:
    """What graphviz makes of a text."""
    program = shutil.which(PROGRAM)
    if program is None:
        raise Faults(["pictures are laid out by graphviz, and there is no 'dot' on the path: apt-get install graphviz"])
    try:
        done = subprocess.run([program, "-Tjson"], input=text.encode(), capture_output=True, timeout=SECONDS, check=True)
    except subprocess.TimeoutExpired:
        raise Faults([f"graphviz took more than {SECONDS} s for the picture: draw a smaller one, around one node"]) from None
    except subprocess.CalledProcessError as error:
        raise Faults([f"graphviz failed: {error.stderr.decode(errors='replace').strip()}"]) from None
    return json.loads(done.stdout)


def lay_out(picture: Picture) -> Layout:
    """Lays a picture out."""
    drawn = run_graphviz(source(picture))
    _, _, width, height = map(float, drawn["bb"].split(","))

    def points(pairs: Sequence[Sequence[float]]) -> tuple[Point, ...]:
        return tuple((x, height - y) for x, y in pairs)

    def shapes(edge: Any, what: str, letter: str) -> list[tuple[Point, ...]]:
        return [points(op["points"]) for op in edge.get(what, []) if op["op"] == letter]

    middles = {int(one["name"]): points([tuple(map(float, one["pos"].split(",")))])[0] for one in drawn.get("objects", [])}
    paths = {}
    for edge in drawn.get("edges", []):
        curves = shapes(edge, "_draw_", "b")
        paths[int(edge["id"])] = Path(curves[0], tuple(shapes(edge, "_hdraw_", "P") + shapes(edge, "_tdraw_", "P")))
    return Layout(width, height, tuple(middles[key] for key in sorted(middles)), tuple(paths[key] for key in sorted(paths)))
