"""How kinds look: by shape and by colour, each of which tells them apart without the other. The colours are those of Okabe and Ito, which
colour-blind readers can tell apart."""

from __future__ import annotations

from typing import Iterable, Mapping, NamedTuple

Points = tuple[tuple[float, float], ...]

# the outline of each shape in the square from -1 to 1, y upwards, as graphviz has it; an ellipse has none
OUTLINES: Mapping[str, Points] = {
    "ellipse": (),
    "box": ((1, 1), (-1, 1), (-1, -1), (1, -1)),
    "hexagon": ((1, 0), (0.5, 1), (-0.5, 1), (-1, 0), (-0.5, -1), (0.5, -1)),
    "octagon": ((1, -0.414), (1, 0.414), (0.414, 1), (-0.414, 1), (-1, 0.414), (-1, -0.414), (-0.414, -1), (0.414, -1)),
    "parallelogram": ((1.039, 1), (-0.614, 1), (-1.039, -1), (0.614, -1)),
    "trapezium": ((0.584, 1), (-0.584, 1), (-1, -1), (1, -1)),
    "invtrapezium": ((-0.584, -1), (0.584, -1), (1, 1), (-1, 1)),
    "diamond": ((0, 1), (-1, 0), (0, -1), (1, 0)),
}
# how much wider a shape is than its text
ROOM = {
    "ellipse": 1.2,
    "hexagon": 1.3,
    "octagon": 1.15,
    "parallelogram": 1.4,
    "trapezium": 1.35,
    "invtrapezium": 1.35,
    "diamond": 1.8,
}
COLOURS = ("#56B4E9", "#E69F00", "#009E73", "#F0E442", "#D55E00", "#CC79A7", "#0072B2")
LIGHT_TEXT = {"#0072B2"}


class Style(NamedTuple):
    """How nodes of a kind look."""

    shape: str
    fill: str
    ink: str = "#000000"

    @property
    def room(self) -> float:
        """How much wider the shape is than its text."""
        return ROOM.get(self.shape, 1.0)

    def unfilled(self) -> Style:
        """The same shape in white."""
        return Style(self.shape, "#FFFFFF")


PLAIN = Style("box", "#FFFFFF")  # kind 0, and what stands for several nodes


def styles(kinds: Iterable[int]) -> dict[int, Style]:
    """A style for each kind, in the order told: shapes and colours are of coprime number, so that 56 kinds differ."""
    found = {0: PLAIN}
    shapes = list(OUTLINES)
    for number, kind in enumerate(kind for kind in dict.fromkeys(kinds) if kind):
        fill = COLOURS[number % len(COLOURS)]
        found[kind] = Style(shapes[number % len(shapes)], fill, "#FFFFFF" if fill in LIGHT_TEXT else "#000000")
    return found
