"""Pictures of patterns and of places, as SVG: what to draw (circuits), where it goes (layout, by graphviz), and the drawing itself (svg)."""

from .circuits import MOST_NODES, kind_told, pattern_picture, place_picture
from .layout import Picture, Spot, Tie
from .svg import draw

__all__ = ["MOST_NODES", "Picture", "Spot", "Tie", "draw", "kind_told", "pattern_picture", "place_picture"]
