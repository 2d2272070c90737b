"""Finds known circuits on circuit boards, by the proved library heronditch.

>>> from heronditch import Circuit, from_text, places
>>> pattern = from_text("node a 10\\nnode b 20\\na -> b")
>>> board = from_text("node p 10\\nnode q 20\\nnode r 30\\np -> q -> r")
>>> [place.parts for place in places(pattern, board)]
[{'a': ['p'], 'b': ['q']}]
"""

from .circuits import FIRST, SECOND, THIRD, Circuit, Kinds
from .errors import Bug, Faults, Refused
from .finding import (
    Match,
    Merged,
    Place,
    Session,
    ball,
    check,
    compare,
    convert,
    match,
    merge,
    neighbours,
    order,
    place,
    places,
    radius,
    report,
    shelf,
    test_board,
    why,
)
from .text import from_text, load_kinds, load_text, to_text

__all__ = [
    "Bug",
    "Circuit",
    "FIRST",
    "Faults",
    "Kinds",
    "Match",
    "Merged",
    "Place",
    "Refused",
    "SECOND",
    "Session",
    "THIRD",
    "ball",
    "check",
    "compare",
    "convert",
    "from_text",
    "load_kinds",
    "load_text",
    "match",
    "merge",
    "neighbours",
    "order",
    "place",
    "places",
    "radius",
    "report",
    "shelf",
    "test_board",
    "to_text",
    "why",
]
