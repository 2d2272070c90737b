"""A netlist: parts, and the nets that their pins are on, each with the way that its signal goes."""

from __future__ import annotations

from typing import NamedTuple

from ..text import decoded

IN, OUT, BOTH = "in", "out", "both"  # the net drives the part, the part drives the net, and both


class Part(NamedTuple):
    """A part: its reference, the words that tell its kind (value, model, library part), and its footprint."""

    reference: str
    values: tuple[str, ...]
    footprint: str = ""


class Pin(NamedTuple):
    """A pin of a part on a net."""

    part: str
    net: str
    way: str


class Netlist(NamedTuple):
    """What was read: parts, pins, and sentences on what was passed over."""

    parts: tuple[Part, ...]
    pins: tuple[Pin, ...]
    told: tuple[str, ...] = ()


def text_of(path: str) -> str:
    """The text of a file."""
    with open(path, "rb") as file:
        return decoded(file.read(), path)
