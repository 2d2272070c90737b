"""SPICE netlists: a line for each element, whose first letter tells what it is and how many nodes it has."""

from __future__ import annotations

import re
from typing import Iterable

from ..errors import Faults
from .netlist import BOTH, IN, OUT, Netlist, Part, Pin

# the way of each pin by the element's letter: collector, base, emitter; drain, gate, source, bulk; controlled sources drive their first two
PINS: dict[str, tuple[str, ...]] = {
    **dict.fromkeys("RCLDVIBFHW", (BOTH, BOTH)),
    **dict.fromkeys("QJZ", (OUT, IN, BOTH)),
    "M": (OUT, IN, BOTH, BOTH),
    **dict.fromkeys("EGS", (OUT, OUT, IN, IN)),
    "T": (BOTH, BOTH, BOTH, BOTH),
}
OVER = {".subckt": ".ends", ".control": ".endc"}  # what is passed over, from one line to the other


def whole_lines(text: str) -> list[str]:
    """The lines after the title, without comments, those that go on joined; up to .end."""
    held: list[str] = []
    for line in text.splitlines()[1:]:
        line = re.split(r";|\s\$\s|\s//", line, maxsplit=1)[0].strip()
        line = re.sub(r"\s*=\s*", "=", line)
        if line.lower() == ".end":
            break
        if line.startswith("+") and held:
            held[-1] += " " + line[1:]
        elif line and line[0] not in "*+":
            held.append(line)
    return held


def models(lines: Iterable[str]) -> dict[str, str]:
    """The type of each model: NPN, PMOS, D and so on."""
    found = {}
    for line in lines:
        words = line.replace("(", " ").split()
        if len(words) > 2 and words[0].lower() == ".model":
            found[words[1].lower()] = words[2].upper()
    return found


def kept_lines(lines: Iterable[str]) -> tuple[list[str], list[str]]:
    """The lines of elements at the top, and sentences on what is passed over."""
    elements, told, until = [], [], ""
    for line in lines:
        first = line.split()[0].lower()
        if until:
            until = "" if first == until else until
        elif first in OVER:
            until = OVER[first]
            if first == ".subckt":
                told.append(f"the inside of the subcircuit {' '.join(line.split()[1:2])}: each use of it is one part")
        elif first in (".include", ".inc", ".lib"):
            told.append(f"'{line}': what it includes")
        elif not first.startswith("."):
            elements.append(line)
    if until:
        told.append(f"everything after a line that no '{until}' ends")
    return elements, told


def nodes_of(words: list[str], path: str) -> tuple[list[tuple[str, str]], list[str]]:
    """The nodes of an element, each with its way, and the words after them."""
    letter = words[0][0].upper()
    if letter == "X":
        plain = [word for word in words[1:] if "=" not in word and word.lower() != "params:"]
        return [(node, BOTH) for node in plain[:-1]], plain[-1:]
    ways = PINS[letter]
    if len(words) <= len(ways):
        raise Faults(
            [f"{path}: '{' '.join(words)}' has {len(words) - 1} words, and an element {letter} at least {len(ways)} nodes"]
        )
    return list(zip(words[1 : len(ways) + 1], ways)), words[len(ways) + 1 :]


def read_spice(text: str, path: str) -> Netlist:
    """The netlist of a SPICE file; its names count without capitals, and are told as they stand first."""
    lines = whole_lines(text)
    types = models(lines)
    elements, told = kept_lines(lines)
    told.insert(0, f"the first line, the title: '{text.splitlines()[0] if text else ''}'")
    parts, pins = [], []
    spelt: dict[str, str] = {}
    for line in elements:
        words = line.split()
        letter = words[0][0].upper()
        if letter not in PINS and letter != "X":
            told.append(f"'{words[0]}', an element that has no nodes or is not known")
            continue
        nodes, rest = nodes_of(words, path)
        values = tuple(dict.fromkeys([*rest[:1], *(types[word.lower()] for word in rest[:2] if word.lower() in types)]))
        parts.append(Part(words[0], values))
        pins += [Pin(words[0], spelt.setdefault(node.lower(), node), way) for node, way in nodes]
    if not parts:
        raise Faults([f"{path}: no element of a SPICE netlist is in it; its first line is its title"])
    return Netlist(tuple(parts), tuple(pins), tuple(told))
