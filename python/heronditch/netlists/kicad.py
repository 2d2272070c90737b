"""KiCad's netlists (.net) and boards (.kicad_pcb), which are S-expressions."""

from __future__ import annotations

import re
from collections import Counter
from importlib import import_module
from typing import Any, Iterator

from ..errors import Faults
from .netlist import BOTH, IN, OUT, Netlist, Part, Pin

# the way of a signal by KiCad's pin type; every other type goes both ways
WAYS = {"input": IN, "power_in": IN, "output": OUT, "power_out": OUT, "open_collector": OUT, "open_emitter": OUT}


# a string, or what stands alone between blanks and brackets
ATOM = re.compile(r'"(?:[^"\\]|\\.)*"|[^\s()"]+', re.DOTALL)


def quoted(text: str) -> str:
    """A text all of whose atoms are strings: so that a name such as 007, 1e3 or CS' is not taken for a number or for Lisp."""

    def string(found: re.Match[str]) -> str:
        atom = found[0]
        return atom if atom[0] == '"' else '"' + atom.replace("\\", "\\\\") + '"'

    return ATOM.sub(string, text)


def expression(text: str, path: str) -> Any:
    """The S-expression of a text: lists of strings and of lists."""
    try:
        sexpdata = import_module("sexpdata")
    except ModuleNotFoundError:
        told = "KiCad's files are read by the Python module sexpdata, which is not there: apt-get install python3-sexpdata"
        raise Faults([told]) from None
    try:
        return sexpdata.loads(quoted(text))
    except Exception as error:  # the module has exceptions of several bases for a text that is none
        raise Faults([f"{path}: not a whole KiCad file: {type(error).__name__}"]) from None


def called(node: Any, *names: str) -> Iterator[Any]:
    """The lists inside a node that begin with one of some names."""
    for item in node if isinstance(node, list) else ():
        if isinstance(item, list) and item and item[0] in names:
            yield item


def field(node: Any, name: str) -> str:
    """The last atom of the first list inside a node that begins with a name, or nothing."""
    for item in called(node, name):
        if len(item) > 1 and isinstance(item[-1], str):
            return item[-1]
    return ""


def way_of(pin_type: str) -> str:
    """The way of a pin's signal, by its type."""
    return WAYS.get(pin_type.removesuffix("+no_connect"), BOTH)


def pin_types(tree: Any) -> dict[tuple[str, str, str], str]:
    """The types of pins by library, library part and pin number, which older netlists have there alone."""
    found = {}
    for part in (part for parts in called(tree, "libparts") for part in called(parts, "libpart")):
        for pin in (pin for pins in called(part, "pins") for pin in called(pins, "pin")):
            found[field(part, "lib"), field(part, "part"), field(pin, "num")] = field(pin, "type")
    return found


def read_net(text: str, path: str) -> Netlist:
    """The netlist of a .net file."""
    tree = expression(text, path)
    if not isinstance(tree, list) or not tree or tree[0] != "export":
        raise Faults(
            [
                f"{path}: not a KiCad netlist, which begins with '(export': export one from the schematic editor, in KiCad's own form"
            ]
        )
    types = pin_types(tree)
    parts, sources = [], {}
    for component in (one for components in called(tree, "components") for one in called(components, "comp")):
        source: Any = next(called(component, "libsource"), [])
        reference = field(component, "ref")
        sources[reference] = (field(source, "lib"), field(source, "part"))
        values = tuple(value for value in (field(component, "value"), field(source, "part")) if value)
        parts.append(Part(reference, values, field(component, "footprint")))
    pins = []
    for net in (one for nets in called(tree, "nets") for one in called(nets, "net")):
        for node in called(net, "node"):
            reference, number = field(node, "ref"), field(node, "pin")
            told = field(node, "pintype") or types.get((*sources.get(reference, ("", "")), number), "")
            pins.append(Pin(reference, field(net, "name"), way_of(told)))
    return Netlist(tuple(parts), tuple(pins))


def property_of(footprint: Any, name: str) -> str:
    """A property of a footprint, as this and older versions of KiCad have it."""
    for item in called(footprint, "fp_text", "property"):
        if len(item) > 2 and str(item[1]).lower() == name and isinstance(item[2], str):
            return item[2]
    return ""


def read_pcb(text: str, path: str) -> Netlist:
    """The netlist of a board, by its pads."""
    tree = expression(text, path)
    if not isinstance(tree, list) or not tree or tree[0] != "kicad_pcb":
        raise Faults([f"{path}: not a KiCad board, which begins with '(kicad_pcb'"])
    parts, pins, nameless = [], [], 0
    seen: Counter[str] = Counter()
    for footprint in called(tree, "footprint", "module"):
        reference = property_of(footprint, "reference")
        if not reference.strip("*?") or len(footprint) < 2:
            nameless += 1
            continue
        seen[reference] += 1
        own = reference if seen[reference] == 1 else f"{reference}.{seen[reference]}"
        parts.append(Part(own, (property_of(footprint, "value"),), str(footprint[1])))
        for pad in called(footprint, "pad"):
            net = field(pad, "net")
            if net:
                pins.append(Pin(own, net, way_of(field(pad, "pintype"))))
    told = [f"footprints without a reference: {nameless}"] if nameless else []
    twice = [reference for reference, count in seen.items() if count > 1]
    if twice:
        told.append(f"references of several footprints, which are numbered: {', '.join(twice)}")
    return Netlist(tuple(parts), tuple(pins), tuple(told))
