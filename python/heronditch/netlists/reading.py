"""Reads a netlist of any of the forms, which is known by its name and by how it begins."""

from __future__ import annotations

from ..errors import Faults
from .kicad import read_net, read_pcb
from .netlist import Netlist, text_of
from .spice import read_spice

SPICE = (".cir", ".sp", ".spi", ".spice", ".ckt")


def read_netlist(path: str) -> tuple[str, Netlist]:
    """What a file is, in words, and its netlist."""
    text = text_of(path)
    start = text.lstrip()[:40]
    if start.startswith("(kicad_pcb"):
        return "KiCad board", read_pcb(text, path)
    if start.startswith("(export"):
        return "KiCad netlist", read_net(text, path)
    if path.endswith(".kicad_pcb"):
        return "KiCad board", read_pcb(text, path)
    if start.startswith("("):
        return "KiCad netlist", read_net(text, path)
    if path.lower().endswith(SPICE + (".net",)):
        return "SPICE netlist", read_spice(text, path)
    told = f"'.net' and '.kicad_pcb' of KiCad, and SPICE netlists ({', '.join(SPICE)})"
    raise Faults([f"{path}: neither a KiCad file nor a SPICE netlist by its name: import reads {told}"])
