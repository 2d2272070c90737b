"""Netlists read into circuits, for a person to look over: KiCad's netlists and boards, and SPICE netlists. This stands beside what is proved."""

from .boards import Imported, board_of
from .netlist import Netlist, Part, Pin
from .reading import read_netlist
from .rules import Rules, default_rules, load_rules

__all__ = ["Imported", "Netlist", "Part", "Pin", "Rules", "board_of", "default_rules", "load_rules", "read_netlist"]
