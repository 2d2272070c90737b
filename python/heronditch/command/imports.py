"""import: a netlist as a text, for a person to look over."""

from __future__ import annotations

import argparse

from ..errors import Faults
from ..netlists import board_of, default_rules, load_rules, read_netlist
from ..text import to_text
from .files import data_of
from .subcommands import Out, Subcommand
from .telling import count
from .writing import comment, written


def import_arguments(form: argparse.ArgumentParser) -> None:
    """The arguments of import."""
    form.add_argument("file", metavar="FILE", help="a KiCad netlist (.net) or board (.kicad_pcb), or a SPICE netlist")
    form.add_argument("--rules", metavar="RULES", help="the rules of kinds, packages and rails, in place of the module's own")
    form.add_argument(
        "--leave-out", metavar="GLOB", action="append", default=[], help="leave these parts or nets out; may be repeated"
    )
    form.add_argument("--without-packages", action="store_true", help="leave all packages out")
    form.add_argument("-o", dest="out", metavar="BOARD.txt", required=True, help="the text to write")


def run_import(arguments: argparse.Namespace, out: Out) -> bool:
    """Reads a netlist, and writes the text of its board."""
    if not arguments.out.endswith(".txt"):
        raise Faults([f"{arguments.out}: import writes a text, for a person to look over, whose name ends in .txt"])
    rules = load_rules(arguments.rules or default_rules())
    what, netlist = read_netlist(arguments.file)
    board, told = board_of(netlist, rules, arguments.leave_out, not arguments.without_packages)
    about = f"Read from the {what} {arguments.file} by 'heronditch import'."
    head = [
        f"{about} Nothing of this is proved: look it over and edit it before it is used.",
        *(f"- {sentence}" for sentence in told),
    ]
    written(arguments.out, comment(head) + to_text(board), [arguments.file, arguments.rules])
    sizes = f"{count(len(board.names), 'node')}, {count(len(board.links), 'link')}"
    lines = [f"{arguments.out}: {sizes}, from a {what}; look it over before it is used", *(f"  {sentence}" for sentence in told)]
    out.answer("\n".join(lines) + "\n", {**data_of(board, arguments.out), "told": list(told)})
    return True


SUBCOMMANDS = (
    Subcommand(
        "import",
        "a KiCad or SPICE netlist as a text, to look over and edit",
        "Reads a netlist into the text form: parts and nets are nodes, kinds and packages come from rules, directions from pin types. It stands"
        "\nbeside what is proved: a person looks the text over before it is used (docs/IMPORT.md). KiCad's files are read by Debian's package"
        "\npython3-sexpdata.",
        "  heronditch import samples/import/amplifier.net -o amplifier.txt",
        import_arguments,
        run_import,
    ),
)
