"""match: what matches each part on the whole board."""

from __future__ import annotations

import argparse

from ..circuits import BITS
from ..finding import match
from .inputs import add_both, both_of
from .notes import on_none
from .subcommands import Out, Subcommand
from .telling import by_names, role_rows


def match_arguments(form: argparse.ArgumentParser) -> None:
    """The arguments of match."""
    add_both(form)
    form.add_argument("--one-way", action="store_true", help="only what a part drives counts, not what drives it")


def run_match(arguments: argparse.Namespace, out: Out) -> bool:
    """Matches the pattern on the whole board."""
    pattern, board = both_of(arguments, out, BITS)
    found = match(pattern, board, arguments.one_way)
    if not found:
        on_none(pattern, board, out, lambda part, whole: bool(match(part, whole, arguments.one_way)))
    lines = role_rows(pattern, board, found.roles) if found else ["no part matches, since some part is left without a node"]
    counts = found.counts._asdict() if found.counts else {}
    lines.append(" ".join(f"{name} {number}" for name, number in counts.items()))
    out.answer("\n".join(lines) + "\n", {"parts": by_names(pattern, board, found.roles), "counts": counts})
    return bool(found)


SUBCOMMANDS = (
    Subcommand(
        "match",
        "what matches each part on the whole board",
        "Matches the pattern on the whole board: part by part the nodes that match it; then the pairs of parts and nodes that agree in kind"
        "\nand package, those kept, those struck, and the rounds that struck some. The pattern may be in several bits, of any radius, and may"
        "\nhave bounds. Where some part is left without a node nothing matches, and the status is 1.",
        "  heronditch match samples/stereo/pattern.txt samples/stereo/board.txt"
        "\n  heronditch match --one-way samples/rail/pattern.txt samples/rail/board.txt",
        match_arguments,
        run_match,
    ),
)
