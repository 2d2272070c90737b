"""page: a search as one HTML page."""

from __future__ import annotations

import argparse
import hashlib

from ..batch.library import identity
from ..errors import Faults
from ..finding import places
from ..pages import Asked, page
from .find import found_data
from .inputs import add_both, both_of
from .notes import on_none
from .subcommands import Out, Subcommand
from .telling import count
from .writing import written


def page_arguments(form: argparse.ArgumentParser) -> None:
    """The arguments of page."""
    add_both(form)
    form.add_argument("-o", dest="out", metavar="FILE.html", required=True, help="the page to write")


def digests(arguments: argparse.Namespace) -> dict[str, tuple[str, str]]:
    """The name and the SHA-256 of each file that was asked about."""
    found = {}
    for role in ("pattern", "board"):
        path = getattr(arguments, role)
        with open(path, "rb") as file:
            found[role] = (path, hashlib.sha256(file.read()).hexdigest())
    return found


def left_out(arguments: argparse.Namespace) -> list[str]:
    """Sentences on what the command line leaves out."""
    told = {"packages": arguments.without_packages, "bounds": arguments.without_bounds}
    return [f"all {what} were left out, as asked (--without-{what})" for what, asked in told.items() if asked]


def run_page(arguments: argparse.Namespace, out: Out) -> bool:
    """Searches, and writes the page."""
    files = digests(arguments)
    pattern, board = both_of(arguments, out)
    if digests(arguments) != files:
        raise Faults(["a file was changed while it was read: ask again"])
    found = places(pattern, board)
    if not found:
        on_none(pattern, board, out, lambda *plain: bool(places(*plain)))
    text = page(found, pattern, board, Asked(files, identity(), [*left_out(arguments), *out.notes]))
    read = [arguments.pattern, arguments.pattern_names, arguments.board, arguments.board_names]
    written(arguments.out, text, read)
    out.answer(f"{arguments.out}: {count(len(found), 'place')}\n", {"file": arguments.out, **found_data(found, pattern, board)})
    return bool(found)


SUBCOMMANDS = (
    Subcommand(
        "page",
        "a search as one HTML page, to read, print and keep",
        "Writes a page with what was asked (names, SHA-256, version, what was proved), each distinct place with its picture and its parts, or,"
        "\nwhere there is none, the counts, what comes nearest and what bars. It needs no network and no scripts, and prints on A4. The pictures"
        "\nare laid out by graphviz (Debian's package of that name). Status 1 where there is no place; the page is written then, too.",
        "  heronditch page samples/mute/pattern.txt samples/mute/board.txt -o report.html",
        page_arguments,
        run_page,
    ),
)
