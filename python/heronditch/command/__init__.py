"""The command `heronditch`: finds the subcommand, runs it, and tells what went wrong in sentences.

A subcommand is a module of this package with an entry in MODULES and a `SUBCOMMANDS` tuple that has it."""

from __future__ import annotations

import argparse
import signal
import sys
from importlib import import_module
from typing import Sequence

from ..bindings import version
from ..errors import Bug, Faults, Refused
from .subcommands import NONE, TROUBLE, Out, Subcommand

# the module of each subcommand, in the order of the help
MODULES = {
    "find": "find",
    "place": "find",
    "match": "match",
    "why": "why",
    "check": "why",
    "cut": "cut",
    "merge": "patterns",
    "order": "patterns",
    "shelf": "patterns",
    "batch": "batch",
    "verify": "verify",
    "make": "files",
    "show": "files",
    "convert": "files",
    "test-board": "files",
    "tell": "tell",
    "take": "take",
    "draw": "draw",
    "page": "page",
    "import": "imports",
}

ABOUT = """Finds a known circuit (the pattern) on a circuit board. A circuit is a text (.txt, docs/TEXT-FORM.md) or a circuit file (.cir)."""
STATUS = """Status: 0 found, or yes; 1 none, or no; 2 trouble, which a sentence on standard error tells with the way to mend it.
'heronditch SUBCOMMAND --help' has an example of each."""


def subcommands(words: Sequence[str]) -> list[Subcommand]:
    """The subcommand that a command line begins with, or all of them."""
    wanted = [MODULES[words[0]]] if words and words[0] in MODULES else dict.fromkeys(MODULES.values())
    found = [one for module in wanted for one in import_module(f"{__name__}.{module}").SUBCOMMANDS]
    return sorted(found, key=lambda one: list(MODULES).index(one.name))


def parser(words: Sequence[str]) -> argparse.ArgumentParser:
    """The parser of a command line."""
    plain = argparse.RawDescriptionHelpFormatter
    whole = argparse.ArgumentParser("heronditch", description=ABOUT, epilog=STATUS, formatter_class=plain)
    whole.add_argument("--version", action="version", version=f"heronditch {version()}", help="print the version of the library")
    choices = whole.add_subparsers(required=True, metavar="SUBCOMMAND")
    for one in subcommands(words):
        form = choices.add_parser(
            one.name,
            help=one.summary,
            description=one.about,
            epilog=f"example:\n{one.example}",
            formatter_class=plain,
            allow_abbrev=False,
        )
        one.arguments(form)
        form.add_argument("--json", action="store_true", help="answer by a JSON object")
        form.set_defaults(run=one.run)
    return whole


def hyphened(words: Sequence[str]) -> list[str]:
    """A command line in which the last argument, a NODE, may be a name that begins with a hyphen, as '-12V' does."""
    *front, last = words or [""]
    name = last[:1] == "-" and last[:2] not in ("-", "--", "-h")
    if name and front and front[0] in ("place", "why", "check") and "--" not in front and front[-1] != "--radius":
        return [*front, "--", last]
    return list(words)


def located(refused: Refused, arguments: argparse.Namespace) -> str:
    """A refusal, after the name of the file that it means."""
    path = getattr(arguments, refused.file, None) if refused.file else None
    return f"{path}: {refused}" if path else str(refused)


def complain(out: Out, error: Exception, arguments: argparse.Namespace) -> int:
    """Tells what went wrong; status 2."""
    if isinstance(error, Refused):
        out.trouble([located(error, arguments)], {"number": error.number, "file": error.file})
    elif isinstance(error, Faults):
        out.trouble(error.messages, {})
    elif isinstance(error, OSError) and error.filename is None:
        out.lost(str(error.strerror))
    elif isinstance(error, OSError):
        mend = "; give a circuit in it by its name" if isinstance(error, IsADirectoryError) else ""
        out.trouble([f"{error.filename}: {error.strerror}{mend}"], {})
    else:
        out.trouble([str(error)], {"bug": True})
    return TROUBLE


def main(words: Sequence[str] | None = None) -> int:
    """Runs the command; replies with its status."""
    if hasattr(signal, "SIGPIPE"):
        signal.signal(signal.SIGPIPE, signal.SIG_DFL)
    if sys.stdout is None or sys.stdin is None or sys.stderr is None:
        return TROUBLE  # a stream was closed before the start: there is nowhere to answer, or nothing to read
    for stream in (sys.stdin, sys.stdout, sys.stderr):
        getattr(stream, "reconfigure", lambda **_: None)(encoding="utf-8", errors="backslashreplace")
    words = hyphened(sys.argv[1:] if words is None else words)
    arguments = parser(words).parse_args(words)
    out = Out(arguments.json)
    try:
        found: bool = arguments.run(arguments, out)
    except (Refused, Faults, Bug, OSError) as error:
        return complain(out, error, arguments)
    except KeyboardInterrupt:
        return 130
    if out.troubled:
        return TROUBLE
    return 0 if found else NONE
