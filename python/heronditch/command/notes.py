"""What made 'none' certain before anything was looked for."""

from __future__ import annotations

from typing import Callable

from ..circuits import Circuit
from .subcommands import Out
from .telling import listed


def missing_kinds(pattern: Circuit, board: Circuit) -> list[str]:
    """A sentence for each kind of the pattern that no node of the board has."""
    sentences = []
    for kind in sorted(set(pattern.kinds) - set(board.kinds) - {0}):
        parts = [f"'{name}'" for name, other in zip(pattern.names, pattern.kinds) if other == kind]
        word = "part" if len(parts) == 1 else "parts"
        told = f"no node of the board is of kind {kind_told(pattern, kind)}, which the pattern asks for ({word} {listed(parts)})"
        sentences.append(f"{told}: 'none' was certain before looking")
    return sentences


def kind_told(circuit: Circuit, kind: int) -> str:
    """A kind by its number, and by its name where it has one."""
    name = circuit.register.kind_name(kind)
    return name if name == str(kind) else f"{kind}, '{name}'"


def package_clashes(pattern: Circuit, board: Circuit) -> list[str]:
    """A phrase for each part whose kind is on the board, but in other packages alone."""
    phrases = []
    have = list(zip(board.kinds, board.packages or [0] * len(board.kinds)))
    for name, kind, package in zip(pattern.names, pattern.kinds, pattern.packages or [0] * len(pattern.kinds)):
        theirs = sorted({other for node, other in have if kind in (0, node)})
        if theirs and package not in theirs:
            packages = [board.register.package_name(other) for other in theirs]
            told = f"part '{name}' is in package {pattern.register.package_name(package)}"
            phrases.append(f"{told}, and such nodes of the board in {listed(packages)}")
    return phrases


def on_none(pattern: Circuit, board: Circuit, out: Out, matches: Callable[[Circuit, Circuit], bool]) -> None:
    """Tells, where nothing was found, what made that certain: a kind that is not there, or packages alone."""
    sentences = missing_kinds(pattern, board)
    for sentence in sentences:
        out.note(sentence)
    if sentences or (pattern.packages is None and board.packages is None):
        return
    if matches(pattern.without_packages(), board.without_packages()):
        clashes = package_clashes(pattern, board)
        told = f": {'; '.join(clashes)}" if clashes else ""
        out.note(f"only the packages stand in the way (--without-packages finds what there is without them){told}")
