"""What subcommands write that is no circuit file: pictures, pages, and texts with comments above them."""

from __future__ import annotations

from typing import Iterable

from ..errors import Faults
from .inputs import same_file


def written(path: str, text: str, read: list[str | None]) -> None:
    """Writes a text, never over what was read."""
    if any(other is not None and same_file(path, other) for other in read):
        raise Faults([f"{path}: this would be written over what is read; give another name"])
    with open(path, "w", encoding="utf-8", newline="\n") as file:
        file.write(text)


def comment(sentences: Iterable[str]) -> str:
    """Sentences as comments of a text, a line each, whatever they hold."""
    return "".join(f"# {' '.join(sentence.split())}\n" for sentence in sentences)
