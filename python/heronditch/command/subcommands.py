"""What a subcommand is, and how it answers."""

from __future__ import annotations

import argparse
import json
import os
import sys
from typing import Any, Callable, Mapping, NamedTuple, Sequence

NONE = 1
TROUBLE = 2


class Out:
    """Where a subcommand answers: text or JSON on standard output, notes and trouble on standard error."""

    def __init__(self, as_json: bool) -> None:
        self.as_json = as_json
        self.notes: list[str] = []
        self.troubled = False

    def answer(self, text: str, data: Mapping[str, Any]) -> None:
        """Answers by a text, or by an object that has the notes told before, too."""
        if self.as_json:
            json.dump({**data, "notes": self.notes}, sys.stdout, ensure_ascii=False)
            text = "\n"
        sys.stdout.write(text)
        sys.stdout.flush()

    def note(self, sentence: str) -> None:
        """Tells something that the answer rests on."""
        self.notes.append(sentence)
        sys.stderr.write(f"heronditch: note: {sentence}\n")

    def trouble(self, sentences: Sequence[str], data: Mapping[str, Any]) -> None:
        """Tells what went wrong, a sentence each; the status will be 2."""
        self.troubled = True
        if self.as_json:
            self.answer("", {"trouble": {**data, "sentences": list(sentences)}})
        sys.stderr.write("".join(f"heronditch: {sentence}\n" for sentence in sentences))

    def lost(self, reason: str) -> None:
        """Tells that standard output takes no more; what is left of the answer goes nowhere, so that nothing fails once more."""
        self.troubled = True
        os.dup2(os.open(os.devnull, os.O_WRONLY), sys.stdout.fileno())
        sys.stderr.write(f"heronditch: standard output: {reason}; the answer is not whole\n")


class Subcommand(NamedTuple):
    """A subcommand: its name, a line on it for the list, more for its own help, an example, what adds its arguments, and what runs it and
    replies whether something was found, or yes."""

    name: str
    summary: str
    about: str
    example: str
    arguments: Callable[[argparse.ArgumentParser], None]
    run: Callable[[argparse.Namespace, Out], bool]
