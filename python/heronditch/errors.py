"""What can go wrong, as exceptions that tell it in sentences and say how to mend it."""

from __future__ import annotations

from typing import Iterable

PATTERN = "pattern"
BOARD = "board"
NEITHER = ""

AGAIN = "make it again from its text (heronditch make)"

MEND = {
    1: f"The file is empty or was cut short: {AGAIN}.",
    2: "Leave out what is not needed, or look at a part of the board at a time.",
    3: f"The file was cut short or added to, or it is no circuit file: {AGAIN}.",
    4: f"The file is damaged: {AGAIN}.",
    5: f"The file is damaged, or another program wrote its links in another order: {AGAIN}.",
    6: "Join its bits by the links that were left out; of a pattern in several bits only the whole board can be"
    " asked (heronditch match, heronditch cut).",
    7: "Give one of them.",
    8: "This is a mistake in heronditch, and not yours: please report it.",
    9: "Ask for the links that stand in the way (heronditch why).",
    10: "Give four such numbers, each from 0 on and below 4294967296.",
    11: "Look between these two for a link that was left out, or for two circuits drawn as one; of a wider pattern"
    " only the whole board can be asked (heronditch match, heronditch cut).",
    12: "Keep the second edition, or make it without packages (heronditch make --without-packages).",
    13: "Give each link a bound from 1 to 4.",
    14: "Cut a link that the board's file has, and each one once.",
    15: "It has a place: ask for it (heronditch place).",
}


class Faults(ValueError):
    """What is wrong with an input, a sentence each."""

    def __init__(self, messages: Iterable[str]) -> None:
        self.messages = list(messages)
        super().__init__("\n".join(self.messages))


class Refused(Exception):
    """A refusal: its number, the file that it means ('pattern', 'board' or neither), a sentence, and the way to mend it."""

    def __init__(self, number: int, file: str, sentence: str, mend: str | None = None) -> None:
        self.number = number
        self.file = file
        self.sentence = sentence
        self.mend = MEND.get(number, "") if mend is None else mend
        super().__init__(number, file, sentence, self.mend)

    def __str__(self) -> str:
        words = f"refused {self.number} {self.file}".strip()
        return f"{words}: {self.sentence}. {self.mend}".strip()


class Bug(Exception):
    """Two answers that must agree differ: a mistake in heronditch itself."""

    def __str__(self) -> str:
        return f"{super().__str__()}. This is a bug in heronditch: do not trust the answer, and please report it."
