"""Signals that end a run: between lines, and at once where one comes a second time."""

from __future__ import annotations

import os
import signal
from contextlib import contextmanager
from types import FrameType
from typing import Any, Iterator

SIGNALS = (signal.SIGINT, signal.SIGTERM, signal.SIGHUP)


class Ended(BaseException):
    """A signal came that ends the run."""

    def __init__(self, number: int) -> None:
        self.number = number
        super().__init__(number)

    @property
    def name(self) -> str:
        """The signal's name."""
        return signal.Signals(self.number).name


class Ending:
    """Raises Ended when a signal comes; while it is held, the first one waits. A broken pipe is an error, and no signal."""

    def __init__(self) -> None:
        self._held = False
        self._waiting: int | None = None
        self._before: dict[int, Any] = {}

    def __enter__(self) -> Ending:
        for number in SIGNALS:
            self._before[number] = signal.signal(number, self._came)
        self._before[signal.SIGPIPE] = signal.signal(signal.SIGPIPE, signal.SIG_IGN)
        return self

    def __exit__(self, *_: object) -> None:
        for number, handler in self._before.items():
            signal.signal(number, handler)

    def _came(self, number: int, _: FrameType | None) -> None:
        if self._held and self._waiting is None:
            self._waiting = number
        else:
            raise Ended(number)

    @contextmanager
    def held(self) -> Iterator[None]:
        """What is done in here is done whole before a first signal ends the run."""
        self._held = True
        try:
            yield
        finally:
            self._held = False
        if self._waiting is not None:
            raise Ended(self._waiting)


def die(number: int) -> None:
    """Ends this process by a signal, so that whoever started it sees that."""
    signal.signal(number, signal.SIG_DFL)
    os.kill(os.getpid(), number)


def leave_to_parent() -> None:
    """In a process that works for another: takes no notice of the signals, which that one answers."""
    for number in SIGNALS:
        signal.signal(number, signal.SIG_IGN)
