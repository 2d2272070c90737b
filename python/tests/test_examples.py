"""The module's own example, and the one over networkx. What the documents show is run by tools/documents."""

from __future__ import annotations

import doctest
import os
import re
import subprocess
import sys

import heronditch
from conftest import ROOT


def test_the_modules_own_example() -> None:
    """The example of the module's description."""
    assert doctest.testmod(heronditch) == (0, 4)


def test_networkx_example() -> None:
    """The example finds by the library what the finder over networkx finds, and tells both times."""
    words = [sys.executable, "examples/networkx_places.py", "--compare", "samples/mute/pattern.txt", "samples/mute/board.txt"]
    environment = {**os.environ, "PYTHONPATH": os.pathsep.join(path for path in sys.path if path)}
    done = subprocess.run(words, cwd=ROOT, env=environment, capture_output=True, text=True, check=True)
    assert done.stdout.count("around ") == 4 and re.search(
        r"^heronditch [\d.]+ s, networkx [\d.]+ s: \d+ times$", done.stdout, re.M
    )
