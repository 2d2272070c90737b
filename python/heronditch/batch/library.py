"""Which library answers, and what was proved of it: the line of PROVED.txt about its crate, where that file is about the archive that was linked
into the extension."""

from __future__ import annotations

import os
import re
import sys
from functools import lru_cache
from typing import Any, Iterable

from .. import bindings

PACKAGE = os.path.dirname(os.path.dirname(os.path.abspath(__file__)))
ROOT = os.path.dirname(os.path.dirname(PACKAGE))
PROVED = "PROVED.txt"
VERDICT = re.compile(r"^heronditch +(logic=proved .*)$", re.MULTILINE)
ARCHIVE = re.compile(r"^([0-9a-f]{64})  libheronditch\.a$", re.MULTILINE)


def folders() -> Iterable[str]:
    """Where PROVED.txt may lie: in the package, in a checkout or an archive, and where it is installed."""
    yield PACKAGE
    if os.path.exists(os.path.join(ROOT, "include", "heronditch.h")):
        yield from (os.path.join(ROOT, "target", "install"), os.path.join(ROOT, "docs"), ROOT)
    for prefix in dict.fromkeys((sys.prefix, "/usr/local", "/usr")):
        yield os.path.join(prefix, "share", "doc", "heronditch")


def verdict_in(text: str, sha256: str) -> str | None:
    """What a PROVED.txt says of the crate, or None where it is about another archive or says that nothing is known."""
    archive, verdict = ARCHIVE.search(text), VERDICT.search(text)
    return verdict[1] if archive and verdict and archive[1] == sha256 else None


def proved_in(places: Iterable[str], sha256: str) -> str | None:
    """The first verdict about an archive in the folders that are told."""
    for folder in places:
        try:
            with open(os.path.join(folder, PROVED), encoding="utf-8", errors="replace") as file:
                found = verdict_in(file.read(), sha256)
        except OSError:
            continue
        if found:
            return found
    return None


@lru_cache(maxsize=None)
def identity() -> dict[str, Any]:
    """The library as a receipt has it: its version, the SHA-256 of the archive, and what was proved of it, or None."""
    sha256 = bindings.library_sha256()
    return {"version": bindings.version(), "sha256": sha256, "proved": proved_in(folders(), sha256)}
