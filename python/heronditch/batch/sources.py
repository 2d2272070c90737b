"""The circuits of a batch: files, folders and lists of names, and each file read once."""

from __future__ import annotations

import hashlib
import os
import sys
from dataclasses import dataclass
from typing import BinaryIO, Iterator, Sequence

from ..bindings import File
from ..circuits import Kinds, edition_of
from ..command.inputs import is_text
from ..errors import Faults
from ..text import decoded, from_text

LARGEST = 1 << 20  # no circuit has more bytes, as a text either
STDIN = "-"
ENDS = (".cir", ".txt")


@dataclass(frozen=True)
class Source:
    """A circuit as it was read: its name, the SHA-256 of the file, and the circuit file, which for a text is the one that it makes, with its
    own SHA-256, the names of its nodes and its register; or a sentence that tells why it could not be read."""

    name: str
    sha256: str | None = None
    file: File | None = None
    circuit: str | None = None
    names: tuple[str, ...] | None = None
    register: Kinds | None = None
    fault: str | None = None


def names_of(words: Sequence[str], null: bool = False) -> list[str]:
    """The names that the words of a command line stand for, in their order: a folder for the circuits in it, '-' for a list."""
    return [name for word in words for name in (listed(null) if word == STDIN else expanded(word))]


def listed(null: bool) -> list[str]:
    """The names on standard input, one a line, or each ended by a null byte."""
    return [os.fsdecode(name) for name in separated(sys.stdin.buffer, b"\0" if null else b"\n") if name]


def separated(file: BinaryIO, end: bytes) -> Iterator[bytes]:
    """What stands in a file before each end, and after the last; it is read piece by piece, so that the names alone are held."""
    rest = b""
    while piece := file.read(1 << 16):
        *whole, rest = (rest + piece).split(end)
        yield from whole
    yield rest


def expanded(word: str) -> list[str]:
    """A file's name, or those of the circuit files in a folder, of its texts where it has none; in the order of their names."""
    if not os.path.isdir(word):
        return [word]
    with os.scandir(word) as entries:
        files = sorted(entry.name for entry in entries if entry.is_file())
    for end in ENDS:
        names = [name for name in files if name.endswith(end)]
        if names:
            return [os.path.join(word, name) for name in names]
    raise Faults([f"{word}: the folder has no file whose name ends in .cir or .txt"])


def read(name: str, role: str) -> Source:
    """Reads a circuit, once; what is wrong with the file is told in the source."""
    try:
        with open(name, "rb") as file:
            data = file.read(LARGEST + 1)
    except OSError as error:
        return Source(name, fault=error.strerror or str(error))
    except ValueError:  # a null byte, or a letter that no name of a file has
        return Source(name, fault="no file can have this name")
    if len(data) > LARGEST:
        return Source(name, fault=f"more than {LARGEST} bytes, which no circuit has")
    return understood(name, data, role)


def sha256_of(data: bytes) -> str:
    """The SHA-256 of bytes."""
    return hashlib.sha256(data).hexdigest()


def first_of(sentences: Sequence[str]) -> str:
    """The first sentence, and how many more there are."""
    more = f" (and {len(sentences) - 1} more)" if len(sentences) > 1 else ""
    return f"{sentences[0]}{more}"


def understood(name: str, data: bytes, role: str) -> Source:
    """The circuit of a file's bytes, or of the text that they are."""
    sha256 = sha256_of(data)
    try:
        if not is_text(name, data):
            return Source(name, sha256, File(data, edition_of(data)))
        circuit = from_text(decoded(data, name), name, role, os.path.dirname(name))
    except Faults as wrong:
        return Source(name, sha256, fault=first_of(wrong.messages))
    except OSError as error:
        return Source(name, sha256, fault=f"{error.filename}: {error.strerror}")
    file = File(circuit.to_bytes(), circuit.edition)
    return Source(name, sha256, file, sha256_of(file.data), circuit.names, circuit.register)


def clash(pattern: Source, board: Source) -> str | None:
    """Why two texts do not go together: a name that stands for two numbers."""
    if pattern.register is None or board.register is None:
        return None
    wrong = pattern.register.differences(board.register)
    told = [f"{what} '{name}' is {here} in {pattern.name} and {there} in {board.name}" for what, name, here, there in wrong]
    return "; ".join(told) + ": one name has one number (a file that both texts 'use' keeps it so)" if told else None
