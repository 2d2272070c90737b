"""merge, order and shelf: patterns among themselves."""

from __future__ import annotations

import argparse
import os
from typing import Any, Sequence

from ..bindings import SHELF
from ..circuits import BITS, SECOND, Circuit
from ..errors import PATTERN, Faults, Refused
from ..finding import compare, merge, order, radius, shelf
from .files import write
from .inputs import add_pattern, load, pattern_of
from .subcommands import Out, Subcommand
from .telling import count, link_lines, rows


def merge_arguments(form: argparse.ArgumentParser) -> None:
    """The arguments of merge."""
    add_pattern(form)
    form.add_argument("-o", dest="out", metavar="FILE", help="write the merged pattern, .txt or .cir")
    form.add_argument("--force", action="store_true", help="write it over PATTERN where asked to")


def run_merge(arguments: argparse.Namespace, out: Out) -> bool:
    """Merges the parts of a pattern that match each other."""
    pattern = pattern_of(arguments)
    merged = merge(pattern)
    names = [pattern.named(parts) for parts in merged.classes]
    lines = ["classes:", *rows((each[0], each) for each in names)]
    lines += ["merged pattern:", *link_lines(merged.pattern, merged.pattern.links)]
    classes = "1 class" if len(names) == 1 else f"{len(names)} classes"
    lines.append(f"{classes} of {count(len(pattern.names), 'part')}; no other grouping that matches alike has fewer")
    if arguments.out:
        write(merged.pattern, arguments.out, arguments.pattern, arguments.force)
    links = [merged.pattern.named(link) for link in merged.pattern.links]
    out.answer("\n".join(lines) + "\n", {"classes": names, "links": links})
    return True


def order_arguments(form: argparse.ArgumentParser) -> None:
    """The arguments of order."""
    form.add_argument("files", metavar="FILE", nargs="+", help="patterns, .txt or .cir")


def accepted(paths: Sequence[str], out: Out) -> list[tuple[str, Circuit]]:
    """The patterns that are accepted, with their names; the others are told."""
    good = []
    for path in paths:
        try:
            pattern = load(path, BITS).in_edition(SECOND)
            radius(pattern)
            good.append((path, pattern))
        except Refused as refused:
            out.trouble([f"{path}: {refused}"], {"number": refused.number, "path": path})
        except Faults as faults:
            out.trouble([line if line.startswith(f"{path}:") else f"{path}: {line}" for line in faults.messages], {"path": path})
    return good


def ranked(patterns: Sequence[tuple[str, Circuit]]) -> tuple[str, list[dict[str, Any]]]:
    """Patterns with their names, in order, as lines and as data: one that is equal to the one before says so."""
    data: list[dict[str, Any]] = []
    for at, (name, pattern) in enumerate(patterns):
        before = patterns[at - 1] if at else None
        data.append({"name": name, "equal": before[0] if before and compare(before[1], pattern) == 0 else None})
    wide = max((len(name) for name, _ in patterns), default=0)
    same = [f"the same circuit as {one['equal']}" if one["equal"] else "" for one in data]
    lines = [f"{one['name'].ljust(wide)}  {more}".rstrip() for one, more in zip(data, same)]
    return "".join(f"{line}\n" for line in lines), data


def run_order(arguments: argparse.Namespace, out: Out) -> bool:
    """Puts patterns in order."""
    good = accepted(arguments.files, out)
    text, data = ranked([good[number] for number in order([pattern for _, pattern in good])])
    out.answer(text, {"order": data})
    return bool(good)


def shelf_arguments(form: argparse.ArgumentParser) -> None:
    """The arguments of shelf."""
    form.add_argument("folder", metavar="FOLDER", help="a folder with the second-edition patterns p00.cir, p01.cir and so on")
    form.add_argument("--lines", action="store_true", help="the numbers alone, as the shelf program prints them")


def shelf_files(folder: str) -> list[bytes]:
    """The files of a shelf, up to the first that is absent."""
    os.listdir(folder)  # a folder that is not there is no empty shelf
    files: list[bytes] = []
    while len(files) < SHELF and os.path.lexists(path := os.path.join(folder, f"p{len(files):02}.cir")):
        with open(path, "rb") as file:
            files.append(file.read())
    return files


def refusal(data: bytes) -> Refused | None:
    """Why a file is passed over on a shelf."""
    try:
        pattern = Circuit.from_bytes(data, BITS)
        if pattern.edition != SECOND:
            return Refused(
                3, PATTERN, "it is of another edition", "Convert it to the second (heronditch convert --edition second)."
            )
        radius(pattern)
    except Refused as refused:
        return refused
    return None


def run_shelf(arguments: argparse.Namespace, out: Out) -> bool:
    """Puts a shelf in order."""
    files = shelf_files(arguments.folder)
    numbers = shelf(files)
    for number, data in enumerate(files):
        wrong = refusal(data) if number not in numbers else None
        if wrong:
            out.note(f"p{number:02}.cir is passed over: {wrong}")
    text, order_data = ranked([(f"p{number:02}.cir", Circuit.from_bytes(files[number])) for number in numbers])
    plain = "".join(f"{number:02}\n" for number in numbers)
    out.answer(plain if arguments.lines else text, {"order": order_data})
    return bool(numbers)


SUBCOMMANDS = (
    Subcommand(
        "merge",
        "the parts of a pattern that match each other, and the merged pattern",
        "Says which parts of a pattern match each other and so share a class, and prints the pattern merged by them, in which each class is"
        "\none part. No other grouping of parts of the same kind and package that matches alike on every board has fewer groups.",
        "  heronditch merge samples/mute/pattern.txt -o merged.txt",
        merge_arguments,
        run_merge,
    ),
    Subcommand(
        "order",
        "patterns in the order of their circuits",
        "Puts patterns in order: by the numbers of their nodes and links, then kinds, packages, link starts and link ends, the first difference"
        "\ndeciding. Of equal circuits it says so.",
        "  heronditch order samples/shelf/stage.txt samples/shelf/p00.cir samples/shelf/p04.cir",
        order_arguments,
        run_order,
    ),
    Subcommand(
        "shelf",
        "a folder of patterns in the order of their circuits",
        "Puts a shelf in order: the second-edition patterns p00.cir to p15.cir of a folder, up to the first that is absent. One that is refused"
        "\nis passed over, and told.",
        "  heronditch shelf samples/shelf",
        shelf_arguments,
        run_shelf,
    ),
)
