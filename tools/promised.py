"""What docs/PROMISES.md is made of beside its entries: the lists and figures that are counted, and the whole page."""
import re
from collections import defaultdict
from collections.abc import Iterator
from functools import cache
from pathlib import Path

import definitions
import exported
import named
from counted import listed as listed_crates
from entries import FOLDER, Block, blocks, entries, filled, laid_out, numbers_of, printed, references, wrapped

ROOT = named.ROOT
PAGE = ROOT / "docs/PROMISES.md"


def listed(names: list[str]) -> str:
    """Names in code marks, one after another."""
    return ", ".join(f"`{name}`" for name in names)


def contents() -> Iterator[str]:
    """The sections, each with a link to it."""
    for block in blocks():
        if block.text.startswith("## "):
            title = block.text.removeprefix("## ")
            yield f"- [{title}](#{re.sub(r'[^a-z0-9 -]', '', title.lower()).replace(' ', '-')})"


def reading_demands() -> Iterator[str]:
    """The definitions that the demands need, file by file."""
    found = definitions.pages()[0][1]
    for path, names, lines in definitions.by_file(found):
        yield wrapped(f"{path}, {lines}: {listed(names)}", "- ", "  ")
    everything = definitions.whole()
    yield f"- all of them: {len(found)} definitions, {sum(found.values())} lines"
    yield f"- with all that other pages list: {len(everything)} definitions, {sum(everything.values())} lines"


def reading_pages() -> Iterator[str]:
    """The definitions that each other page needs, beside those of the pages before it."""
    count = total = 0
    for place, (page, found) in enumerate(definitions.pages()):
        count, total = count + len(found), total + sum(found.values())
        if place:
            names = "; ".join(f"{path} {listed(here)}" for path, here, _ in definitions.by_file(found))
            yield wrapped(f"{page}, {sum(found.values())}: {names}", "- ", "  ")
    yield f"- all pages, the demands too: {count} definitions, {total} lines"


def exported_calls() -> Iterator[str]:
    """Each function for C with the definitions that its contract applies to the inputs."""
    for function in exported.all_exported():
        cited = "; ".join(f"{home} {listed(names)}" for home, names in function.definitions.items())
        yield wrapped(f"`{function.name}`: {cited or 'a number'}", "- ", "  ")


def by_paragraph() -> Iterator[str]:
    """For each paragraph of the specification the entries that cite it."""
    citing = defaultdict(list)
    for block in entries():
        for number in numbers_of(block):
            citing[number].append(block.label())
    for number, body in named.paragraphs(named.content(named.SPECIFICATION)):
        title = re.search(r"\*\*(.+?)\*\*", body)
        name = f" ({title[1].rstrip('.').lower()})" if title and body.startswith("**") else ""
        yield wrapped(f"{number}{name}: {', '.join(citing[number]) or 'none'}", "- ", "  ")


def cited_edits() -> set[tuple[str, str]]:
    """The edits that entries cite."""
    return {(home, name) for block in entries() for home, names in references(block, "edit") for name, _ in names}


def other_edits() -> Iterator[str]:
    """The edits that no entry cites, with what each says of itself."""
    rest = [edit for edit in named.all_edits() if edit not in cited_edits()]
    for crate, label in rest:
        comment = named.all_edits()[crate, label]
        yield wrapped(f"{crate} `{label}`: {comment}" if comment else f"{crate} `{label}`", "- ", "  ")
    if not rest:
        yield "None: an entry above cites each."


LISTS = {
    "contents": contents,
    "reading-demands": reading_demands,
    "reading-pages": reading_pages,
    "exported": exported_calls,
    "paragraphs": by_paragraph,
    "edits": other_edits,
}


def is_quoted(block: Block) -> bool:
    """Whether an entry is a sentence of a request, and not a fact besides, which stands in square brackets."""
    return bool(re.fullmatch(r"\d+[a-z]", block.label())) and not block.fields["says"][0].startswith("[")


@cache
def figures() -> dict[str, str]:
    """The figures that a page may ask for."""
    labels = [block.label() for block in entries()]
    sources = [named.content(path) for path in ROOT.glob("crates/*/src/**/*.rt")]
    functions = [part for text in sources for part in named.functions(text)]
    specs = [definitions.source(path.parts[-3], path.stem).lines for path in ROOT.glob("crates/*/specs/*.antt")]
    demands = definitions.pages()[0][1]
    counted = {
        "crates": len(listed_crates(ROOT)),
        "functions": len(functions),
        "contracts": sum(bool(named.clauses(part, "ensures")) for part in functions),
        "exported": len(exported.all_exported()),
        "definitions": sum(len(lines) for lines in specs),
        "definition_lines": sum(len(line) for lines in specs for line in lines.values()),
        "demands_definitions": len(demands),
        "demands_lines": sum(demands.values()),
        "sentences": sum(label.isdigit() for label in labels),
        "request_sentences": sum(is_quoted(block) for block in entries()),
        "entries": len(labels),
        "paragraphs": len(named.numbers()),
        "edits": len(named.all_edits()),
        "cited_edits": len(cited_edits() & set(named.all_edits())),
    }
    return {name: f"{count:,}" for name, count in counted.items()}


def made() -> str:
    """The whole page."""
    known = figures()
    parts = []
    for block in blocks():
        if "print" in block.fields:
            parts.append("\n".join(LISTS.get(block.fields["print"][0], list)()))
        elif "entry" in block.fields:
            parts.append(printed(block))
        elif not block.fields:
            parts.append(filled(re.sub(r"\{(\w+)\}", lambda m: known.get(m[1], m[0]), block.text)))
    return "\n\n".join(parts) + "\n"


def files() -> dict[Path, str]:
    """What --write writes."""
    return {FOLDER / page: laid_out(page) for page in {block.page for block in blocks()}} | {PAGE: made()}
