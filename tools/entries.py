"""The pages of docs/promises: entries and text, as blocks between blank lines; how they are read, and how printed.

An entry is a block of lines `key: value`, the first of them `entry: LABEL`; a line that begins with a blank goes on
with the value before it. Its keys:

    entry: 6b                                       the label, which no other entry has
    says: Two nodes are now equal when ..           the sentence, once
    paragraph: 4.1, 1.2                             paragraphs of docs/SPECIFICATION.md that say it
    definition: table/specs/Row: kinds_agree, ..     a file of specs/, and names in it
    contract: table_first::start, ..                functions; or words that begin with 'every'
    theorem: table/proofs/Agreement: agrees-kinds   a file of proofs/, and names in it
    edit: table_first: packages_ignored, ..         a crate, and labels of its must-fail edits
    note: ..                                        words

All but the first two may stand several times or not at all. A name may have a remark in round brackets after it.
`print: NAME` is a block for a list that the script makes; `exempt: 13.3 WHY` says of a paragraph of the specification
that no entry cites it. Every other block is Markdown; {NAME} in it is a figure that the script counts.
"""
import re
import textwrap
from functools import cache
from typing import NamedTuple

from named import ROOT

FOLDER = ROOT / "docs/promises"
WIDTH = 120
Fields = dict[str, list[str]]
PRINTED = {
    "paragraph": "specification",
    "definition": "defined",
    "contract": "contract",
    "theorem": "theorem",
    "edit": "guarded by",
    "note": "note",
}


class Block(NamedTuple):
    """A block of a page: the page's file name, the line where it begins, its text, and its fields, {} for Markdown."""

    page: str
    line: int
    text: str
    fields: Fields

    def label(self) -> str:
        """An entry's label; of another block nothing."""
        return self.fields.get("entry", [""])[0]

    def where(self) -> str:
        """How a message names it."""
        return f"docs/promises/{self.page}:{self.line}" + (f", entry {self.label()}" if self.label() else "")


class Reference(NamedTuple):
    """What a field names: a file (or a crate), and in it names with the remark after each."""

    home: str
    names: list[tuple[str, str]]


def fields_of(text: str) -> Fields:
    """A block's `key: value` lines."""
    fields: Fields = {}
    for line in re.sub(r"\n +", " ", text).split("\n"):
        key, _, value = line.partition(": ")
        fields.setdefault(key, []).append(value)
    return fields


@cache
def blocks() -> list[Block]:
    """The blocks of all pages, in the order of their file names; reading.txt is none."""
    made = []
    for path in sorted(FOLDER.glob("[0-9]*.txt")):
        for found in re.finditer(r"(?:^[^\n]*\S[^\n]*(?:\n|\Z))+", path.read_text(), re.M):
            text = found.group().rstrip("\n")
            has_fields = re.match(r"(entry|print|exempt): ", text)
            line = found.string[: found.start()].count("\n") + 1
            made.append(Block(path.name, line, text, fields_of(text) if has_fields else {}))
    return made


def entries() -> list[Block]:
    """The blocks that are entries."""
    return [block for block in blocks() if "entry" in block.fields]


def split(text: str, mark: str) -> list[str]:
    """A text cut at each mark that stands in no brackets."""
    parts, depth = [""], 0
    for letter in text:
        depth += (letter == "(") - (letter == ")")
        if letter == mark and depth == 0:
            parts.append("")
        else:
            parts[-1] += letter
    return [part.strip() for part in parts]


def named(text: str) -> list[tuple[str, str]]:
    """`name (remark), name` as names with their remarks."""
    found = []
    for part in split(text, ","):
        name, _, remark = part.partition(" (")
        found.append((name, f" ({remark}" if remark else ""))
    return found


def reference(key: str, text: str) -> Reference:
    """What a definition, a theorem, a contract or an edit names."""
    home, _, rest = text.partition(": ") if key != "contract" else ("", "", text)
    return Reference(home, named(rest))


def references(block: Block, key: str) -> list[Reference]:
    """What a block names under a key."""
    return [reference(key, text) for text in block.fields.get(key, [])]


def numbers_of(block: Block) -> list[str]:
    """The paragraphs of the specification that an entry cites."""
    return [number for text in block.fields.get("paragraph", []) for number in text.split(", ")]


def wrapped(text: str, first: str = "", later: str = "") -> str:
    """A text in lines of at most WIDTH characters, none of which begins as a list or a heading would."""
    glued = re.sub(r"\s+(?=([-+*>#=]|\d+[.)])(\s|$))", "\0", text)
    filled = textwrap.fill(
        glued, WIDTH, initial_indent=first, subsequent_indent=later, break_long_words=False, break_on_hyphens=False
    )
    return filled.replace("\0", " ")


def shown(key: str, texts: list[str]) -> str:
    """A field's values as they are printed: names in code marks, those of one file (or crate) together."""
    if key == "paragraph":
        return ", ".join(texts)
    if key == "note":
        return "; ".join(texts)
    together: dict[str, list[str]] = {}
    for home, names in (reference(key, text) for text in texts):
        marked = [name if name.startswith("every ") else f"`{name}`" for name, _ in names]
        together.setdefault(home, []).extend(name + remark for name, (_, remark) in zip(marked, names))
    return "; ".join(f"{home} {', '.join(names)}".strip() for home, names in together.items())


def printed(block: Block) -> str:
    """An entry: the sentence under its label, then a line for each kind of thing that it names."""
    lines = [wrapped(f"**{block.label()}.** {' '.join(block.fields.get('says', []))}"), ""]
    for key, word in PRINTED.items():
        if key in block.fields:
            lines.append(wrapped(shown(key, block.fields[key]), f"- {word}: ", "  "))
    return "\n".join(lines).rstrip()


def filled(text: str) -> str:
    """A block of Markdown with its paragraphs and list items in lines of at most WIDTH characters."""
    if re.match(r"#|\||    ", text):
        return text
    parts = re.split(r"\n(?= *- )", text)
    made = []
    for part in parts:
        indent = re.match(r" *(- )?", part).group()
        made.append(wrapped(" ".join(part[len(indent) :].split()), indent, " " * len(indent)))
    return "\n".join(made)


def laid_out(page: str) -> str:
    """A page as it should be written: the same blocks, in lines of at most WIDTH characters."""
    parts = []
    for block in blocks():
        if block.page == page:
            lines = [wrapped(f"{key}: {text}", "", "    ") for key, texts in block.fields.items() for text in texts]
            parts.append("\n".join(lines) if block.fields else filled(block.text))
    return "\n\n".join(parts) + "\n"
