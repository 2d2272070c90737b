"""The definitions that have to be read to know what the statements of docs/promises/reading.txt say, with their lines.

From the statements of each page, and from what the contracts make of the calls' answers, it follows every name of a
specs/ file that a definition uses. It stops at names that need not be read (`stop`), and at what a call that a request
adds is asked for, which is listed with that request (`own`). Each definition is listed with the first page that needs
it. Lines are counted without comments.
"""
import re
from collections.abc import Iterable, Iterator
from functools import cache
from typing import NamedTuple

from entries import FOLDER, Fields, fields_of
from named import ROOT, content


class Name(NamedTuple):
    """A definition: the crate, the file in its specs/, and the name."""

    crate: str
    file: str
    name: str


class Source(NamedTuple):
    """A file of specs/: its definitions with their lines, the data type of each case, and the names it uses."""

    lines: dict[str, list[str]]
    cases: dict[str, str]
    uses: dict[str, Name]


Found = dict[Name, int]  # definitions with their number of lines


def names(text: str) -> list[Name]:
    """`crate/specs/File: name, name` as names; none where the text is not of this form."""
    form = re.fullmatch(r"(\w+)/specs/(\w+): (.+)", text)
    return [Name(form[1], form[2], name) for name in form[3].split(", ")] if form else []


def parsed(text: str) -> Source:
    """A file's definitions, without comments, and the names that it imports."""
    source, name = Source({}, {}, {}), ""
    for line in text.split("\n"):
        use = re.match(r"(?:unfoldable )?(?:pub )?use Rattle\.(\w+)\.specs\.(\w+)\.\{(.*)\}$", line)
        if use:
            source.uses.update({word: Name(use[1], use[2], word) for word in use[3].split(", ")})
        if not line.strip() or re.match(r"\s*--|(unfoldable )?(pub )?use |infix", line):
            continue
        if head := re.match(r"(?:unfoldable |abbrev )?pub (?:record |data )?([^\s:]+)", line):
            name = head[1]
            source.lines[name] = []
        if name:
            source.lines[name].append(line)
    for name, lines in source.lines.items():
        if lines[0].startswith("pub data"):
            source.cases.update({case[1]: name for line in lines[1:] if (case := re.match(r"\s+(\S+) :", line))})
    return source


@cache
def source(crate: str, file: str) -> Source:
    """The definitions of a file; none where there is no such file."""
    return parsed(content(ROOT / "crates" / crate / "specs" / f"{file}.antt"))


def words(name: str, lines: list[str]) -> set[str]:
    """The words of a definition that may name others."""
    text = "\n".join(lines)
    text = re.sub(r"(?<=\S)\.\w+", " ", text)  # projections,
    text = re.sub(r"pub [^\s:]+ :", " ", text)  # names of fields,
    text = re.sub(r"[\w']+ = ", " ", text)  # also where they are given,
    text = re.sub(r"[({]([^(){}:]*) : ", "( ", text)  # and bound names
    found = set(re.findall(r"[^\s(){};,.λ]+", text))
    for line in lines:  # and parameters
        parameters = re.match(re.escape(name) + r" ([^=:]*) =", line)
        found -= set(parameters[1].split()) if parameters else set()
    return found


def origin(name: Name) -> Name | None:
    """Where a name is defined: a case stands in its data type, and a name may be passed on from another file."""
    here = source(name.crate, name.file)
    if name.name in here.lines:
        return name
    if name.name in here.cases:
        return name._replace(name=here.cases[name.name])
    return origin(here.uses[name.name]) if name.name in here.uses else None


def needed(name: Name) -> Iterator[Name]:
    """The names that a definition uses, as its file has them."""
    here = source(name.crate, name.file)
    for word in words(name.name, here.lines[name.name]):
        if word in here.lines or word in here.cases:
            yield name._replace(name=word)
        elif word in here.uses or f"◌{word}◌" in here.uses:
            yield here.uses.get(word) or here.uses[f"◌{word}◌"]


def follow(roots: Iterable[Name], found: Found, held: set[Name], stops: set[str]) -> None:
    """Adds what `roots` need to what is found already; it stops at `stops`, and at what is held for another page."""
    todo = list(roots)
    while todo:
        name = todo.pop()
        home = origin(name)
        if home is None or {name.name, home.name} & stops or {name, home} & held or home in found:
            continue
        found[home] = len(source(home.crate, home.file).lines[home.name])
        todo.extend(needed(home))


@cache
def plan() -> list[Fields]:
    """The blocks of docs/promises/reading.txt."""
    blocks = re.split(r"\n\s*\n", content(FOLDER / "reading.txt").strip())
    return [fields_of(block) for block in blocks if not block.startswith("#")]


def listed(block: Fields, key: str) -> list[Name]:
    """The names under a key of a block."""
    return [name for text in block.get(key, []) for name in names(text)]


def stops() -> set[str]:
    """The names that need not be read."""
    return {name for block in plan() for text in block.get("name", []) for name in text.split(", ")}


def pages() -> list[tuple[str, Found]]:
    """For each page the definitions that it needs and no page before it; the first page is that of the demands."""
    blocks = [block for block in plan() if "page" in block]
    found: Found = {}
    held = {name for block in blocks for name in listed(block, "own")}
    made = []
    for block in blocks:
        own, before = listed(block, "own"), set(found)
        held -= set(own)
        follow(listed(block, "statement") + own, found, held, stops())
        made.append((block["page"][0], {name: lines for name, lines in found.items() if name not in before}))
    return made


def whole() -> Found:
    """What the demands need, with all that other pages list."""
    found: Found = {}
    follow(listed(next(block for block in plan() if "page" in block), "statement"), found, set(), stops())
    return found


def by_file(found: Found) -> list[tuple[str, list[str], int]]:
    """For each file its path, its definitions that were found, and their lines."""
    rows = []
    for crate, file in sorted({(name.crate, name.file) for name in found}):
        here = [name for name in source(crate, file).lines if Name(crate, file, name) in found]
        rows.append((f"{crate}/specs/{file}", here, sum(found[Name(crate, file, name)] for name in here)))
    return rows


def faults() -> Iterator[str]:
    """The names of docs/promises/reading.txt that are not there."""
    everywhere = {name for path in ROOT.glob("crates/*/specs/*.antt") for name in defined_in(path.parts[-3], path.stem)}
    for block in plan():
        for text in block.get("statement", []) + block.get("own", []):
            if not names(text):
                yield f"page {block['page'][0]}: '{text}' is not of the form 'CRATE/specs/FILE: NAME'"
            for name in names(text):
                if origin(name) is None:
                    yield f"page {block['page'][0]}: crates/{name.crate}/specs/{name.file}.antt has no `{name.name}`"
        for text in block.get("name", []):
            for name in text.split(", "):
                if name not in everywhere:
                    yield f"stop {block['stop'][0]}: no file of specs/ has `{name}`"


def defined_in(crate: str, file: str) -> list[str]:
    """The names that a file of specs/ defines."""
    here = source(crate, file)
    return [*here.lines, *here.cases]
