"""Whether what a page names is in the tree: definitions, theorems, functions, must-fail edits, files, and paragraphs of
docs/SPECIFICATION.md. tools/spec and tools/promises ask it."""
import re
from collections.abc import Iterator
from functools import cache
from pathlib import Path

ROOT = Path(__file__).resolve().parent.parent
SPECIFICATION = ROOT / "docs/SPECIFICATION.md"
# crate/specs/File `name`, `name` (remark) and `name`; the same with proofs
NAMED = re.compile(
    r"(?<![\w/])(?:crates/)?(\w+)/(specs|proofs)/([A-Z]\w*)((?:(?:,|,? and)? `[^` ]+`(?: \([^()`]*\))?)+)"
)
# crate/must-fail `label`, `label` (remark) and `label`
EDITS = re.compile(r"(?<![\w/])(?:crates/)?(\w+)/must-fail((?:(?:,|,? and)? `\w+`(?: \([^()`]*\))?)+)")
WORDS = {"requires", "ensures", "u16"}  # of the language
FUNCTIONS = re.compile(r"`(\w+(?:::\w+)+)`")
FUNCTION = re.compile(r"^(?= *(?:pub )?(?:const )?(?:extern \"C\" )?fn \w)", re.M)
FILES = re.compile(r"(?<![\w/.-])((?:docs|samples|include|library|tools|tests|second|examples|crates)/[\w./-]*\w)")


@cache
def content(path: Path) -> str:
    """The text of a file, and nothing where there is none."""
    return path.read_text() if path.is_file() else ""


def flat(text: str) -> str:
    """The text with each paragraph and list item on one line, so that a name may stand at a line's end."""
    return re.sub(r"\n *(?=\S)", " ", text)


def defined(crate: str, folder: str, file: str, name: str) -> bool:
    """Whether a definition or theorem is in its file."""
    indent = r"\s*" if folder == "proofs" else ""
    head = rf"^{indent}(unfoldable |abbrev )?pub (record |data )?{re.escape(name)}(\s|$)"
    return re.search(head, content(ROOT / "crates" / crate / folder / f"{file}.antt"), re.M) is not None


def functions(text: str) -> list[str]:
    """The functions of a source file, each with all that stands up to the next."""
    return FUNCTION.split(text)[1:]


def bodies(path: str) -> list[str]:
    """The functions that crate::function, crate::module::function or crate::Type::function names: one, or none."""
    crate, *within, name = path.split("::")
    sources = {file: content(file) for file in (ROOT / "crates" / crate / "src").glob("**/*.rt")}
    if within:
        home = re.compile(rf"^impl {within[-1]}\b", re.M)
        sources = {file: text for file, text in sources.items() if file.stem == within[-1] or home.search(text)}
    return [part for text in sources.values() for part in functions(text) if re.match(rf"[^(]*\bfn {name}\b", part)]


def clauses(text: str, *kinds: str) -> list[str]:
    """What stands between the braces of a text's clauses of some kinds, with a name or without: all of them where no kind is named."""
    found = []
    for start in re.finditer(rf"^\s*(?:{'|'.join(kinds or ('requires', 'ensures'))})\*?(?: \w+)? \{{", text, re.M):
        depth, end = 1, start.end()
        while depth and end < len(text):
            depth += (text[end] == "{") - (text[end] == "}")
            end += 1
        found.append(text[start.end() : end - 1])
    return found


def has_contract(body: str) -> bool:
    """Whether a function has an `ensures` or a `requires`."""
    return bool(clauses(body))


@cache
def all_edits() -> dict[tuple[str, str], str]:
    """Every must-fail edit, by crate and label, with the first line of its comment."""
    found = {}
    for path in sorted(ROOT.glob("crates/*/must-fail/*.edit")):
        first = content(path).split("\n", 1)[0]
        found[path.parts[-3], path.stem] = first.lstrip("# ") if first.startswith("#") else ""
    return found


def unknown_names(text: str) -> Iterator[str]:
    """The definitions and theorems that a text names and that are not there."""
    for crate, folder, file, names in NAMED.findall(flat(text)):
        for name in re.findall(r"`([^`]+)`", names):
            if not defined(crate, folder, file, name):
                yield f"crates/{crate}/{folder}/{file}.antt has no `{name}`"


def unknown_functions(text: str) -> Iterator[str]:
    """The functions that a text names and that are not there."""
    for path in FUNCTIONS.findall(flat(text)):
        if not bodies(path):
            yield f"crates/{path.split('::')[0]}/src has no function `{path}`"


def unknown_edits(text: str) -> Iterator[str]:
    """The must-fail edits that a text names and that are not there."""
    for crate, labels in EDITS.findall(flat(text)):
        for label in re.findall(r"`(\w+)`", labels):
            if (crate, label) not in all_edits():
                yield f"crates/{crate}/must-fail has no `{label}`"


@cache
def all_names() -> set[str]:
    """What a bare word in code marks may be: anything that a crate defines, a crate, an edit, or a function for C."""
    found = {path.name for path in (ROOT / "crates").iterdir()} | {label for _, label in all_edits()}
    for path in [path for part in ("specs", "proofs") for path in ROOT.glob(f"crates/*/{part}/**/*.antt")]:
        found |= set(re.findall(r"^\s*(?:unfoldable |abbrev )?pub (?:record |data )?([^\s:]+)", content(path), re.M))
    for path in ROOT.glob("crates/*/src/**/*.rt"):
        found |= set(re.findall(r"\b(?:fn|struct|enum|const) (\w+)", content(path)))
        found |= set(re.findall(r"^ +([A-Z]\w*)(?:\(.*\))?,$", content(path), re.M))  # an enum's cases
    return found | set(re.findall(r"\bheronditch_\w+", content(ROOT / "include/heronditch.h"))) | WORDS


def unknown_words(text: str) -> Iterator[str]:
    """The bare words in code marks that nothing is called by."""
    for word in re.findall(r"`([A-Za-z][\w-]*)`", text):
        if word not in all_names():
            yield f"nothing in the tree is called `{word}`"


def unknown_files(text: str) -> Iterator[str]:
    """The files and folders of the repository that a page names and that are not there; CRATE stands for any crate."""
    for path in sorted(set(FILES.findall(text))):
        if "CRATE" not in path and not (ROOT / path).exists():
            yield f"there is no {path}"


def paragraphs(text: str) -> list[tuple[str, str]]:
    """The numbered paragraphs of the specification, each with all that stands up to the next number or heading."""
    parts = re.split(r"^(?:(\d+\.\d+) |## )", text, flags=re.M)
    return [(number, body) for number, body in zip(parts[1::2], parts[2::2]) if number]


def numbers() -> list[str]:
    """The numbers of the specification's paragraphs."""
    return [number for number, _ in paragraphs(content(SPECIFICATION))]
