"""What crates.txt lists, and how large a tree is. tools/landing, tools/figures, tools/profile, tools/layers and tools/unused ask it."""
import re
from pathlib import Path

LINES = {"src": ".rt", "specs": ".antt", "proofs": ".antt"}


def rows(root: Path) -> list[tuple[str, str]]:
    """The lines of crates.txt: a crate's name, with 'staticlib' after it where C links it, and what it depends on."""
    lines = (line.split("#")[0] for line in (root / "crates.txt").read_text().splitlines())
    return [(name, deps) for name, colon, deps in (line.partition(":") for line in lines) if colon]


def listed(root: Path) -> dict[str, list[str]]:
    """The crates that crates.txt lists, in its order, and what each depends on."""
    return {name.split()[0]: deps.split() for name, deps in rows(root)}


def static(root: Path) -> list[str]:
    """The crates that are static libraries."""
    return [name.split()[0] for name, _ in rows(root) if "staticlib" in name.split()]


def texts(root: Path, part: str) -> list[str]:
    """The files of a part of the listed crates: code, definitions or proofs."""
    folders = (root / "crates" / name / part for name in listed(root))
    return [path.read_text() for folder in folders for path in sorted(folder.rglob("*" + LINES[part]))]


def count(root: Path) -> dict[str, int]:
    """Crates, functions, those exported to C, must-fail edits, and lines of code, definitions and proofs, blank ones aside."""
    code = "\n".join(texts(root, "src"))
    return {
        "crates": len(listed(root)),
        "functions": len(re.findall(r"\bfn \w+", code)),
        "exported to C": len(re.findall(r'pub extern "C" fn', code)),
        "edits": sum(len(list((root / "crates" / name).glob("must-fail/*.edit"))) for name in listed(root)),
        **{f"lines of {part}": sum(bool(line.strip()) for text in texts(root, part) for line in text.splitlines()) for part in LINES},
    }
