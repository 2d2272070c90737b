"""The functions that the library exports to C, and the definitions that their contracts apply to the inputs."""
import re
from functools import cache
from typing import NamedTuple

from named import ROOT, clauses, content, functions

USED = re.compile(r"^ghost use Rattle\.(\w+)\.specs\.(\w+)\.\{(.*)\};$", re.M)


class Exported(NamedTuple):
    """An exported function: its head, up to the body, and the definitions in its `ensures`, by their files."""

    name: str
    head: str
    definitions: dict[str, list[str]]

    def asks(self) -> bool:
        """Whether it has a `requires`."""
        return bool(clauses(self.head, "requires"))

    def promises(self) -> bool:
        """Whether it has an `ensures`."""
        return bool(clauses(self.head, "ensures"))


@cache
def all_exported() -> list[Exported]:
    """The exported functions, by file and in the order of the source."""
    made = []
    for path in sorted(ROOT.glob("crates/*/src/**/*.rt")):
        uses = USED.findall(content(path))
        homes = {name: f"{crate}/specs/{file}" for crate, file, names in uses for name in names.split(", ")}
        for part in functions(content(path)):
            if start := re.match(r' *pub extern "C" fn (\w+)', part):
                head = re.split(r"^\{", part, maxsplit=1, flags=re.M)[0]
                found: dict[str, list[str]] = {}
                for word in dict.fromkeys(re.findall(r"(?<!\.)\b[\w-]+", " ".join(clauses(head, "ensures")))):
                    if word in homes:
                        found.setdefault(homes[word], []).append(word)
                made.append(Exported(start[1], head, found))
    return made
