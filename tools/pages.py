#!/usr/bin/env python3
"""Makes the manual pages.

  pages.py VERSION FOLDER

writes into FOLDER heronditch.3, with a page for each call that leads to it, from the words of include/heronditch.h; circuit.5
from those words and from docs/TEXT-FORM.md; and heronditch.1, with a page for each program that leads to it, from
install/heronditch.1.in and from what the subcommands of the command say of themselves (python/heronditch/command)."""
import ast
import pathlib
import re
import sys
import textwrap

import header

ROOT = pathlib.Path(__file__).resolve().parent.parent
PROGRAMS = ("heronditch-report", "heronditch-test-board", "heronditch-shelf")
# the refusals that a circuit file can have by itself
OF_A_FILE = (1, 2, 3, 4, 5, 6, 11, 13)
WIDTH = 76
CODE = re.compile(r"`([^`]+)`|\b(?:heronditch|HERONDITCH)_\w+")


def escape(text: str) -> str:
    """text that roff prints as it is"""
    return text.replace("\\", "\\e").replace("'", "\\(aq").replace("`", "\\(ga").replace("^", "\\(ha").replace("~", "\\(ti")


def code(text: str) -> str:
    """the same with hyphens that can be copied"""
    return escape(text).replace("-", "\\-")


def bold(text: str) -> str:
    """text to be typed as it stands"""
    return f"\\fB{code(text)}\\fP"


def inline(text: str) -> str:
    """a paragraph on one line, with what is code in bold: names of the header, and what stands between backquotes"""
    line, at, whole = "", 0, " ".join(text.split())
    for found in CODE.finditer(whole):
        line += escape(whole[at : found.start()]) + bold(found[1] or found[0])
        at = found.end()
    line += escape(whole[at:])
    return "\\&" + line if line.startswith((".", "\\(aq")) else line


def example(lines: list[str]) -> list[str]:
    """lines kept as they are"""
    shown = ["\\&" + line if line.startswith((".", "\\(aq")) else line for line in map(code, lines)]
    return [".PP", ".in +4n", ".EX", *shown, ".EE", ".in"]


def item(mark: str, text: str) -> list[str]:
    """a piece of a list: what it is about, and what is said of it"""
    return [".TP", mark, inline(text)]


def flow(text: str) -> list[str]:
    """running text of a comment: paragraphs, lines of code that are set in, and lists with hyphens"""
    out: list[str] = []
    for block in re.split(r"\n\s*\n(?!    )|\n(?=  - )|\n\s*\n(?=    )", text):
        if block.startswith("    "):
            out += example(textwrap.dedent(block).split("\n"))
        elif block.startswith("  - "):
            out += [".IP \\(bu 2", inline(block[4:])]
        else:
            out += [".PP", inline(block)]
    return out


def wrapped(one: header.Function) -> list[str]:
    """a call's declaration, its parameters in italics, in lines that fit"""
    lines, line, width = [], bold(f"{one.gives} {one.name}(".replace("* ", "*")), len(one.gives + one.name) + 2
    words = [f"{each.type} ".replace("* ", "*") for each in one.parameters] or ["void"]
    names = [each.name for each in one.parameters] or [""]
    for k, (kind, name) in enumerate(zip(words, names)):
        end = "," if k + 1 < len(words) else ");"
        if width + len(kind + name + end) + 1 > WIDTH:
            lines.append(line)
            line, width = " " * 7, 7
        line += (" " if k else "") + bold(kind) + f"\\fI{name}\\fP" * bool(name) + bold(end)
        width += len(kind + name + end) + 1
    return [*lines, line]


def declared(struct: header.Struct) -> list[str]:
    """a struct as C writes it"""
    fields = [f"    {each.type} {each.name}{f'[{each.count}]' if each.count else ''};" for each in struct.fields]
    return ["typedef struct {", *fields, f"}} {struct.name};"]


def constants(block: header.Block) -> list[str]:
    """the numbers with names of a block"""
    if any(one.text for one in block.constants):
        marks = [(f"{bold(one.name)} ({one.value})", one.text or "the call is accepted") for one in block.constants]
        return [line for mark, text in marks for line in item(mark, text)]
    return example([f"#define {one.name} {one.value}" for one in block.constants]) if block.constants else []


def described(block: header.Block) -> list[str]:
    """a block of the header: calls before what is said of them, all else after it"""
    out: list[str] = []
    for one in block.functions:
        out += [".PP", ".nf", *wrapped(one), ".fi"]
    text = block.text[0].upper() + block.text[1:]
    text = text if text.endswith(".") else text + "."
    out += [".RS 4", *flow(text), ".RE"] if block.functions else flow(text)
    for struct in block.structs:
        out += example(declared(struct))
    return out + constants(block)


def headline(name: str, section: int, version: str, manual: str) -> list[str]:
    """how a page begins"""
    return [f'.TH {name.upper()} {section} "" "Heronditch {version}" "{manual}"', ".nh"]


def calls_page(head: header.Header, version: str) -> list[str]:
    """heronditch(3)"""
    _, _, introduction = head.introduction.partition("\n")
    names = ", ".join(["heronditch", *(one.name for one in head.functions)])
    out = headline("heronditch", 3, version, "Library Functions Manual")
    out += [".SH NAME", f"{names} \\- find a known circuit on a circuit board"]
    out += [".SH SYNOPSIS", ".nf", bold("#include <heronditch.h>"), ".PP"]
    out += [f"{bold('cc')} \\fIprogram.c\\fP {bold('$(pkg-config --cflags --libs heronditch)')}", ".fi"]
    out += [".SH DESCRIPTION", *flow(introduction.strip("\n")), ".SH THE CALLS"]
    for section in head.sections:
        title = section.title or "version"
        out += [f".SS {title[0].upper()}{title[1:]}"]
        for block in section.blocks:
            out += described(block)
    return out + [".SH SEE ALSO", ".BR heronditch (1),", ".BR circuit (5)"]


def paragraph(head: header.Header, word: str) -> str:
    """the paragraph of the header's beginning that begins with a word"""
    for text in head.introduction.split("\n\n"):
        if text.startswith(word):
            return text
    raise header.Unreadable(
        f"include/heronditch.h: circuit(5) takes over a paragraph that begins with '{word}', and there is none"
    )


def limits(head: header.Header) -> str:
    """the sizes of circuits, with the header's numbers"""
    value = {name.removeprefix("HERONDITCH_"): number for name, number in head.constants.items()}
    return (
        f"A circuit has N nodes, numbered from 0, and M links, each from one node to another or to itself. A pattern has 1 to"
        f" {value['PARTS']} nodes, its parts, and at most {value['PATTERN_LINKS']} links, is connected, directions ignored, and no"
        f" two of its parts are more than {value['RADIUS']} links apart. A board has at most {value['NODES']} nodes and"
        f" {value['BOARD_LINKS']} links."
    )


def chapter(text: str, title: str) -> str:
    """what stands under a heading of docs/TEXT-FORM.md"""
    found = re.search(rf"^#+ {title}\n(.*?)(?=^## |\Z)", text, re.DOTALL | re.MULTILINE)
    if not found:
        raise header.Unreadable(f"docs/TEXT-FORM.md has no chapter '{title}' any more, which circuit(5) takes over")
    return found[1].strip()


def marked(text: str) -> list[str]:
    """paragraphs, tables of two columns, lists and code of a text with marks, as docs/TEXT-FORM.md has them"""
    out: list[str] = []
    for block in re.split(r"\n\n(?!  )|\n(?=- )", text):
        if block.startswith("```"):
            out += example(block.split("\n")[1:-1])
        elif block.startswith("|"):
            rows = [re.split(r"(?<!\\)\|", line)[1:-1] for line in block.split("\n")[2:]]
            out += [line for left, right in rows for line in item(inline(left), right)]
        elif block.startswith("- "):
            out += [".IP \\(bu 2", inline(block[2:])]
        else:
            out += [".PP", inline(block)]
    return out


def whole_fences(text: str) -> str:
    """the same with no empty line inside code, where it would end a block"""
    return re.sub(r"```.*?```", lambda found: found[0].replace("\n\n", "\n \n"), text, flags=re.DOTALL)


def circuit_page(head: header.Header, version: str) -> list[str]:
    """circuit(5)"""
    text = whole_fences((ROOT / "docs" / "TEXT-FORM.md").read_text())
    numbers = [one for block in head.blocks for one in block.constants if one.text and int(one.value) in OF_A_FILE]
    out = headline("circuit", 5, version, "File Formats Manual")
    out += [".SH NAME", "circuit \\- the file of a circuit, and its form as text", ".SH DESCRIPTION", ".PP", inline(limits(head))]
    out += [*flow(paragraph(head, "Editions:")), *flow(paragraph(head, "Kinds:")), ".SH REFUSALS"]
    out += [".PP", "A file is refused by a number, the first of these that holds:"]
    for one in numbers:
        out += item(f"{bold(one.value)} ({bold(one.name)})", one.text)
    out += [".SH CIRCUITS AS TEXT", *marked(chapter(text, "Circuits as text")), ".SS Form", *marked(chapter(text, "Form"))]
    out += [".SS Errors", *marked(chapter(text, "Errors"))]
    return out + [".SH SEE ALSO", ".BR heronditch (1),", ".BR heronditch (3)"]


def subcommands() -> list[str]:
    """the subcommands of the command heronditch in the order of its help, each with what it says of itself"""
    folder = ROOT / "python" / "heronditch" / "command"
    found = [node for path in sorted(folder.glob("*.py")) for node in ast.walk(ast.parse(path.read_text()))]
    said = {}
    for call in found:
        if isinstance(call, ast.Call) and isinstance(call.func, ast.Name) and call.func.id == "Subcommand":
            name, _, about, shown = (ast.literal_eval(word) for word in call.args[:4])
            said[name] = [*item(bold(name), about), *example(textwrap.dedent(shown).split("\n"))[1:]]
    order = re.findall(r'^    "([a-z-]+)": "\w+",$', (folder / "__init__.py").read_text(), re.MULTILINE)
    if not said or sorted(order) != sorted(said):
        raise header.Unreadable(
            "python/heronditch/command: heronditch(1) lists the subcommands of MODULES, and not all are found"
        )
    return [line for name in order for line in said[name]]


def programs_page(version: str) -> list[str]:
    """heronditch(1)"""
    text = (ROOT / "install" / "heronditch.1.in").read_text()
    return text.replace("@VERSION@", version).replace("@SUBCOMMANDS@", "\n".join(subcommands())).rstrip("\n").split("\n")


def write(folder: pathlib.Path, version: str) -> None:
    """every page"""
    head = header.read()
    pages = {"heronditch.3": calls_page(head, version), "circuit.5": circuit_page(head, version)}
    pages["heronditch.1"] = programs_page(version)
    pages |= {f"{one.name}.3": [".so man3/heronditch.3"] for one in head.functions}
    pages |= {f"{name}.1": [".so man1/heronditch.1"] for name in PROGRAMS}
    folder.mkdir(parents=True, exist_ok=True)
    for name, lines in pages.items():
        # no empty line after a heading
        text = re.sub(r"^(\.(?:S[HS]|RS) .*)\n\.PP$", r"\1", "\n".join(lines), flags=re.MULTILINE)
        (folder / name).write_text(text + "\n")


def main(words: list[str]) -> int:
    """writes the pages, or says why it cannot"""
    if len(words) != 2:
        print("usage: pages.py VERSION FOLDER", file=sys.stderr)
        return 2
    try:
        write(pathlib.Path(words[1]), words[0])
    except (header.Unreadable, OSError) as what:
        print(f"pages.py: {what}", file=sys.stderr)
        return 1
    return 0


if __name__ == "__main__":
    sys.exit(main(sys.argv[1:]))
