#!/usr/bin/env python3
"""Reads include/heronditch.h, so that what speaks of its calls is made from it.

  header.py version    print the version of the interface
  header.py exports    print the version script of the shared library: the header's functions and nothing else
  header.py rust       print the header's declarations in Rust, examples/rust/src/raw.rs

tools/pages.py makes the manual pages from the same reading."""
import dataclasses
import pathlib
import re
import sys

HEADER = pathlib.Path(__file__).resolve().parent.parent / "include" / "heronditch.h"
PIECE = re.compile(
    r"/\*(?P<comment>.*?)\*/\n|#define (?P<define>\w+) (?P<value>[^\n]*)\n|enum \{\n(?P<enum>.*?)\n\};"
    r"|typedef struct \{\n(?P<fields>.*?)\n\} (?P<struct>\w+);|(?P<function>[a-z][^;{]*\([^;]*\));",
    re.DOTALL,
)
PARAMETER = re.compile(r"(?P<type>.*?[ *])(?P<name>\w+)$")


@dataclasses.dataclass(frozen=True)
class Variable:
    """A parameter or a field: its type as C writes it, its name, and how many it has where it is an array."""

    type: str
    name: str
    count: str = ""


@dataclasses.dataclass(frozen=True)
class Constant:
    """A number with a name, and what is said of it where each has a comment of its own."""

    name: str
    value: str
    text: str = ""


@dataclasses.dataclass(frozen=True)
class Struct:
    """A struct with a name, and its fields."""

    name: str
    fields: tuple[Variable, ...]


@dataclasses.dataclass(frozen=True)
class Function:
    """A call: what it gives, its name, and its parameters."""

    gives: str
    name: str
    parameters: tuple[Variable, ...]


@dataclasses.dataclass
class Block:
    """A comment, and the declarations that it speaks of."""

    text: str
    constants: list[Constant] = dataclasses.field(default_factory=list)
    structs: list[Struct] = dataclasses.field(default_factory=list)
    functions: list[Function] = dataclasses.field(default_factory=list)


@dataclasses.dataclass
class Section:
    """What stands under a heading of the header; the first section has an empty one."""

    title: str
    blocks: list[Block] = dataclasses.field(default_factory=list)


@dataclasses.dataclass
class Header:
    """The header: the comment that it begins with, and its sections."""

    introduction: str
    sections: list[Section]

    @property
    def blocks(self) -> list[Block]:
        """every block, in order"""
        return [block for section in self.sections for block in section.blocks]

    @property
    def functions(self) -> list[Function]:
        """every call, in order"""
        return [function for block in self.blocks for function in block.functions]

    @property
    def constants(self) -> dict[str, str]:
        """every number with a name, as the header writes it"""
        return {constant.name: constant.value for block in self.blocks for constant in block.constants}


class Unreadable(Exception):
    """The header has something that this reading does not know."""


def plain(comment: str) -> str:
    """a comment's lines without their stars"""
    lines = [re.sub(r"^ \* ?", "", line).rstrip() for line in comment.strip().split("\n")]
    return "\n".join(lines).strip()


def variable(text: str) -> Variable:
    """a parameter or a field"""
    name, _, count = text.strip().partition("[")
    found = PARAMETER.match(" ".join(name.split()))
    if not found:
        raise Unreadable(f"include/heronditch.h: cannot tell type and name apart in '{text.strip()}'")
    return Variable(found["type"].strip(), found["name"], count.rstrip("]"))


def function(text: str) -> Function:
    """a call's declaration"""
    head, _, inside = text.partition("(")
    named = variable(head)
    inside = inside.rpartition(")")[0].strip()
    parameters = () if inside == "void" else tuple(variable(one) for one in inside.split(","))
    return Function(named.type, named.name, parameters)


def members(text: str) -> list[Constant]:
    """the members of an enumeration, each with its own comment"""
    found = re.findall(r"(\w+) = (\d+),?(?:\s*/\*(.*?)\*/)?", text, re.DOTALL)
    return [Constant(name, value, " ".join(said.split())) for name, value, said in found]


def add(block: Block, piece: re.Match[str]) -> None:
    """puts a declaration into the block of the comment before it"""
    if piece["define"]:
        block.constants.append(Constant(piece["define"], piece["value"].strip()))
    elif piece["enum"]:
        block.constants.extend(members(piece["enum"]))
    elif piece["struct"]:
        fields = tuple(variable(one) for one in piece["fields"].split(";") if one.strip())
        block.structs.append(Struct(piece["struct"], fields))
    else:
        block.functions.append(function(piece["function"]))


def read(path: pathlib.Path = HEADER) -> Header:
    """the header in its parts"""
    found = re.match(r"/\*(.*?)\*/\n(.*?)extern \"C\" \{\n#endif\n(.*)#ifdef __cplusplus\n", path.read_text(), re.DOTALL)
    if not found:
        raise Unreadable(f'{path.name}: it has not the shape of comment, guard, extern "C" and declarations')
    header = Header(plain(found[1]), [Section("")])
    for piece in PIECE.finditer(found[3]):
        section = header.sections[-1]
        heading = re.fullmatch(r"---- (.*)", plain(piece["comment"] or ""))
        if heading:
            header.sections.append(Section(heading[1]))
        elif piece["comment"]:
            section.blocks.append(Block(plain(piece["comment"])))
        else:
            add(section.blocks[-1], piece)
    rest = PIECE.sub("", found[3]).strip()
    if rest:
        raise Unreadable(f"{path.name}: no declaration that is known here: '{rest.splitlines()[0]}'")
    return header


def exports(header: Header) -> str:
    """the version script of the shared library"""
    names = "".join(f"        {one.name};\n" for one in header.functions)
    return f"HERONDITCH_{header.constants['HERONDITCH_VERSION']} {{\n    global:\n{names}    local:\n        *;\n}};\n"


RUST = {"size_t": "usize", "uint8_t": "u8", "uint16_t": "u16", "uint32_t": "u32", "char": "c_char"}
# the numbers with names that calls take and give; every other one is a size, or the entry of a table of distances
TOLD = re.compile(r"HERONDITCH_(VERSION|FIRST|SECOND|THIRD|NEITHER|PATTERN|BOARD|FORWARD|BACKWARD|LESS|EQUAL|GREATER)")


def rust_type(ctype: str) -> str:
    """a type of the header, in Rust"""
    if ctype.endswith("*"):
        inner = ctype.removesuffix("*").strip()
        return ("*const " if inner.startswith("const ") else "*mut ") + rust_type(inner.removeprefix("const "))
    return RUST.get(ctype, ctype)


def rust_constant(constant: Constant) -> str:
    """a number with a name, in Rust"""
    kind = "u16" if constant.name == "HERONDITCH_OUTSIDE" else "usize"
    if TOLD.fullmatch(constant.name) or constant.text or constant.name == "HERONDITCH_ACCEPTED":
        kind = "u32"
    value = re.sub(r"^\((.*)\)$", r"\1", constant.value)
    return f"pub const {constant.name}: {kind} = {value};\n"


def rust_struct(struct: Struct) -> str:
    """a struct, in Rust"""
    lines = [f"#[repr(C)]\n#[derive(Clone, Copy, Debug)]\npub struct {struct.name} {{\n"]
    for field in struct.fields:
        kind = rust_type(field.type)
        lines.append(f"    pub {field.name}: {f'[{kind}; {field.count}]' if field.count else kind},\n")
    return "".join(lines) + "}\n"


def rust_function(one: Function) -> str:
    """a call, in Rust"""
    lines = "".join(f"        {each.name}: {rust_type(each.type)},\n" for each in one.parameters)
    return f"    pub fn {one.name}({chr(10) + lines + '    ' if lines else ''}) -> {rust_type(one.gives)};\n"


def rust(header: Header) -> str:
    """the declarations of the header, in Rust"""
    blocks = header.blocks
    return (
        "//! The declarations of heronditch.h, made from it by `tools/header.py rust`: change the header, and make them anew.\n"
        "#![allow(non_camel_case_types)]\n\nuse std::ffi::c_char;\n\n"
        + "".join(rust_constant(one) for block in blocks for one in block.constants)
        + "".join("\n" + rust_struct(one) for block in blocks for one in block.structs)
        + '\nextern "C" {\n'
        + "".join(rust_function(one) for block in blocks for one in block.functions)
        + "}\n"
    )


def version(header: Header) -> str:
    """the version of the interface"""
    return header.constants["HERONDITCH_VERSION"] + "\n"


def main(words: list[str]) -> int:
    """prints what is asked for"""
    made = {"version": version, "exports": exports, "rust": rust}
    if len(words) != 1 or words[0] not in made:
        print("usage: header.py version|exports|rust", file=sys.stderr)
        return 2
    try:
        sys.stdout.write(made[words[0]](read()))
    except Unreadable as what:
        print(f"header.py: {what}", file=sys.stderr)
        return 1
    return 0


if __name__ == "__main__":
    sys.exit(main(sys.argv[1:]))
