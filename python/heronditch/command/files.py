"""make, show, convert and test-board: circuit files."""

from __future__ import annotations

import argparse
from typing import Any

from ..circuits import EDITIONS, LIMITS, THIRD, Circuit
from ..errors import BOARD, PATTERN, Faults
from ..finding import convert, test_board
from ..text import load_text, to_text
from .inputs import load, same_file
from .subcommands import Out, Subcommand
from .telling import count

WORDS = {number: word for word, number in EDITIONS.items()}


def write(circuit: Circuit, path: str, read: str | None, force: bool) -> None:
    """Writes a circuit, as a text where its name says so; never over what was read, unless asked."""
    if read is not None and same_file(path, read) and not force:
        raise Faults([f"{path}: this would be written over what is read; give another name, or --force"])
    data = to_text(circuit).encode() if path.endswith(".txt") else circuit.to_bytes()
    with open(path, "wb") as file:
        file.write(data)


def told(circuit: Circuit) -> str:
    """A circuit in a few words."""
    sizes = f"{count(len(circuit.names), 'node')}, {count(len(circuit.links), 'link')}"
    return f"{sizes}, {WORDS[circuit.edition]} edition, {len(circuit.to_bytes())} bytes"


def data_of(circuit: Circuit, path: str | None) -> dict[str, Any]:
    """A circuit by its nodes and links."""
    nodes: list[dict[str, Any]] = [{"name": name, "kind": kind} for name, kind in zip(circuit.names, circuit.kinds)]
    links: list[dict[str, Any]] = [{"from": circuit.names[start], "to": circuit.names[end]} for start, end in circuit.links]
    for node, package in zip(nodes, circuit.packages or ()):
        node["package"] = package
    for link, bound in zip(links, circuit.bounds or ()):
        link["within"] = bound
    return {"file": path, "edition": circuit.edition, "nodes": nodes, "links": links}


def add_out(form: argparse.ArgumentParser) -> None:
    """The arguments OUT and --force."""
    form.add_argument("out", metavar="OUT", help="the file to write")
    form.add_argument("--force", action="store_true", help="write it over what is read where asked to")


def make_arguments(form: argparse.ArgumentParser) -> None:
    """The arguments of make."""
    form.add_argument("--as", dest="role", choices=sorted(LIMITS), help="demand that the circuit fits this role")
    form.add_argument("--edition", choices=list(EDITIONS), help="write the file in this edition")
    form.add_argument("--without-packages", action="store_true", help="leave all packages out")
    form.add_argument("--without-bounds", action="store_true", help="leave the bounds out")
    form.add_argument("text", metavar="TEXT", help="a circuit in the text form")
    add_out(form)


def run_make(arguments: argparse.Namespace, out: Out) -> bool:
    """Makes the file of a text."""
    circuit = load_text(arguments.text, arguments.role)
    if arguments.role:
        circuit.check_role(arguments.role)
    circuit = circuit.without_packages() if arguments.without_packages else circuit
    circuit = circuit.without_bounds() if arguments.without_bounds else circuit
    if arguments.edition:
        circuit = circuit.in_edition(EDITIONS[arguments.edition])
    if arguments.out.endswith(".txt"):
        raise Faults([f"{arguments.out}: make writes a circuit file, whose name ends in .cir"])
    write(circuit, arguments.out, arguments.text, arguments.force)
    out.answer(f"{arguments.out}: {told(circuit)}\n", data_of(circuit, arguments.out))
    return True


def show_arguments(form: argparse.ArgumentParser) -> None:
    """The arguments of show."""
    form.add_argument("file", metavar="FILE", help="a circuit, .cir or .txt")


def run_show(arguments: argparse.Namespace, out: Out) -> bool:
    """Shows a circuit as text."""
    circuit = load(arguments.file)
    out.answer(to_text(circuit if arguments.file.endswith(".txt") else lettered(circuit)), data_of(circuit, arguments.file))
    return True


def lettered(circuit: Circuit) -> Circuit:
    """A circuit without names with names for a text: n0, n1 and so on."""
    names = tuple(f"n{number}" for number in range(len(circuit.names)))
    return Circuit(names, circuit.kinds, circuit.links, circuit.packages, circuit.bounds)


def convert_arguments(form: argparse.ArgumentParser) -> None:
    """The arguments of convert."""
    form.add_argument(
        "--as", dest="role", choices=[BOARD, PATTERN], default=BOARD, help="demand that the circuit fits this role (board)"
    )
    form.add_argument(
        "--edition",
        choices=list(EDITIONS),
        help="the edition to write; else the second for one of the first or third, or the first",
    )
    form.add_argument("file", metavar="FILE", help="a circuit, .cir or .txt")
    add_out(form)


def converted_to(circuit: Circuit, edition: int, role: str) -> Circuit:
    """A circuit in another edition: by the library, or for the third, which it does not convert to, by the module."""
    if edition != THIRD:
        return convert(circuit, edition, role)
    circuit.check_role(PATTERN)
    return circuit.in_edition(THIRD)


def run_convert(arguments: argparse.Namespace, out: Out) -> bool:
    """Converts a file from its edition to another."""
    circuit = load(arguments.file)
    edition = EDITIONS[arguments.edition] if arguments.edition else {2: 1}.get(circuit.edition, 2)
    try:
        converted = converted_to(circuit, edition, arguments.role)
    except Faults as faults:
        raise Faults(f"{arguments.file}: {message}" for message in faults.messages) from None
    write(converted, arguments.out, arguments.file, arguments.force)
    out.answer(f"{arguments.out}: {told(converted)}\n", data_of(converted, arguments.out))
    return True


def test_arguments(form: argparse.ArgumentParser) -> None:
    """The arguments of test-board."""
    for name, about in (("seed", "any number"), ("N", "nodes"), ("M", "links drawn"), ("K", "kinds")):
        form.add_argument(name.lower(), metavar=name.upper(), type=int, help=about)
    form.add_argument("-o", dest="out", metavar="FILE", help="write the board, .cir or .txt, and not print it as text")


def run_test(arguments: argparse.Namespace, out: Out) -> bool:
    """Makes a test board."""
    board = test_board(arguments.seed, arguments.n, arguments.m, arguments.k)
    if arguments.out:
        write(lettered(board) if arguments.out.endswith(".txt") else board, arguments.out, None, False)
    text = f"{arguments.out}: {told(board)}\n" if arguments.out else to_text(lettered(board))
    out.answer(text, data_of(board, arguments.out))
    return True


SUBCOMMANDS = (
    Subcommand(
        "make",
        "the circuit file of a text",
        "Makes the circuit file of a text: of the second edition where a node has a package, of the third where a link has a bound, or where"
        "\nasked. With --as it must also be one that is accepted in that role; 'bits' is a pattern for match and cut alone.",
        "  heronditch make --as board samples/mute/board.txt board.cir",
        make_arguments,
        run_make,
    ),
    Subcommand(
        "show",
        "a circuit file as text",
        "Prints a text that makes the circuit's file again. A file holds no names, so its nodes are called n0, n1 and so on.",
        "  heronditch show samples/worked/pattern.cir",
        show_arguments,
        run_show,
    ),
    Subcommand(
        "convert",
        "a circuit file in another edition",
        "Writes a circuit in another edition, and keeps the circuit. A package other than 0 has no place in the first (12), a bound other than 1"
        "\nnone in the first and second.",
        "  heronditch convert --edition second samples/worked/board.cir board2.cir",
        convert_arguments,
        run_convert,
    ),
    Subcommand(
        "test-board",
        "an invented board, the same everywhere",
        "Makes the test board of four numbers, the same everywhere: N nodes (1 to 512) of kinds below K (1 to 65536), and the links of M draws"
        "\n(at most 4096). docs/LOADS.md has some, with their SHA-256.",
        "  heronditch test-board 1 512 4096 8 -o board.cir",
        test_arguments,
        run_test,
    ),
)
