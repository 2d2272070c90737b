"""The text form: what a text makes, and what is said of one that makes nothing."""

from __future__ import annotations

import struct

import pytest

from conftest import run, write
from heronditch import Circuit, Faults, Kinds, from_text, load_kinds, load_text, to_text

T_TEXT = "node a 10\nnode b 20\nnode c 30\na -> b\nb -> c\n"
T_FILE = "030002000a0014001e000000010001000200"
B_TEXT = "node a 10\nnode b 20\nnode c 30\nnode d 20\nnode e 30\nnode f 10\nd -> e\nb -> c\na -> b"
B_FILE = "060003000a0014001e0014001e000a00" "000001000300" "010002000400"
PACKED = "package SOT 3\nnode a 10 SOT\nnode b 20\nnode c 30 0xffff\na -> b -> c"

# Texts and the files that they make, in hexadecimal.
GOOD = {
    "T": (T_TEXT, T_FILE),
    "names for kinds, any order, comments": (
        "# T\nb -> c  # last\n a -> b\nnode a first\nnode b 0x14\n\nnode c 30\nkind first 10\n",
        T_FILE,
    ),
    "a chain": ("node a 10\nnode b 20\nnode c 30\na -> b -> c", T_FILE),
    "from the other end": ("node a 10\nnode b 20\nnode c 30\nc <- b <- a", T_FILE),
    "lines of other systems": ("node a 10\r\nnode b 20\rnode c 30\r\na -> b -> c\r\n", T_FILE),
    "B": (B_TEXT, B_FILE),
    "nothing": ("", "00000000"),
    "one node": ("node x 0", "010000000000"),
    "any part, and an unidentified one": ("node x any\nnode y unidentified", "0200000000000000"),
    "the largest kind": ("node x 65535", "01000000ffff"),
    "a self-link": ("node x 7\nx -> x", "01000100070000000000"),
    "two ways": ("node x 1\nnode y 2\nx <-> y", "02000200" "01000200" "00000100" "01000000"),
    "a bound": ("node a 10\nnode b 20\na -> b within 3", "020001000a0014000000000000000100" "0300"),
    "bounds in a chain": (
        "node a 10\nnode b 20\nnode c 30\nc <- b within 0x2 <- a within 4\nb -> b",
        "030003000a0014001e00" "000000000000" "000001000100" "010001000200" "040001000200",
    ),
    "a bound each way": (
        "node x 1\nnode y 2\nx <-> y within 2",
        "02000200" "01000200" "00000000" "00000100" "01000000" "02000200",
    ),
    "packages": (PACKED, "030002000a0014001e00" "03000000ffff" "0000010001000200"),
    "odd names": (
        "node +9V 1\nnode Q1.b 2\nnode ü 3\nkind R:10k 4\nnode - R:10k\n+9V -> Q1.b\nü <- -",
        "04000200" "0100020003000400" "00000300" "01000200",
    ),
}

# Texts that make no file, and what is said, line numbers included.
BAD = [
    ("node a", ["1: expected 'node NAME KIND'"]),
    ("node a 1 2 3", ["1: expected 'node NAME KIND' or 'node NAME KIND PACKAGE'"]),
    ("node a 1 x", ["1: no package is named 'x'"]),
    ("node a 1 65536", ["1: '65536' is not a number from 0 to 65535"]),
    ("package p", ["1: expected 'package NAME NUMBER'"]),
    ("package 1p 5", ["1: '1p' can't name a package"]),
    ("package p 1\npackage p 2", ["2: package 'p' is named twice, first in line 1"]),
    ("\nnode a x", ["2: no kind is named 'x'"]),
    ("node a 65536", ["1: '65536' is not a number from 0 to 65535"]),
    ("node a -1", ["1: no kind is named '-1'"]),
    ("node node 1", ["1: 'node' can't name a node"]),
    ("node use 1", ["1: 'use' can't name a node"]),
    ("node a 1\n\nnode a 2", ["3: node 'a' is named twice, first in line 1"]),
    ("node within 1", ["1: 'within' can't name a node"]),
    ("node a 1\na -> a within 0\n", ["2: '0' is not a number from 1 to 4"]),
    ("node a 1\na -> a within 5\n", ["2: '5' is not a number from 1 to 4"]),
    ("node a 1\na -> a within x\n", ["2: 'x' is not a number from 1 to 4"]),
    ("node a 1\na -> a within\n", ["2: expected 'NAME -> NAME' or 'NAME -> NAME within NUMBER'"]),
    ("node a 1\na within 2 -> a\n", ["2: expected 'NAME -> NAME'"]),
    ("node a 1\na -> a within 2 within 2\n", ["2: expected 'NAME -> NAME'"]),
    ("node a 1\na -> within 2\n", ["2: expected 'NAME -> NAME'"]),
    ("node a 1\na within 2\n", ["2: 'a' begins no statement"]),
    ("kind r", ["1: expected 'kind NAME NUMBER'"]),
    ("kind r 1 2", ["1: expected 'kind NAME NUMBER'"]),
    ("kind r x", ["1: 'x' is not a number from 0 to 65535"]),
    ("kind r 65536", ["1: '65536' is not a number from 0 to 65535"]),
    ("kind 1r 5", ["1: '1r' can't name a kind"]),
    ("kind any 5\nkind unidentified 0", ["1: 'any' names kind 0 already", "2: 'unidentified' names kind 0 already"]),
    ("kind r 1\nkind r 1", ["2: kind 'r' is named twice, first in line 1"]),
    ("a", ["1: 'a' begins no statement"]),
    ("nodes a 1", ["1: 'nodes' begins no statement"]),
    ("use", ["1: expected 'use FILE'"]),
    ("use absent.txt", ["1: can't use 'absent.txt': No such file"]),
    ("node a 1\na->a", ["2: an arrow is one of"]),
    ("node a 1\na - > a", ["2: an arrow is one of"]),
    ("node a 1\na ->", ["2: expected 'NAME -> NAME'"]),
    ("->", ["1: expected 'NAME -> NAME'"]),
    ("node a 1\n-> a", ["2: expected 'NAME -> NAME'"]),
    ("node a 1\na -> -> a", ["2: expected 'NAME -> NAME'"]),
    ("node a 1\na a -> a", ["2: expected 'NAME -> NAME'"]),
    ("node a 1\na -> b", ["2: no node is named 'b'"]),
    ("node a 1\nb -> b", ["2: no node is named 'b'"]),
    ("node a 1\na -> a\na -> a", ["3: link 'a -> a' stands twice, first in line 2"]),
    ("node a 1\nnode b 1\na <-> b\nb -> a", ["4: link 'b -> a' stands twice, first in line 3"]),
    ("node a 1\na <-> a", ["2: a link from 'a' to itself is written 'a -> a'"]),
    ("nod a 1\nnode b k\nb -> c", ["1: 'nod' begins", "2: no kind is named 'k'", "3: no node is named 'c'"]),
]

# Texts that make a file, but not in the role told.
BAD_ROLES = [
    ("pattern", "", "0 nodes, and a pattern has 1 to 32"),
    ("bits", "", "0 nodes, and a pattern has 1 to 32"),
    ("pattern", "".join(f"node {n} 1\n" for n in range(33)), "33 nodes, and a pattern has 1 to 32"),
    ("pattern", "node a 1\nnode b 1\nb -> b", "no path joins 'b' to 'a'"),
    (
        "pattern",
        "".join(f"node {n} 1\n" for n in range(14)) + " -> ".join(map(str, range(14))),
        "'0' and '13' are 13 links apart, and the parts of a pattern at most 12",
    ),
    ("pattern", "node a unidentified", "1: 'unidentified' is for a board, and this is a pattern"),
    ("board", "node a 1\nnode b any", "2: 'any' is for a pattern, and this is a board"),
    ("board", "node a 1\na -> a within 2", "2: 'within' is for a pattern, and this is a board"),
    ("board", "".join(f"node {n} 1\n" for n in range(513)), "513 nodes, and a board has 0 to 512"),
    (
        "pattern",
        "".join(f"node {n} 1\n" for n in range(17)) + "".join(f"{at // 17} -> {at % 17}\n" for at in range(257)),
        "257 links, and a pattern has at most 256",
    ),
    (
        "board",
        "".join(f"node {n} 1\n" for n in range(65)) + "".join(f"{at // 65} -> {at % 65}\n" for at in range(4097)),
        "4097 links, and a board has at most 4096",
    ),
]


@pytest.mark.parametrize("text, file", GOOD.values(), ids=list(GOOD))
def test_good(text: str, file: str) -> None:
    """A good text makes its file, and what is shown of that makes it again."""
    circuit = from_text(text)
    assert circuit.to_bytes().hex() == file
    assert from_text(to_text(circuit)) == circuit
    assert from_text(to_text(Circuit.from_bytes(circuit.to_bytes()))).to_bytes().hex() == file


@pytest.mark.parametrize("text, messages", BAD)
def test_bad(text: str, messages: list[str]) -> None:
    """A bad text is told, all of it at once and with its lines."""
    with pytest.raises(Faults) as caught:
        from_text(text, "in.txt")
    told = caught.value.messages
    assert len(told) == len(messages)
    assert all(one.startswith(f"in.txt:{start}") for one, start in zip(told, messages)), told


@pytest.mark.parametrize("role, text, message", BAD_ROLES)
def test_roles(folder: object, role: str, text: str, message: str) -> None:
    """A circuit that does not fit its role is told, with status 2 and no file, and only if the role is."""
    write("in.txt", text)
    done = run("make", "--as", role, "in.txt", "out.cir")
    assert done.status == 2 and message in done.err and not done.out
    with pytest.raises(FileNotFoundError):
        open("out.cir", "rb")
    if "' is for a " not in message:
        assert run("make", "in.txt", "out.cir").status == 0


def test_roles_fit(folder: object) -> None:
    """What fits its role just so is made."""
    path = "".join(f"node {n} 1\n" for n in range(13)) + " <- ".join(map(str, range(13)))
    for role, text in (("pattern", path), ("bits", "node a any\nnode b 1\nb -> b"), ("board", ""), ("pattern", T_TEXT)):
        write("in.txt", text)
        assert run("make", "--as", role, "in.txt", "out.cir").status == 0


def test_not_utf_8(folder: object) -> None:
    """Bytes that are no UTF-8 are told with their line; a byte order mark is none of the text."""
    write("in.txt", b"# one\n# \xff\n")
    with pytest.raises(Faults, match="in.txt:2: not a UTF-8 text"):
        load_text("in.txt")
    write("in.txt", "\ufeff" + T_TEXT)
    assert load_text("in.txt").to_bytes().hex() == T_FILE


def test_use(folder: object) -> None:
    """A register is shared by what uses it, from the folder of the text."""
    write("parts/kinds.txt", "# ours\nkind npn 12\npackage SOT-23 3\n")
    write("parts/stage.txt", "use kinds.txt\nnode Q npn SOT-23\n")
    stage = load_text("parts/stage.txt")
    assert (stage.kinds, stage.packages) == ((12,), (3,))
    assert load_kinds("parts/kinds.txt") == stage.register == Kinds({"npn": 12}, {"SOT-23": 3})


def test_use_wrongly(folder: object) -> None:
    """What is wrong with a register is told where it stands, and so is a name that it has already."""
    write("kinds.txt", "kind npn 12\nkind pnp x\nnode a 1\n")
    with pytest.raises(Faults) as caught:
        from_text("use kinds.txt\nuse a b\n", "in.txt")
    starts = ["in.txt:2: expected 'use FILE'", "kinds.txt:2: 'x' is not", "kinds.txt:3: a register has 'kind NAME NUMBER'"]
    assert all(any(one.startswith(start) for one in caught.value.messages) for start in starts), caught.value.messages
    write("kinds.txt", "kind npn 12\n")
    with pytest.raises(Faults, match="in.txt:2: kind 'npn' is named twice, first in kinds.txt:1"):
        from_text("use kinds.txt\nkind npn 12\n", "in.txt")
    with pytest.raises(Faults, match="named twice"):
        from_text("use kinds.txt\nuse kinds.txt\n", "in.txt")
    write("kinds.txt", b"\xff")
    with pytest.raises(Faults, match="kinds.txt:1: not a UTF-8 text"):
        from_text("use kinds.txt\n")
    with pytest.raises(Faults, match="kinds.txt:1: not a UTF-8 text"):
        load_kinds("kinds.txt")


def test_largest_board() -> None:
    """A board of the largest size is shown and made again."""
    links = sorted((at // 64, at * 7 % 64) for at in range(4096))
    fields = [512, 4096, *range(1000, 1512), *(v for v, _ in links), *(w for _, w in links)]
    data = struct.pack(f"<{len(fields)}H", *fields)
    assert from_text(to_text(Circuit.from_bytes(data, "board")), role="board").to_bytes() == data


def test_names_that_no_text_has() -> None:
    """A name that cannot stand in a text is told, and not written."""
    for name in ("op amp", "", "a#b", "<", "node"):
        with pytest.raises(Faults, match="can't name a node"):
            to_text(Circuit.of([name], [1], []))
    with pytest.raises(Faults, match="can't name a kind"):
        to_text(Circuit.of(["a"], [1], [], register=Kinds({"op amp": 1})))


def test_two_ways_are_shown() -> None:
    """A link each way is shown as one arrow, unless their bounds differ."""
    data = bytes.fromhex("0200030001000200000000000100000001000000")
    assert to_text(Circuit.from_bytes(data)).endswith("0 -> 0\n0 <-> 1\n")
    ways = struct.pack("<12H", 2, 2, 1, 1, 0, 0, 0, 1, 1, 0, 2, 3)
    assert to_text(Circuit.from_bytes(ways)).endswith("0 -> 1 within 2\n1 -> 0 within 3\n")
