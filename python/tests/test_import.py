"""Netlists read into the text form: KiCad's and SPICE's, written for the purpose; and, where they are at hand, KiCad's own demos."""

from __future__ import annotations

import json
import os
import pathlib
import sys

import pytest
from hypothesis import given, settings
from hypothesis import strategies as some

from conftest import ROOT, run, write
from heronditch import Faults, from_text, load_text, places, to_text
from heronditch.netlists.netlist import text_of
from heronditch.netlists import Netlist, Part, Pin, board_of, default_rules, load_rules, read_netlist

RULES = load_rules(default_rules())
DEMOS = pathlib.Path(os.environ.get("HERONDITCH_KICAD_DEMOS", "/usr/share/kicad/demos"))


def netlist(*pins: str, parts: str = "") -> str:
    """A KiCad netlist of pins, each 'NET PART PIN TYPE', and of parts, each 'REFERENCE VALUE FOOTPRINT'."""
    told = [line.split() for line in parts.splitlines() if line.strip()]
    references = dict.fromkeys([*(words[0] for words in told), *(pin.split()[1] for pin in pins)])
    values = {words[0]: words[1:] for words in told}
    comps = ""
    for reference in references:
        value, footprint = (*values.get(reference, []), "", "")[:2]
        comps += f'(comp (ref "{reference}") (value "{value}") (footprint "{footprint}"))'
    nets = ""
    for net in dict.fromkeys(pin.split()[0] for pin in pins):
        nodes = [pin.split() for pin in pins if pin.split()[0] == net]
        nets += (
            f'(net (code 1) (name "{net}")'
            + "".join(f'(node (ref "{p}") (pin "{n}") (pintype "{t}"))' for _, p, n, t in nodes)
            + ")"
        )
    return f'(export (version "E") (components {comps}) (nets {nets}))'


def imported(name: str, text: str, *words: str) -> dict[str, object]:
    """What import answers for a file of a text, which it makes into board.txt."""
    done = run("import", write(name, text), "-o", "board.txt", "--json", *words)
    assert done.status == 0, done.err
    answer: dict[str, object] = json.loads(done.out)
    return answer


def links(name: str = "board.txt") -> set[str]:
    """The links of a text by names."""
    board = load_text(name, "board")
    return {board.told(link) for link in board.links}


def test_the_sample_is_current(tmp_path: pathlib.Path) -> None:
    """The texts of the sample are what import and take make, and the stage of one channel is in both."""
    board, stage = tmp_path / "board.txt", tmp_path / "stage.txt"
    assert run("import", "samples/import/amplifier.net", "-o", board).status == 0
    assert board.read_text() == (ROOT / "samples/import/board.txt").read_text()
    assert run("take", "samples/import/board.txt", "Q1", "--radius", 2, "-o", stage).status == 0
    assert stage.read_text() == (ROOT / "samples/import/stage.txt").read_text()
    found = places(load_text(str(stage), "pattern"), load_text(str(board), "board"))
    assert [{"Q1", "Q2"} & {place.board.names[node] for node in place.nodes} for place in found] == [{"Q1"}, {"Q2"}]


TYPES = {
    "input": {"N -> R1"},
    "power_in": {"N -> R1"},
    "output": {"R1 -> N"},
    "power_out": {"R1 -> N"},
    "open_collector": {"R1 -> N"},
    "open_emitter": {"R1 -> N"},
    "tri_state": {"N -> R1", "R1 -> N"},
    "bidirectional": {"N -> R1", "R1 -> N"},
    "passive": {"N -> R1", "R1 -> N"},
    "input+no_connect": {"N -> R1"},
    "": {"N -> R1", "R1 -> N"},
}


@pytest.mark.parametrize("pin_type", list(TYPES))
def test_directions_come_from_pin_types(folder: pathlib.Path, pin_type: str) -> None:
    """What drives what, where the netlist says; both ways else."""
    text = netlist("N R1 1 TYPE", "N C1 1 passive").replace('"TYPE"', f'"{pin_type}"')
    imported("in.net", text)
    assert links() == TYPES[pin_type] | {"N -> C1", "C1 -> N"}


def test_directions_of_older_netlists(folder: pathlib.Path) -> None:
    """Where a pin's type stands with the library's part alone, it is found there."""
    text = """(export (version D) (components (comp (ref U1) (value LM358) (libsource (lib linear) (part LM358))) (comp (ref R1) (value 10k)))
      (libparts (libpart (lib linear) (part LM358) (pins (pin (num 1) (name ~) (type output)) (pin (num 2) (name -) (type input)))))
      (nets (net (code 1) (name /A) (node (ref U1) (pin 1)) (node (ref R1) (pin 1)))
            (net (code 2) (name "Net-(R1-Pad2)") (node (ref U1) (pin 2)) (node (ref R1) (pin 2)))))"""
    imported("in.net", text)
    assert links() == {"U1 -> /A", "/A -> R1", "R1 -> /A", "Net-(R1-Pad2) -> U1", "R1 -> Net-(R1-Pad2)", "Net-(R1-Pad2) -> R1"}
    board = load_text("board.txt")
    assert [board.register.kind_name(kind) for kind in board.kinds] == ["opamp", "resistor", "net", "net"]


def test_bare_names_stay(folder: pathlib.Path) -> None:
    """Names that stand without quotes, as older netlists have them, stay what they are, though they look like numbers or like Lisp."""
    bare = ["007", "7", "1e3", "1000.0", "/CS'", "'x", "[a]", ";b", "c;d", "t", "nil", "`q", "a\\b", "{slash}"]
    nets = "".join(f"(net (code 1) (name {name}) (node (ref R1) (pin 1)) (node (ref 1R) (pin 1)))" for name in bare)
    imported("in.net", f"(export (version D) (components (comp (ref R1) (value 010)) (comp (ref 1R) (value 'k))) (nets {nets}))")
    assert load_text("board.txt").names == ("R1", "1R", *bare)


FOOTPRINTS = {
    "version 5": "(module Resistor_SMD:R_0603_1608Metric (layer F.Cu) (fp_text reference {ref} (at 0 0)) (fp_text value 10k (at 0 0)) {pads})",
    "version 6": '(footprint "Resistor_SMD:R_0603_1608Metric" (layer "F.Cu") (fp_text reference "{ref}" (at 0 0)) (fp_text value "10k") {pads})',
    "version 8": '(footprint "Resistor_SMD:R_0603_1608Metric" (property "Reference" "{ref}" (at 0 0)) (property "Value" "10k") {pads})',
}


@pytest.mark.parametrize("version", list(FOOTPRINTS))
def test_boards(folder: pathlib.Path, version: str) -> None:
    """A board's pads tell its nets, in the forms of several versions of KiCad."""
    form = FOOTPRINTS[version]
    pad = '(pad "{n}" smd rect (at 0 0) (size 1 1) (net {code} "{net}") (pintype "{type}"))'
    one = form.format(
        ref="R1", pads=pad.format(n=1, code=1, net="A", type="input") + pad.format(n=2, code=2, net="GND", type="passive")
    )
    two = form.format(ref="R2", pads=pad.format(n=1, code=1, net="A", type="passive") + '(pad "" np_thru_hole circle (at 0 0))')
    logo = form.format(ref="", pads="") if version != "version 5" else ""
    answer = imported("in.kicad_pcb", f'(kicad_pcb (version 20211014) (net 0 "") (net 1 "A") (net 2 "GND") {one} {two} {logo})')
    assert links() == {"A -> R1", "A -> R2", "R2 -> A"}
    board = load_text("board.txt")
    assert [board.register.package_name(number) for number in board.packages or ()] == ["R0603", "R0603", "0"]
    assert "rails left out (1): GND" in answer["told"]  # type: ignore[operator]


def test_spice(folder: pathlib.Path) -> None:
    """Elements, models, lines that go on, and what is passed over, which is told."""
    done = run("import", ROOT / "samples/import/amplifier.sp", "-o", "board.txt")
    assert done.status == 0 and "the inside of the subcircuit buffer: each use of it is one part" in done.out
    board = load_text("board.txt", "board")
    kinds = {name: board.register.kind_name(kind) for name, kind in zip(board.names, board.kinds)}
    assert (kinds["Q1"], kinds["R24"], kinds["C12"], kinds["X1"], kinds["b1"]) == ("npn", "resistor", "capacitor", "ic", "net")
    assert not {"V1", "0", "VCC", "vcc", "E1", "in", "this"} & set(kinds) and len(kinds) == 19
    assert {"b1 -> Q1", "Q1 -> c1", "Q1 -> e1", "e1 -> Q1", "c1 -> C12", "X1 -> c2"} <= links() and "Q1 -> b1" not in links()
    pattern = from_text("node q 12\nnode b 1\nnode c 1\nnode C 11\nb -> q -> c <-> C")
    assert len(places(pattern, board)) == 1


def test_spice_words(folder: pathlib.Path) -> None:
    """Blanks around '=' do not matter, the title is told, and an element with too few nodes is an error with its line."""
    text = "R9 a b 1k\nX1 a b c amp gain = 2 params: k= 1\nX2 a b c amp gain=2\nR1 a\n* a comment\n+ b 1k\n"
    answer = imported("in.sp", text)
    assert load_text("board.txt").names == ("X1", "X2", "R1", "a", "b", "c")
    assert "the first line, the title: 'R9 a b 1k'" in answer["told"]  # type: ignore[operator]
    done = run("import", write("short.sp", "title\nQ1 c b\n"), "-o", "out.txt")
    assert done.status == 2 and "'Q1 c b' has 2 words, and an element Q at least 3 nodes" in done.err


def test_references_that_stand_twice(folder: pathlib.Path) -> None:
    """Footprints of one reference are told apart on a board; in a netlist they cannot be, and that is told."""
    pads = '(pad "1" smd rect (net 1 "A")) (pad "2" smd rect (net 2 "{net}"))'
    two = "".join(FOOTPRINTS["version 6"].format(ref="R1", pads=pads.format(net=net)) for net in "BC")
    far = "".join(FOOTPRINTS["version 6"].format(ref=f"R{net}", pads=f'(pad "1" smd rect (net 3 "{net}"))') for net in "BC")
    answer = imported("in.kicad_pcb", f"(kicad_pcb {two} {far})")
    assert {"R1 -> B", "R1.2 -> C", "R1 -> A", "R1.2 -> A"} <= links() and "R1 -> C" not in links()
    assert "references of several footprints, which are numbered: R1" in answer["told"]  # type: ignore[operator]
    text = netlist("N R1 1 passive", "N C1 1 passive").replace("(components ", '(components (comp (ref "R1") (value "x"))')
    told = imported("in.net", text)["told"]
    assert "references that stand more than once, each taken for one part (1): R1" in told  # type: ignore[operator]


def test_sizes(folder: pathlib.Path) -> None:
    """Too large a board is told with its size, and nothing is written; what is left out as asked makes it fit."""
    chain = [f"N{number} R{number} 1 passive" for number in range(300)] + [
        f"N{number} R{number + 1} 2 passive" for number in range(299)
    ]
    write("in.net", netlist(*chain))
    done = run("import", "in.net", "-o", "board.txt")
    assert done.status == 2 and "300 parts and 299 nets are 599 nodes, with 1196 links" in done.err and "--leave-out" in done.err
    assert not pathlib.Path("board.txt").exists()
    done = run("import", "in.net", "-o", "board.txt", "--leave-out", "R2??")
    assert done.status == 0 and "left out as asked (100)" in done.out
    assert run("make", "--as", "board", "board.txt", "board.cir").status == 0


def test_never_a_circuit_file(folder: pathlib.Path) -> None:
    """Import writes a text alone, never over what it reads, and says that nothing of it is proved."""
    write("in.net", netlist("N R1 1 passive", "N C1 1 passive"))
    write("in.txt", netlist("N R1 1 passive", "N C1 1 passive"))
    assert run("import", "in.net", "-o", "board.cir").status == 2 and not pathlib.Path("board.cir").exists()
    assert "written over what is read" in run("import", "in.txt", "-o", "in.txt").err
    assert run("import", "in.net", "-o", "board.txt").status == 0
    assert "Nothing of this is proved" in pathlib.Path("board.txt").read_text()


def test_names(folder: pathlib.Path) -> None:
    """Names that can't stand in a text get others, and a net with a part's name a number."""
    text = netlist("R1 R1 1 passive", "R1 C1 1 passive", "b C1 2 passive", "b node 1 passive").replace('"b"', '"a b#<c>"')
    imported("in.net", text)
    assert load_text("board.txt").names == ("R1", "C1", "node_", "R1.2", "a_b__c_")


def test_names_stay_in_comments(folder: pathlib.Path) -> None:
    """A name that has a line's end in it does not end the comment that tells it."""
    text = netlist("N R1 1 passive", "N C1 1 passive", "X R1 2 passive").replace('"X"', '"x\nnode more 1"')
    imported("in.net", text)
    assert load_text("board.txt").names == (
        "R1",
        "C1",
        "N",
    ) and "# - nets of a single part left out (1): x node more 1" in text_of("board.txt")


def test_rules(folder: pathlib.Path) -> None:
    """Rules of one's own; what is wrong with them is told with the line; the first that fits holds."""
    rules = "kind net 1\nkind fast 5\nkind slow 6\nvalue U *FAST* fast\nreference U slow\nnet * net\nrail SUPPLY\n"
    write("rules.txt", rules)
    parts = "U1 74FAST00\nU2 other\nR1 FAST"  # a rule of values is for its letters alone
    text = netlist("A U1 1 input", "A U2 1 output", "A R1 1 passive", "SUPPLY U1 2 input", "SUPPLY U2 2 input", parts=parts)
    answer = imported("in.net", text, "--rules", "rules.txt")
    board = load_text("board.txt", "board")
    assert dict(zip(board.names, board.kinds)) == {"U1": 5, "U2": 6, "R1": 0, "A": 1} and board.packages is None
    assert "parts that no rule identifies (1): R1" in answer["told"]  # type: ignore[operator]
    write("wrong.txt", "kind net 1\nnet * nat\nrail\nnonsense\n")
    done = run("import", "in.net", "--rules", "wrong.txt", "-o", "out.txt")
    assert done.status == 2
    for told in (
        "wrong.txt:2: no kind is named 'nat'",
        "wrong.txt:3: expected 'rail GLOB'",
        "wrong.txt:4: 'nonsense' begins no rule",
    ):
        assert told in done.err


def test_kinds_stay_the_same() -> None:
    """The kinds of the rules and of the samples agree where they have one name."""
    for path in (ROOT / "samples").glob("*/*.txt"):
        if path.name in ("board.txt", "pattern.txt") and path.parent.name not in ("rail", "import"):
            register = load_text(str(path)).register
            assert not [one for one in RULES.register.differences(register) if one[0] == "kind"], path


WAYS = {"in": [("net", "part")], "out": [("part", "net")], "both": [("net", "part"), ("part", "net")]}


@settings(max_examples=60, deadline=None)
@given(some.lists(some.tuples(some.integers(0, 5), some.integers(0, 4), some.sampled_from(list(WAYS))), max_size=20))
def test_every_pin_is_a_link(drawn: list[tuple[int, int, str]]) -> None:
    """Every pin on a net of two parts or more is a link of its way, and there is no other; the text makes the same file."""
    pins = [Pin(f"R{part}", f"n{net}", way) for part, net, way in drawn]
    board, _ = board_of(Netlist(tuple(Part(f"R{part}", ("1k",)) for part in range(6)), tuple(pins)), RULES)
    wanted = set()
    for pin in pins:
        if len({other.part for other in pins if other.net == pin.net}) > 1:
            wanted |= {
                f"{dict(net=pin.net, part=pin.part)[a]} -> {dict(net=pin.net, part=pin.part)[b]}" for a, b in WAYS[pin.way]
            }
    assert {board.told(link) for link in board.links} == wanted
    assert from_text(to_text(board), role="board").to_bytes() == board.to_bytes()


def test_damaged(folder: pathlib.Path) -> None:
    """A file that was cut short, or is no netlist, is told in a sentence."""
    for name in ("amplifier.net", "amplifier.sp"):
        data = (ROOT / "samples/import" / name).read_bytes()
        for length in [*range(0, len(data), len(data) // 23), *range(40)]:
            done = run("import", write(f"cut-{name}", data[:length]), "-o", "out.txt")
            assert done.status in (0, 2) and "Traceback" not in done.err and bool(done.err) == (done.status == 2)
            assert done.status == 2 or name.endswith(".sp")


@settings(max_examples=150, deadline=None)
@given(some.text(alphabet="()\"\\ abRQX1\n.;+*'net#", max_size=60), some.sampled_from(["(export ", "(kicad_pcb ", "title\n", ""]))
def test_nonsense(tmp_path_factory: pytest.TempPathFactory, text: str, start: str) -> None:
    """Whatever a file holds, it is read or told, and never a traceback."""
    path = tmp_path_factory.mktemp("nonsense") / "in.net"
    path.write_text(start + text, encoding="utf-8")
    try:
        board_of(read_netlist(str(path))[1], RULES)
    except Faults as faults:
        assert faults.messages


def test_without_sexpdata(folder: pathlib.Path, monkeypatch: pytest.MonkeyPatch) -> None:
    """Where the module is missing, a sentence says what to install."""
    monkeypatch.setitem(sys.modules, "sexpdata", None)
    done = run("import", write("in.net", netlist("N R1 1 passive")), "-o", "board.txt")
    assert done.status == 2 and "apt-get install python3-sexpdata" in done.err


@pytest.mark.skipif(not DEMOS.is_dir(), reason="Debian's kicad-demos is not at hand")
def test_demos(folder: pathlib.Path) -> None:
    """KiCad's demos are read; all but the one that is too large fit; and a stage cut out of one channel is found in the other."""
    boards = sorted(DEMOS.glob("*/*.kicad_pcb"))
    done = {path.stem: run("import", path, "-o", f"{path.stem}.txt") for path in boards}
    assert [name for name, one in done.items() if one.status] == ["video"] and "516 nodes" in done["video"].err
    assert (
        run("take", "complex_hierarchy.txt", "Q4", "--radius", 5, "-o", "stage.txt").out
        == "stage.txt: 24 parts, 41 links, around Q4\n"
    )
    found = run("place", "stage.txt", "complex_hierarchy.txt", "Q8")
    assert found.status == 0 and found.out.startswith("place around Q8: 24 nodes, 41 links\n")
