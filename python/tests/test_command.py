"""Every subcommand on every sample: what it prints is what is stored in expected/, and files that it writes are those of the samples.

HERONDITCH_STORE=1 stores what is printed now; look at what changed before it is kept."""

from __future__ import annotations

import json
import os
import pathlib
import shlex

import pytest
from hypothesis import given
from hypothesis import strategies as st

from conftest import ROOT, run
from drawing import boards
from heronditch import Circuit
from heronditch.command import MODULES, subcommands
from heronditch.command.telling import WIDTH, chains, filled
from heronditch.text import drawn_links

EXPECTED = pathlib.Path(__file__).with_name("expected")


def on(
    sample: str, found: str, none: str, cuts: str, pattern: str = "pattern.txt", board: str = "board.txt"
) -> list[tuple[str, str]]:
    """The runs on a sample: every subcommand that takes its pattern and its board, a node with a place, one without, and cuts."""
    one, other = f"samples/{sample}/{pattern}", f"samples/{sample}/{board}"
    both = f"{one} {other}"
    return [
        (f"find {both}", ""),
        (f"find --lines {both}", ""),
        (f"find --json {both}", ""),
        (f"find --without-packages --without-bounds {both}", ""),
        (f"place {both} {found}", ""),
        (f"place --radius 1 {both} {found}", ""),
        (f"place {both} {none}", ""),
        (f"match {both}", ""),
        (f"match --one-way {both}", ""),
        (f"why {both} {found}", ""),
        (f"why {both} {none}", ""),
        (f"why --json {both} {none}", ""),
        (f"check {both} {found}", f"{found}\n"),
        (f"cut {both}", cuts),
        (f"cut --json {both}", cuts),
        (f"merge {one}", ""),
        (f"order {one} {other} {one}", ""),
        (f"show {one}", ""),
        (f"convert --as pattern --edition second {one} out.cir", ""),
        ("show out.cir", ""),
        (f"make {one.replace('.cir', '.txt')} made.cir", ""),
    ]


RUNS = {
    "mute": [
        *on("mute", "Q3", "Q5", "Q3 -> out.S\nQ1 -> out.L\n# nothing\nQ1 -> out.L\nnonsense\nC1 <-> line.L\n400\n0\n"),
        (
            "check samples/mute/pattern.txt samples/mute/board.txt Q1",
            "P1 -> mute <-> R2 <-> base.L -> Q1 -> out.L <-> R1 <-> line.L <-> C1",
        ),
        ("find samples/mute/pattern.cir samples/mute/board.txt", ""),
        ("find --board-names samples/mute/board.txt samples/mute/pattern.txt samples/mute/board.cir", ""),
        ("tell samples/mute/board.txt samples/mute/report.txt", ""),
        ("tell --distance samples/mute/board.txt samples/mute/report.txt", ""),
    ],
    "any": on("any", "X1", "U4", "U1 -> amp.M\nR1 <-> out.M\n"),
    "rail": on("rail", "REG1", "ext", "V -> C\n+12V -> C1\n"),
    "packages": [*on("packages", "Q1", "Q3", "0\n1\n2\n"), ("find samples/packages/pattern.cir samples/packages/board2.cir", "")],
    "stereo": [*on("stereo", "U1A", "J1", "R1 <-> mid.L\n"), ("match samples/stereo/pattern.txt samples/stereo/mono.txt", "")],
    "coupling": [
        *on("coupling", "Q1", "Q3", "in.1 -> Q1\n"),
        ("place --without-bounds samples/coupling/pattern.txt samples/coupling/board.txt Q1", ""),
        ("why --without-bounds samples/coupling/pattern.txt samples/coupling/board.txt Q3", ""),
        ("match samples/coupling/pattern3.cir samples/coupling/board.cir", ""),
    ],
    "worked": on("worked", "1", "3", "2\n1\n1\n3\n0\n", "pattern.cir", "board.cir")[:-1],
    "bench": on("bench", "Q1", "J1", "Q1 -> out.L\n", "stage.txt", "board.txt"),
    "shelf": [
        ("shelf samples/shelf", ""),
        ("shelf --lines samples/shelf", ""),
        ("shelf --json samples/shelf", ""),
        ("order samples/shelf/stage.txt samples/shelf/p00.cir samples/shelf/p04.cir samples/shelf/follower.txt", ""),
        ("order --json samples/shelf/p04.cir samples/shelf/stage.txt", ""),
        ("order samples/shelf/stage.txt samples/shelf/bits.txt", ""),
        ("merge samples/shelf/wires.txt -o merged.txt", ""),
        ("show merged.txt", ""),
    ],
    "pictures": [
        ("draw samples/mute/pattern.txt -o pattern.svg", ""),
        ("draw samples/mute/pattern.txt samples/mute/board.txt -o places.svg", ""),
        ("draw samples/mute/pattern.txt samples/mute/board.txt Q3 -o place.svg --title Q3", ""),
        ("draw --json samples/mute/pattern.txt samples/mute/board.txt Q3 -o place.svg", ""),
        ("draw samples/mute/pattern.txt samples/mute/board.txt Q5 -o none.svg", ""),
        ("draw samples/mute/pattern.txt samples/mute/board.txt Q3 -o samples/mute/board.txt", ""),
        ("draw samples/stereo/pattern.txt samples/stereo/board.txt -o none.svg", ""),
        ("page samples/mute/pattern.txt samples/mute/board.txt -o page.html", ""),
        ("page --json samples/worked/pattern.cir samples/worked/board.cir -o page.html", ""),
        ("page samples/mute/pattern.txt samples/any/board.txt -o none.html", ""),
        ("page samples/mute/pattern.txt samples/mute/board.txt -o samples/mute/pattern.txt", ""),
    ],
    "import": [
        ("import samples/import/amplifier.net -o board.txt", ""),
        ("import --without-packages --leave-out 'R?7' samples/import/amplifier.net -o board.txt", ""),
        ("import samples/import/amplifier.sp -o board.txt", ""),
        ("show board.txt", ""),
        ("import samples/import/amplifier.sp -o board.cir", ""),
        ("import samples/import/README.md -o board.txt", ""),
        ("import samples/import/missing.net -o board.txt", ""),
    ],
    "take": [
        ("take samples/mute/board.txt Q3 --radius 2 -o taken.txt", ""),
        ("show taken.txt", ""),
        ("find taken.txt samples/mute/board.txt", ""),
        ("take samples/mute/board.txt mute --radius 7 -o much.txt", ""),
        ("take samples/mute/board.txt mute --radius 30 --leave-out R2 --leave-out R4 -o part.txt", ""),
        ("take --json samples/any/board.txt X1 --radius 1 -o any.txt", ""),
        ("take samples/mute/board.txt Q3 --radius 2 -o taken.cir", ""),
        ("take samples/mute/board.txt Q3 --radius -1 -o taken.txt", ""),
        ("take samples/mute/board.txt Q33 --radius 1 -o taken.txt", ""),
        ("take samples/mute/board.txt Q3 --radius 1 --leave-out Q3 -o taken.txt", ""),
    ],
    "test-board": [
        ("test-board 1 5 5 3", ""),
        ("test-board 1 5 5 3 -o board.cir", ""),
        ("show --json board.cir", ""),
        ("test-board 1 0 5 3", ""),
        ("test-board one 0 5 3", ""),
    ],
    "batch": [
        ("batch --patterns samples/mute/pattern.txt samples/shelf --boards samples/mute/board.txt samples/any --summary", ""),
        ("batch --patterns samples/mute/pattern.cir --boards - --summary", "samples/any/board.cir\nsamples/worked/board.cir\n"),
        (
            "batch --patterns samples/any/pattern.cir samples/coupling/pattern.txt samples/coupling/pattern3.cir --boards samples/mute samples/mute/report.txt samples/absent.cir --resume out.jsonl --summary",
            "",
        ),
        ("verify out.jsonl", ""),
        ("batch --patterns samples/absent --boards samples/mute/board.cir -o other.jsonl --shard 9/8", ""),
        ("verify samples/mute/report.txt", ""),
    ],
}


def transcript(runs: list[tuple[str, str]]) -> str:
    """What runs of the command print: each after its command line, standard error after '! ', and the status."""
    lines = []
    for words, given in runs:
        done = run(*shlex.split(words), given=given)
        lines += [f"$ heronditch {words}", *(f"< {line}" for line in given.splitlines())]
        lines += [*done.out.splitlines(), *(f"! {line}" for line in done.err.splitlines()), f"[{done.status}]", ""]
    return "\n".join(lines)


@pytest.mark.parametrize("name", list(RUNS))
def test_stored(folder: pathlib.Path, name: str, monkeypatch: pytest.MonkeyPatch) -> None:
    """What is printed is what is stored."""
    monkeypatch.setenv("COLUMNS", "100")
    os.symlink(ROOT / "samples", "samples")
    seen = transcript(RUNS[name])
    path = EXPECTED / f"{name}.txt"
    if os.environ.get("HERONDITCH_STORE"):
        path.write_text(seen, encoding="utf-8")
    assert seen.splitlines() == path.read_text(encoding="utf-8").splitlines()
    assert "Traceback" not in seen


def test_every_subcommand_is_tried() -> None:
    """No subcommand is without a stored run."""
    tried = {words.split()[0] for runs in RUNS.values() for words, _ in runs}
    assert tried == set(MODULES) == {one.name for one in subcommands([])}


def test_lines_are_the_reports() -> None:
    """--lines gives the stored reports, byte for byte; status as grep has it."""
    for name in ("mute", "any", "rail", "worked", "packages", "coupling"):
        done = run("find", "--lines", f"samples/{name}/pattern.cir", f"samples/{name}/board.cir")
        assert done == (0, (ROOT / f"samples/{name}/report.txt").read_text(), "")
    assert run("shelf", "--lines", "samples/shelf").out == (ROOT / "samples/shelf/shelf.txt").read_text()


def test_matches_are_those_of_c() -> None:
    """The tables that the C programs print on the samples, by the names of the texts."""
    for name, more, stored in (("packages", [], "matched"), ("coupling", [], "matched")):
        done = run("match", "--json", f"samples/{name}/pattern.txt", f"samples/{name}/board.txt", *more)
        parts = json.loads(done.out)["parts"]
        board = [
            line.split()[1] for line in (ROOT / f"samples/{name}/board.txt").read_text().splitlines() if line.startswith("node ")
        ]
        lines = [line.split(": ")[1].split() for line in (ROOT / f"samples/{name}/{stored}.txt").read_text().splitlines()]
        assert list(parts.values()) == [[board[int(node)] for node in line] for line in lines]


MADE = [
    ("mute/pattern", "mute/pattern", "pattern", []),
    ("mute/board", "mute/board", "board", []),
    ("any/pattern", "any/pattern", "pattern", []),
    ("any/board", "any/board", "board", []),
    ("rail/pattern", "rail/pattern", "pattern", []),
    ("rail/board", "rail/board", "board", []),
    ("stereo/pattern", "stereo/pattern", "bits", []),
    ("stereo/board", "stereo/board", "board", []),
    ("stereo/mono", "stereo/mono", "board", []),
    ("packages/pattern", "packages/pattern", "pattern", ["--without-packages"]),
    ("packages/board", "packages/board", "board", ["--without-packages"]),
    ("packages/pattern", "packages/pattern2", "pattern", []),
    ("packages/board", "packages/board2", "board", []),
    ("coupling/pattern", "coupling/pattern", "pattern", ["--without-bounds"]),
    ("coupling/pattern", "coupling/pattern3", "pattern", []),
    ("coupling/board", "coupling/board", "board", []),
    ("shelf/wires", "shelf/p00", "pattern", ["--edition", "second"]),
    ("shelf/stage", "shelf/p01", "pattern", ["--edition", "second"]),
    ("shelf/bits", "shelf/p02", "bits", ["--edition", "second"]),
    ("shelf/follower", "shelf/p03", "pattern", ["--edition", "second"]),
    ("shelf/stage", "shelf/p04", "pattern", ["--edition", "second"]),
]


@pytest.mark.parametrize("text, file, role, more", MADE)
def test_samples_are_made(tmp_path: pathlib.Path, text: str, file: str, role: str, more: list[str]) -> None:
    """The files of the samples come from their texts."""
    assert run("make", "--as", role, *more, f"samples/{text}.txt", tmp_path / "out.cir").status == 0
    assert (tmp_path / "out.cir").read_bytes() == (ROOT / f"samples/{file}.cir").read_bytes()


def test_every_file_of_the_samples_is_made() -> None:
    """No circuit file of the samples is without a text, but T and B, whose bytes the papers have."""
    have = {str(path.relative_to(ROOT / "samples").with_suffix("")) for path in ROOT.glob("samples/*/*.cir")}
    assert have - {"worked/pattern", "worked/board"} == {file for _, file, _, _ in MADE}


def test_editions_there_and_back(tmp_path: pathlib.Path) -> None:
    """A file converted to the second edition and back is the same bytes; one with packages has none of the first."""
    one, two, back = (str(tmp_path / name) for name in ("one.cir", "two.cir", "back.cir"))
    for role in ("pattern", "board"):
        first = (ROOT / f"samples/packages/{role}.cir").read_bytes()
        pathlib.Path(one).write_bytes(first)
        assert run("convert", "--as", role, one, two).status == run("convert", "--as", role, two, back).status == 0
        assert pathlib.Path(back).read_bytes() == first and len(pathlib.Path(two).read_bytes()) == len(first) + 2 * first[0]
        done = run("convert", "--as", role, f"samples/packages/{role}2.cir", back)
        assert done.status == 2 and "refused 12" in done.err


def test_help() -> None:
    """Every subcommand has help with an example that runs."""
    assert run("--help").status == 0 and run().status == 2 and run("nonsense").status == 2
    assert run("--version").out.startswith("heronditch 3")
    for one in subcommands([]):
        done = run(one.name, "--help")
        assert done.status == 0 and one.example in done.out and "--json" in done.out
        assert run(one.name).status == 2


def test_examples_of_the_help(folder: pathlib.Path) -> None:
    """The examples of the help give status 0."""
    os.symlink(ROOT / "samples", "samples")
    for one in subcommands([]):
        for line in one.example.splitlines():
            given, _, words = (
                line.rpartition("| heronditch ") if "|" in line else ("", "", line.strip().removeprefix("heronditch "))
            )
            text = shlex.split(given)[1] + "\n" if given else ""
            assert run(*shlex.split(words), given=text).status == 0, line


def test_json_everywhere(folder: pathlib.Path) -> None:
    """With --json every answer is an object a line, and so is every trouble."""
    os.symlink(ROOT / "samples", "samples")
    for runs in RUNS.values():
        for words, given in runs:
            done = run(*shlex.split(words), "--json", given=given)
            answers = [json.loads(line) for line in done.out.splitlines()]
            assert answers or "usage:" in done.err
            assert any("trouble" in answer for answer in answers) == (done.status == 2) or "usage:" in done.err


def test_large_places(folder: pathlib.Path) -> None:
    """Of a place with more links than a pattern can have they are counted, and printed where asked."""
    nodes = "".join(f"node n{number} 1\n" for number in range(30))
    links = "".join(f"n{start} -> n{end}\n" for start in range(30) for end in range(9))
    pathlib.Path("board.txt").write_text(nodes + links)
    pathlib.Path("pattern.txt").write_text("node a 1\nnode b 1\na -> b\n")
    short, whole = run("find", "pattern.txt", "board.txt"), run("find", "--links", "pattern.txt", "board.txt")
    assert short.status == whole.status == 0
    assert "(270 links; --links prints them)" in short.out and "--links" not in whole.out


@given(boards())
def test_chains(board: Circuit) -> None:
    """The chains in which links are told have each of them once, and read as a text they are those links."""
    told = [link for words in chains(board, board.links) for link in drawn_links(words)]
    assert sorted((board.number(link.start), board.number(link.end)) for link in told) == list(board.links)


@given(st.lists(st.text("ab", min_size=1, max_size=130), max_size=40), st.integers(0, 20))
def test_filled(words: list[str], indent: int) -> None:
    """Words are put into lines in their order, as many on each as there is room for."""
    lines = filled(words, "x" * indent + ":", " " * indent)
    assert " ".join(" ".join(lines).split()) == " ".join(["x" * indent + ":" + "".join(words[:1]), *words[1:]])
    assert all(len(line) <= WIDTH or len(line.split()) == 1 for line in lines)
    assert all(len(line) + 1 + len(after.split()[0]) > WIDTH for line, after in zip(lines, lines[1:]))


def test_many_names_in_a_note(folder: pathlib.Path) -> None:
    """Of many parts the first are told, and how many more there are."""
    pathlib.Path("pattern.txt").write_text(
        "".join(f"node n{n} 7\n" for n in range(12)) + " -> ".join(f"n{n}" for n in range(12)) + "\n"
    )
    pathlib.Path("board.txt").write_text("node a 1\n")
    assert "(parts 'n0', 'n1', 'n2', 'n3', 'n4', 'n5' and 6 more)" in run("find", "pattern.txt", "board.txt").err


def test_a_shelf_of_other_editions(folder: pathlib.Path) -> None:
    """A first-edition file and a short one are passed over, and it is told why; the shelf ends with the first that is absent."""
    second = (ROOT / "samples/shelf/p01.cir").read_bytes()
    files = [second, (ROOT / "samples/worked/pattern.cir").read_bytes(), b"", second]
    for number, data in enumerate(files):
        pathlib.Path(f"p{number:02}.cir").write_bytes(data)
    pathlib.Path("p05.cir").write_bytes(second)
    done = run("shelf", ".")
    assert done.status == 0 and done.out == "p00.cir\np03.cir  the same circuit as p00.cir\n"
    assert "p01.cir is passed over: refused 3 pattern: it is of another edition" in done.err
    assert "p02.cir is passed over: refused 1 pattern" in done.err
