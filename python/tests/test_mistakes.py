"""The mistakes of a bench: each is told in a sentence, and none passes for an answer."""

from __future__ import annotations

import json
import os
import pathlib

import pytest

from conftest import ROOT, Done, run, write
from heronditch import Circuit, bindings

T = "kind net 10\nkind npn 20\nkind out 30\nnode a net\nnode b npn\nnode c out\na -> b -> c\n"
B = T.replace("node a", "node p").replace("node b", "node q").replace("node c", "node r").replace("a -> b -> c", "p -> q -> r")


@pytest.fixture(autouse=True)
def files(folder: pathlib.Path) -> None:
    """A pattern, a board, their files, and the board's report."""
    write("pattern.txt", T)
    write("board.txt", B)
    assert run("make", "pattern.txt", "pattern.cir").status == run("make", "board.txt", "board.cir").status == 0
    done = run("find", "--lines", "pattern.cir", "board.cir")
    write("report.txt", done.out)
    assert done.status == 0 and run("tell", "board.txt", "report.txt").status == 0


def troubled(done: Done, *words: str) -> None:
    """Demands status 2, no answer, and a sentence that has these words."""
    assert (done.status, done.out) == (2, "") and "Traceback" not in done.err
    for word in words:
        assert word in done.err, done.err


def test_a_report_on_a_changed_text() -> None:
    """A node line added since the report was made: names would be shifted."""
    write("board.txt", "node new 1\n" + B)
    troubled(run("tell", "board.txt", "report.txt"), "not a report on this board, which has 4 nodes: end 3 of 3")


def test_a_report_on_another_board() -> None:
    """Another board with as many nodes has other links."""
    write("board.txt", B.replace("p -> q -> r", "p -> r -> q"))
    troubled(run("tell", "board.txt", "report.txt"), "which has no link 0-1")


def test_reports_that_are_none() -> None:
    """A report that is cut short, counts wrongly, or is none."""
    whole = pathlib.Path("report.txt").read_text()
    for text in (
        "",
        whole.splitlines(True)[0],
        whole.replace("end 3", "end 2"),
        whole.replace("/", "|"),
        whole.replace("2 /", "7 /"),
        "x\n" + whole,
    ):
        troubled(run("tell", "board.txt", given=text), "not a")
    assert run("tell", "board.txt", given="refused 3 board\n") == (1, "refused 3 board\n", "")


def test_a_text_changed_since_make() -> None:
    """A file told by a text's names has to be what the text makes, byte by byte."""
    words = ("find", "--board-names", "board.txt", "pattern.txt", "board.cir")
    assert run(*words).status == 0
    for text, what in (
        (B + "node new 1\n", "the file has 3 nodes, and the text 4"),
        (B.replace("npn 20", "npn 21"), "node 1 has kind 20, and 'q' of the text 21"),
        (B.replace("q -> r", "q <- r"), "the file has the link 1-2 where the text has 'r -> q'"),
        (B + "r -> p\n", "the file has 2 links, and the text 3"),
        (B.replace("node p net", "node p net 7"), "they differ in packages or bounds"),
    ):
        write("board.txt", text)
        troubled(run(*words), "board.cir is not what board.txt makes", what, "heronditch make board.txt board.cir")
        troubled(run("tell", "--board-names", "board.txt", "board.cir", "report.txt"), what)


def test_names_of_a_file_without_packages() -> None:
    """A first-edition file made without packages takes the names of its text where they are left out."""
    write("board.txt", B.replace("node p net", "node p net 7"))
    words = ("find", "--board-names", "board.txt", "pattern.txt", "board.cir")
    troubled(run(*words), "they differ in packages")
    assert run(*words, "--without-packages").status == 0


def test_one_name_with_two_numbers() -> None:
    """kind npn 20 in the pattern and 21 on the board: no answer at all."""
    write("board.txt", B.replace("npn 20", "npn 21"))
    for words in (["find"], ["match"], ["place"], ["why"], ["cut"]):
        node = ["q"] if words[0] in ("place", "why") else []
        told = "kind 'npn' is 20 in pattern.txt and 21 in board.txt: one name has one number"
        troubled(run(*words, "pattern.txt", "board.txt", *node), told, "'use'")
    write("pattern.txt", "package SOT-23 3\n" + T)
    write("board.txt", "package SOT-23 4\n" + B)
    troubled(run("find", "pattern.txt", "board.txt"), "package 'SOT-23' is 3 in pattern.txt and 4 in board.txt")


def test_a_shared_register() -> None:
    """With 'use' in both texts a name has one number."""
    lines = T.splitlines(True)
    write("kinds.txt", "".join(lines[:3]))
    write("pattern.txt", "use kinds.txt\n" + "".join(lines[3:]))
    write("board.txt", "use kinds.txt\n" + "".join(B.splitlines(True)[3:]))
    assert run("find", "pattern.txt", "board.txt").status == 0


def test_one_number_with_two_names() -> None:
    """Kind 20 is 'npn' in the pattern and 'relay' on the board: told, since they count as one."""
    write("board.txt", B.replace("npn", "relay"))
    done = run("find", "pattern.txt", "board.txt")
    assert done.status == 0 and "kind 20 is 'npn' in the pattern and 'relay' on the board" in done.err


def test_a_kind_that_the_board_has_not() -> None:
    """'None' was certain before looking."""
    write("pattern.txt", T.replace("npn 20", "pnp 21").replace("node b npn", "node b pnp"))
    for words in (["find"], ["match"], ["place"], ["cut"], ["find", "--lines"]):
        done = run(*words, "pattern.txt", "board.txt", *(["q"] if words[0] == "place" else []))
        assert done.status == 1 and "no node of the board is of kind 21, 'pnp', which the pattern asks for (part 'b')" in done.err
    notes = json.loads(run("find", "--json", "pattern.txt", "board.txt").out)["notes"]
    assert len(notes) == 1 and "'none' was certain before looking" in notes[0]


def test_packages_alone() -> None:
    """A pattern that matches nowhere because of packages alone."""
    write("pattern.txt", "package SOT-23 3\n" + T.replace("node b npn", "node b npn SOT-23"))
    for words in (["find"], ["match"], ["place"], ["cut"]):
        done = run(*words, "pattern.txt", "board.txt", *(["q"] if words[0] == "place" else []))
        assert done.status == 1 and "only the packages stand in the way" in done.err
        assert "part 'b' is in package SOT-23, and such nodes of the board in 0" in done.err
    assert run("find", "--without-packages", "pattern.txt", "board.txt").status == 0


def test_folders_and_absent_files() -> None:
    """A folder is no circuit, and an absent file no empty one."""
    os.mkdir("shop")
    troubled(run("find", "shop", "board.txt"), "shop: Is a directory; give a circuit in it by its name")
    troubled(run("find", "pattern.txt", "none.cir"), "none.cir: No such file or directory")
    troubled(run("shelf", "none"), "none: No such file or directory")
    troubled(run("shelf", "board.txt"), "board.txt: Not a directory")
    assert run("shelf", "shop") == (1, "", "")
    assert run("find", "--nonsense", "pattern.txt", "board.txt").status == 2
    assert run("find", "pattern.txt").status == 2


def test_texts_and_files_mistaken() -> None:
    """A text under a file's name, and a file under a text's."""
    os.rename("board.txt", "text.cir")
    os.rename("board.cir", "file.txt")
    troubled(run("find", "pattern.txt", "text.cir"), "text.cir: a text, and no circuit file; give it a name that ends in .txt")
    troubled(run("find", "pattern.txt", "file.txt"), "file.txt: not a text; a circuit file has a name that ends in .cir")
    write("wide.txt", B.encode("utf-16"))
    for words in (["find", "pattern.txt", "wide.txt"], ["make", "wide.txt", "wide.cir"]):
        troubled(run(*words), "wide.txt: a UTF-16 text; save it as UTF-8")
    os.rename("text.cir", "text")
    os.rename("file.txt", "file")
    assert run("find", "pattern.txt", "text").status == run("find", "pattern.txt", "file").status == 0


def test_another_edition() -> None:
    """A file's edition is seen from its length."""
    for edition in ("second", "third"):
        assert run("convert", "--edition", edition, "--as", "pattern", "pattern.cir", "other.cir").status == 0
        status = run("find", "other.cir", "board.cir").status
        assert status == (0 if edition == "second" else 2)
        assert run("match", "other.cir", "board.cir").status == 0
    troubled(run("find", "pattern.cir", "other.cir"), "other.cir: refused 3 board", "third edition, which is for patterns")


def test_nothing_is_written_over() -> None:
    """What is read is never written over, unless asked."""
    before = {name: pathlib.Path(name).read_bytes() for name in ("pattern.txt", "pattern.cir")}
    os.link("pattern.txt", "same.cir")
    troubled(run("make", "pattern.txt", "pattern.txt"), "make writes a circuit file")
    troubled(run("make", "pattern.txt", "same.cir"), "same.cir: this would be written over what is read", "--force")
    troubled(run("convert", "pattern.cir", "./pattern.cir"), "written over what is read")
    troubled(run("merge", "pattern.cir", "-o", "pattern.cir"), "written over what is read")
    assert all(pathlib.Path(name).read_bytes() == data for name, data in before.items())
    assert run("convert", "--force", "pattern.cir", "pattern.cir").status == 0
    assert Circuit.from_bytes(pathlib.Path("pattern.cir").read_bytes()).edition == 2


def test_names_that_are_none() -> None:
    """A node that is not there, by name and by number, and links of what is proposed."""
    troubled(run("why", "pattern.txt", "board.txt", "Q"), "no node is named 'Q'")
    troubled(run("place", "pattern.cir", "board.cir", "3"), "refused 7: there is no node 3: the 3 nodes are numbered from 0")
    troubled(run("place", "--radius", "-1", "pattern.cir", "board.cir", "0"), "-1 is no radius")
    troubled(
        run("check", "pattern.txt", "board.txt", "p", given="p -> r\nx\np ->\n"),
        "line 2 of what is proposed: no node is named 'x'",
        "line 3",
    )
    troubled(run("check", "pattern.txt", "board.txt", "p", given="p -> r\n"), "the board has no link 'p -> r'")
    assert run("check", "pattern.txt", "board.txt", "p", given="p q r\np -> q -> r\n") == (0, "yes\n", "")
    assert run("check", "pattern.txt", "board.txt", "p", given="p q r\np -> q\n") == (1, "no\n", "")


def test_cuts_that_are_none() -> None:
    """A line that is no cut is told and stops nothing; the status tells of it."""
    done = run("cut", "pattern.txt", "board.txt", given="nonsense\n9\np -> r\nq -> p\n\n# note\np -> q\np -> q\n")
    assert done.status == 2 and done.out.count("cut p -> q") == 1
    for words in (
        "'nonsense' is no cut",
        "none at place 9",
        "has no link 'p -> r'",
        "has no link 'q -> p'",
        "'p -> q' is out already",
    ):
        assert words in done.err
    assert run("cut", "pattern.txt", "board.txt", given="0\n").status == 1
    assert run("cut", "pattern.txt", "board.txt").status == 0


BUGS = {
    "check": lambda *_: False,
    "place": lambda *_: (bindings.Counts(0, 0, 0, 0), None),
    "match": lambda *_: (bindings.Counts(0, 0, 0, 0), [0, 0, 0]),
    "report": lambda *_: b"place 0: 0 1 2 / 0-1\nend 1 of 3\n",
}


@pytest.mark.parametrize("call", list(BUGS))
def test_a_bug_is_told(call: str, monkeypatch: pytest.MonkeyPatch) -> None:
    """Where two answers differ, that is told as a bug, and there is no answer."""
    monkeypatch.setattr(bindings, call, BUGS[call])
    for words in (["find"], ["find", "--lines"]):
        troubled(run(*words, "pattern.txt", "board.txt"), "This is a bug in heronditch: do not trust the answer")


def test_reports_that_end_wrongly(monkeypatch: pytest.MonkeyPatch) -> None:
    """A report whose last line does not count its places."""
    for data in (
        b"",
        b"end 1 of 3\n",
        b"end 0 of 2\n",
        b"end 0 of 3",
        b"end 0 of 3\nx",
        b"x\nend 1 of 3\n",
        b"place 3: 0 /\nend 1 of 3\n",
    ):
        monkeypatch.setattr(bindings, "report", lambda *_, data=data: data)
        troubled(run("find", "pattern.txt", "board.txt"), "This is a bug in heronditch")


def test_a_place_that_is_none(monkeypatch: pytest.MonkeyPatch) -> None:
    """A place around one node is asked of the check, too."""
    monkeypatch.setattr(bindings, "check", lambda *_: False)
    troubled(run("place", "pattern.txt", "board.txt", "p"), "is none by heronditch_check", "This is a bug")


def test_a_reason_for_a_place(monkeypatch: pytest.MonkeyPatch) -> None:
    """What stands in the way of a place that is there, and nothing in the way of one that is not."""
    monkeypatch.setattr(bindings, "bar", lambda *_: bytes(2))
    troubled(run("why", "pattern.txt", "board.txt", "p"), "differ on whether 'p' has a place", "This is a bug")
    write("board.txt", B.replace("p -> q -> r", "p -> q"))
    monkeypatch.setattr(bindings, "bar", lambda *_: None)
    troubled(run("why", "pattern.txt", "board.txt", "p"), "differ on whether 'p' has a place", "This is a bug")


def test_files_of_another_place(monkeypatch: pytest.MonkeyPatch) -> None:
    """Names of files are told as they were given, from whichever folder."""
    monkeypatch.chdir(ROOT)
    assert run("find", "samples/mute/pattern.txt", "samples/mute/board.txt").status == 0


def test_names_that_begin_with_a_hyphen() -> None:
    """A net called '-12V' is a node like any other."""
    write("board.txt", B.replace("node p", "node -12V").replace("p -> q", "-12V -> q"))
    for words in (["why"], ["place", "--radius", "2"], ["place", "--json"]):
        assert run(*words, "pattern.txt", "board.txt", "-12V").status == (1 if words == ["why"] else 0)
    assert run("why", "pattern.txt", "board.txt", "--", "-12V").out == "-12V has a place\n"
    assert run("why", "pattern.txt", "board.txt", "--nonsense").status == 2
    assert run("check", "pattern.txt", "board.txt", "-12V", given="-12V -> q -> r\n").status == 0


def test_lines_that_differ(monkeypatch: pytest.MonkeyPatch) -> None:
    """The lines of --lines are those that the places come to."""
    monkeypatch.setattr("heronditch.command.find.report_of", lambda *_: b"end 0 of 3\n")
    assert run("find", "pattern.txt", "board.txt").status == 0
    troubled(
        run("find", "--lines", "pattern.txt", "board.txt"), "the places found and the lines of the report differ", "This is a bug"
    )


def test_a_report_of_nodes_apart() -> None:
    """By distance, a place whose nodes no path joins to its centre is none of this board."""
    troubled(
        run("tell", "--distance", "board.txt", given="place 0: 0 1 /\nend 1 of 2\n"),
        "not a report on this board, which has 3 nodes",
    )
    write("board.txt", B.replace("p -> q -> r", "p -> q"))
    troubled(
        run("tell", "--distance", "board.txt", given="place 0: 0 2 /\nend 1 of 3\n"), "no path joins a node of the place to 'p'"
    )


def test_the_way_to_mend_it_is_there() -> None:
    """What is told to a person who loses a bound or a package names the file, and an option that is there."""
    write("bounded.txt", T.replace("b -> c", "b -> c within 2"))
    write("packed.txt", T.replace("node a net", "node a net 7"))
    told = "bounded.txt: the link 'b -> c' has bound 2", "heronditch make --without-bounds"
    troubled(run("convert", "--edition", "second", "bounded.txt", "out.cir"), *told)
    done = run("order", "bounded.txt", "pattern.txt")
    assert done.status == 2 and done.out == "pattern.txt\n" and all(words in done.err for words in told)
    troubled(run("convert", "--edition", "first", "packed.txt", "out.cir"), "refused 12", "heronditch make --without-packages")
    for text, option in (("bounded.txt", "--without-bounds"), ("packed.txt", "--without-packages")):
        assert run("make", option, "--edition", "first", text, "out.cir").status == 0
