"""Pictures: those of the samples are current, everything that is found is in them, and nothing else is."""

from __future__ import annotations

import pathlib
import re
import shlex
import subprocess
import xml.etree.ElementTree as ElementTree

import pytest
from hypothesis import given, settings

from conftest import ROOT, run, write
from drawing import circuits
from heronditch import Circuit, from_text, places
from heronditch.pictures import MOST_NODES, draw, pattern_picture, place_picture
from heronditch.pictures.styles import COLOURS, styles

GRAPHVIZ = "2.43.0"  # what laid out the stored pictures
SVG = "{http://www.w3.org/2000/svg}"
LISTED = [shlex.split(line) for line in (ROOT / "samples/pictures.txt").read_text(encoding="utf-8").splitlines()]


def titles(svg: str) -> list[str]:
    """What each node of a picture is, as it is told to who cannot see it."""
    return [one.text or "" for one in ElementTree.fromstring(svg).iterfind(f".//{SVG}g/{SVG}title")]


def words(svg: str) -> list[str]:
    """Every text of a picture, in order of the alphabet."""
    return sorted(one.text or "" for one in ElementTree.fromstring(svg).iter(f"{SVG}text"))


@pytest.mark.parametrize("line", LISTED, ids=lambda line: line[line.index("-o") + 1])
def test_samples_are_current(line: list[str], tmp_path: pathlib.Path, monkeypatch: pytest.MonkeyPatch) -> None:
    """The picture of a sample is what is drawn now, byte for byte by the same graphviz, and by its texts else."""
    stored = (ROOT / "samples" / line[line.index("-o") + 1]).read_text(encoding="utf-8")
    monkeypatch.chdir(ROOT / "samples")
    drawn = [str(tmp_path / "out.svg") if word.endswith(".svg") else word for word in line]
    assert run("draw", *drawn).status == 0
    made = (tmp_path / "out.svg").read_text(encoding="utf-8")
    assert words(made) == words(stored) and titles(made) == titles(stored)
    version = subprocess.run(["dot", "-V"], capture_output=True, text=True, check=True).stderr
    assert made == stored or GRAPHVIZ not in version


def test_every_picture_is_listed() -> None:
    """No picture of the samples is without its line, and every sample has one."""
    listed = {line[line.index("-o") + 1] for line in LISTED}
    assert {str(path.relative_to(ROOT / "samples")) for path in (ROOT / "samples").rglob("*.svg")} == listed
    assert {name.split("/")[0] for name in listed} == {path.name for path in (ROOT / "samples").iterdir() if path.is_dir()}


def test_place_has_what_was_found(tmp_path: pathlib.Path) -> None:
    """The picture of a place has its nodes with their parts and distances, and the ring around it."""
    out = tmp_path / "out.svg"
    assert run("draw", "samples/mute/pattern.txt", "samples/mute/board.txt", "Q3", "-o", out).status == 0
    told = titles(out.read_text(encoding="utf-8"))
    assert "Q3, npn, plays Q, 0 from Q3" in told and "P2, pin, plays pin, 4 from Q3" in told
    assert sorted(one for one in told if "not in" in one) == ["J3, jack, not in the place", "amp.S, audio, not in the place"]
    assert len(told) == 14


def arrow_heads(svg: str) -> int:
    """How many arrow heads a picture has: a link has one, and two that go opposite ways one at each end."""
    return len(
        [
            one
            for one in ElementTree.fromstring(svg).iter(f"{SVG}polygon")
            if len(one.get("points", "").split()) in (3, 4) and one.get("stroke-width") is None
        ]
    )


@settings(max_examples=12, deadline=None)
@given(circuits(most=6))
def test_patterns_are_drawn_whole(pattern: Circuit) -> None:
    """Every part and every link of a pattern is in its picture, and the picture is the same again."""
    svg = draw(pattern_picture(pattern, "any <&> title"))
    assert len(titles(svg)) == len(pattern.names) and arrow_heads(svg) == len(pattern.links)
    assert svg == draw(pattern_picture(pattern, "any <&> title"))
    assert not re.search(r"\bid=|<style|<script|20\d\d-", svg)


def star(leaves: int) -> Circuit:
    """A board of a pair of nodes, and of leaves around its second."""
    lines = ["node a 1", "node b 2", "a -> b", *(f"node leaf{leaf} 3\nb -> leaf{leaf}" for leaf in range(leaves))]
    return from_text("\n".join(lines))


def test_a_crowd_is_counted() -> None:
    """Of many nodes around one, the first are drawn and the rest counted."""
    pair = from_text("node x 1\nnode y 2\nx -> y")
    told = titles(draw(place_picture(places(pair, star(30)), "a crowd")))
    assert [one for one in told if "leaf" in one] == [f"leaf{leaf}, kind 3, not in the place" for leaf in range(3)]
    assert "27 more nodes" in told


def test_too_large_a_place_is_told(folder: pathlib.Path) -> None:
    """A place that would be a hairball is told with its size, and no file is written."""
    write("pattern.txt", "node x 2\nnode y 3\nx -> y")
    lines = ["node b 2", *(f"node leaf{leaf} 3\nb -> leaf{leaf}" for leaf in range(MOST_NODES))]
    write("board.txt", "\n".join(lines))
    done = run("draw", "pattern.txt", "board.txt", "-o", "out.svg")
    assert done.status == 2 and f"{MOST_NODES + 1} nodes, and a picture of more than {MOST_NODES}" in done.err
    assert not pathlib.Path("out.svg").exists()


def test_without_graphviz(folder: pathlib.Path, monkeypatch: pytest.MonkeyPatch) -> None:
    """Where graphviz is missing, a sentence says what to install."""
    monkeypatch.setenv("PATH", str(folder))
    done = run("draw", ROOT / "samples/mute/pattern.txt", "-o", "out.svg")
    assert done.status == 2 and "apt-get install graphviz" in done.err and "Traceback" not in done.err


def luminance(colour: str) -> float:
    """The relative luminance of a colour, as WCAG has it."""
    parts = [int(colour[at : at + 2], 16) / 255 for at in (1, 3, 5)]
    red, green, blue = (part / 12.92 if part <= 0.03928 else ((part + 0.055) / 1.055) ** 2.4 for part in parts)
    return 0.2126 * red + 0.7152 * green + 0.0722 * blue


def test_kinds_look_different() -> None:
    """Fifty-six kinds look different, and text can be read on each: contrast 4.5 and more."""
    looks = [style for kind, style in styles(range(57)).items() if kind]
    assert len(set(looks)) == 56 and len(COLOURS) == 7
    for style in looks:
        light, dark = sorted((luminance(style.fill), luminance(style.ink)), reverse=True)
        assert (light + 0.05) / (dark + 0.05) >= 4.5, style
