"""The page of a search, in a browser: it loads without a message, every place is reached by keyboard, it says what `find --json` says, and
prints on A4."""

from __future__ import annotations

import base64
import hashlib
import json
import pathlib
import re
import subprocess
from typing import Any, Iterator

import pytest
from selenium.webdriver import Chrome
from selenium.webdriver.chrome.options import Options
from selenium.webdriver.chrome.service import Service
from selenium.webdriver.common.keys import Keys

from conftest import ROOT, run, write

MUTE = ("samples/mute/pattern.txt", "samples/mute/board.txt")
READ = """
const texts = nodes => [...nodes].map(node => node.textContent);
return [...document.querySelectorAll('section[id^=place-]')].map(place => ({
    place: Number(place.id.slice(6)),
    heading: place.querySelector('h3').textContent,
    centres: texts(place.querySelectorAll('.centres .name')),
    parts: Object.fromEntries([...place.querySelectorAll('tbody tr')].map(
        row => [row.querySelector('th').textContent, texts(row.querySelectorAll('td .name'))])),
    drawn: texts(place.querySelectorAll('svg g > title')),
    links: texts(place.querySelectorAll('.links code')),
}));
"""
SHOWN = (
    "const box = document.querySelector(location.hash).getBoundingClientRect(); return box.top >= -1 && box.top < innerHeight;"
)


@pytest.fixture(scope="module")
def browser(tmp_path_factory: pytest.TempPathFactory) -> Iterator[Chrome]:
    """Chromium without a window, which logs what pages say on the console."""
    options = Options()
    options.binary_location = "/usr/bin/chromium"
    folder = tmp_path_factory.mktemp("browser")
    for word in ("--headless=new", "--no-sandbox", "--disable-gpu", "--disable-dev-shm-usage", f"--user-data-dir={folder}"):
        options.add_argument(word)
    options.set_capability("goog:loggingPrefs", {"browser": "ALL"})
    driver = Chrome(service=Service("/usr/bin/chromedriver"), options=options)
    yield driver
    driver.quit()


def made(path: pathlib.Path, pattern: str, board: str, status: int = 0) -> str:
    """Makes the page of a search; gives its text."""
    done = run("page", pattern, board, "-o", path)
    assert done.status == status, done.err
    return path.read_text(encoding="utf-8")


def links_of(chains: list[str]) -> set[tuple[str, str]]:
    """The links of chains as the text form has them."""
    found = set()
    for chain in chains:
        names, arrows = chain.split()[0::2], chain.split()[1::2]
        for left, arrow, right in zip(names, arrows, names[1:]):
            found |= {(left, right)} if arrow == "->" else {(left, right), (right, left)}
    return found


def loaded(browser: Chrome, path: pathlib.Path) -> None:
    """Loads a page, which says nothing on the console."""
    browser.get(path.as_uri())
    assert browser.get_log("browser") == []


def a4_pages(browser: Chrome, path: pathlib.Path) -> int:
    """Prints the page that is loaded; how many pages of A4 it has."""
    printed = browser.execute_cdp_cmd("Page.printToPDF", {"preferCSSPageSize": True, "printBackground": True})
    path.write_bytes(base64.b64decode(printed["data"]))
    told = subprocess.run(["pdfinfo", str(path)], capture_output=True, text=True, check=True).stdout
    assert re.search(r"Page size: .*\(A4\)", told), told
    pages = re.search(r"Pages: +(\d+)", told)
    assert pages
    return int(pages[1])


def test_says_what_find_says(browser: Chrome, tmp_path: pathlib.Path) -> None:
    """Place by place: centres, parts, links, and in the picture every node."""
    made(tmp_path / "page.html", *MUTE)
    loaded(browser, tmp_path / "page.html")
    said = browser.execute_script(READ)
    found = json.loads(run("find", "--json", *MUTE).out)
    assert [one["place"] for one in said] == [one["place"] for one in found["places"]]
    for page, place in zip(said, found["places"]):
        assert page["centres"] == place["centres"] and page["parts"] == place["parts"]
        assert links_of(page["links"]) == {tuple(link) for link in place["links"]}
        assert page["heading"] == f"Place {place['place']}: {len(place['nodes'])} nodes, {len(place['links'])} links"
        assert {told.split(",")[0] for told in page["drawn"] if "plays" in told} == set(place["nodes"])
    answer = browser.execute_script("return document.querySelector('.answer').textContent")
    assert answer == f"{len(found['places'])} places, around {found['centres']} of {found['nodes']} nodes"
    assert 2 <= a4_pages(browser, tmp_path / "page.pdf") <= 8


def test_every_place_is_reached_by_keyboard(browser: Chrome, tmp_path: pathlib.Path) -> None:
    """With the tabulator and the enter key alone, from the contents and from place to place."""
    made(tmp_path / "page.html", *MUTE)
    loaded(browser, tmp_path / "page.html")
    wanted = [f"#place-{number}" for number in range(1, 5)]
    reached = []
    for _ in range(40):
        browser.switch_to.active_element.send_keys(Keys.TAB)
        here = browser.switch_to.active_element
        target = here.get_dom_attribute("href")
        if target in wanted and target not in reached:
            here.send_keys(Keys.ENTER)
            assert browser.execute_script("return location.hash") == target and browser.execute_script(SHOWN)
            assert "#" + browser.switch_to.active_element.get_dom_attribute("id") == target
            reached.append(target)
        if reached == wanted:
            break
    assert reached == wanted
    assert browser.get_log("browser") == []


def test_stands_alone(tmp_path: pathlib.Path) -> None:
    """Nothing from elsewhere, no script, no date; what was asked stands in it, with the SHA-256 of the files; and it is the same again."""
    text = made(tmp_path / "page.html", *MUTE)
    assert not re.search(r"<script|<iframe|@import|url\(|<img", text)
    assert set(re.findall(r'(?:src|href)="([^"#]*)', text)) == {"data:,", ""}
    for path in MUTE:
        for file in (path, path.replace(".txt", ".cir")):  # the text, and the circuit file that it makes
            assert path in text and hashlib.sha256((ROOT / file).read_bytes()).hexdigest() in text
    assert "heronditch 3" in text and "what was proved" in text
    assert text == made(tmp_path / "again.html", *MUTE)


def test_what_is_left_out_is_told(tmp_path: pathlib.Path) -> None:
    """A page says which part of the files was not looked at."""
    both = ("samples/packages/pattern.txt", "samples/packages/board.txt")
    assert run("page", "--without-packages", *both, "-o", tmp_path / "page.html").status == 0
    told = "all packages were left out, as asked (--without-packages)"
    assert told in (tmp_path / "page.html").read_text(encoding="utf-8") and told not in made(tmp_path / "whole.html", *both)


def test_can_be_read_aloud(browser: Chrome, tmp_path: pathlib.Path) -> None:
    """Language, a heading for each step, pictures with words for them, tables with captions and heads."""
    made(tmp_path / "page.html", *MUTE)
    loaded(browser, tmp_path / "page.html")
    levels = browser.execute_script("return [...document.querySelectorAll('h1,h2,h3,h4')].map(one => Number(one.tagName[1]))")
    assert levels[0] == 1 and levels.count(1) == 1 and all(after <= before + 1 for before, after in zip(levels, levels[1:]))
    unnamed = "return document.querySelectorAll('svg:not([aria-label]), svg:not([role=img]), table:not(:has(caption)), th:not([scope])').length"
    assert browser.execute_script(unnamed) == 0
    assert browser.execute_script("return document.documentElement.lang") == "en"
    broken = "return [...document.querySelectorAll('a')].filter(one => !document.querySelector(one.hash)).length"
    assert browser.execute_script(broken) == 0


def bars(browser: Chrome) -> dict[str, set[tuple[str, str]]]:
    """What the page says that bars, around each node."""
    rows: list[Any] = browser.execute_script(
        "return [...document.querySelectorAll('#bars ~ table tbody tr')].map(row => [...row.querySelectorAll('th .name')].map("
        "node => [node.textContent, [...row.querySelectorAll('code')].map(one => one.textContent)])).flat()"
    )
    return {node: links_of(chains) for node, chains in rows}


def test_none(browser: Chrome, tmp_path: pathlib.Path) -> None:
    """Where there is none: the counts, what comes nearest, and what bars around each node of the rarest kind."""
    text = (ROOT / MUTE[0]).read_text(encoding="utf-8").replace("pin -> mute", "pin <-> mute")
    pattern = write(str(tmp_path / "pattern.txt"), text)
    made(tmp_path / "page.html", pattern, MUTE[1], 1)
    loaded(browser, tmp_path / "page.html")
    page = browser.execute_script("return document.body.textContent")
    assert (
        "None: no place of the pattern around any of 70 nodes" in page
        and "rarest kind of the pattern on this board is capacitor" in page
    )
    counts = json.loads(run("match", "--json", pattern, MUTE[1]).out)["counts"]
    rows = browser.execute_script("return [...document.querySelectorAll('#counts ~ table tbody tr')].map(row => row.innerText)")
    assert [row.split("\t")[:2] for row in rows] == [[name, str(number)] for name, number in counts.items()]
    said = bars(browser)
    assert sorted(said) == ["C1", "C2", "C3", "C4"]
    for node, links in said.items():
        assert links == {tuple(link) for link in json.loads(run("why", "--json", pattern, MUTE[1], node).out)["links"]}
    near = browser.execute_script(
        "return [...document.querySelectorAll('#nearest ~ table tbody th')].map(one => one.textContent)"
    )
    assert near == ["mute <-> pin"]
    assert a4_pages(browser, tmp_path / "page.pdf") <= 4


def test_a_large_board(browser: Chrome, tmp_path: pathlib.Path) -> None:
    """A board of 400 nodes with many places: every one is told, and what is not drawn says so."""
    pattern = write(str(tmp_path / "pattern.txt"), "node a 1\nnode b 2\nnode c 1\nnode d 2\na -> b -> c -> d")
    board = str(tmp_path / "board.cir")
    assert run("test-board", 5, 400, 900, 3, "-o", board).status == 0
    made(tmp_path / "page.html", pattern, board)
    loaded(browser, tmp_path / "page.html")
    said = browser.execute_script(READ)
    found = json.loads(run("find", "--json", pattern, board).out)["places"]
    assert [one["parts"] for one in said] == [one["parts"] for one in found] and len(found) == 89
    drawn = [bool(one["drawn"]) for one in said]
    assert drawn == [number <= 60 for number in range(1, 90)]


def test_names_are_escaped(browser: Chrome, tmp_path: pathlib.Path) -> None:
    """Names that look like HTML stay names."""
    pattern = write(str(tmp_path / "p&amp;.txt"), "node a&b 1\nnode \"'x 2\na&b -> \"'x")
    board = write(str(tmp_path / "board.txt"), 'node &lt;b&gt; 1\nnode y"y 2\n&lt;b&gt; -> y"y')
    made(tmp_path / "page.html", pattern, board)
    loaded(browser, tmp_path / "page.html")
    assert browser.execute_script(READ)[0]["parts"] == {"a&b": ["&lt;b&gt;"], "\"'x": ['y"y']}


def test_what_was_proved_is_cited(tmp_path: pathlib.Path, monkeypatch: pytest.MonkeyPatch) -> None:
    """What is known of the library stands on the page: its SHA-256, and what was proved of it."""
    known = {"version": 3, "sha256": "ab" * 32, "proved": "logic=proved of the sources <so>"}
    monkeypatch.setattr("heronditch.command.page.identity", lambda: known)
    text = made(tmp_path / "page.html", *MUTE)
    assert "ab" * 32 in text and "logic=proved of the sources &lt;so&gt;" in text and "not known" not in text
