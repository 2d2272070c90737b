"""The page of a search: what was asked, what was found, place by place; or, where nothing was, what comes nearest and what bars."""

from __future__ import annotations

import hashlib
from typing import Any, Iterable, Mapping, NamedTuple, Sequence

from ..circuits import Circuit, Link
from ..command.find import inner
from ..command.telling import chains, count, listed, part_labels, united
from ..errors import Faults
from ..finding import Place, match
from ..pictures import Picture, draw, kind_told, pattern_picture, place_picture
from .html import Html, document, element, joined, table, words
from .none import Near, barred, nearest, rarest

MOST_PICTURES = 60  # how many places are drawn; the rest have their tables


class Asked(NamedTuple):
    """What was asked: the name and the SHA-256 of each file; who answered; and what is to be known with the answer."""

    files: Mapping[str, tuple[str, str]]
    library: Mapping[str, Any]
    notes: Sequence[str]


def figure(make: Picture) -> Html:
    """A picture in a figure."""
    return element("figure", Html("\n" + draw(make, titled=False)))


def links_list(circuit: Circuit, links: Iterable[Link]) -> Html:
    """Links as the text form has them, joined to chains."""
    return element(
        "ul",
        *(element("li", element("code", " ".join(chain), class_="hash")) for chain in chains(circuit, links)),
        class_="links",
    )


def asked_section(asked: Asked, pattern: Circuit, board: Circuit) -> Html:
    """What was asked, of whom, and what was proved."""
    rows = []
    for (role, (path, digest)), circuit, word in zip(asked.files.items(), (pattern, board), ("part", "node")):
        told = f"{count(len(circuit.names), word)}, {count(len(circuit.links), 'link')}"
        data = circuit.to_bytes()
        rows.append([role, path, told, element("code", digest, class_="hash")])
        looked_up = element("code", hashlib.sha256(data).hexdigest(), class_="hash")
        rows.append([f"{role}, as looked up", f"circuit file, edition {circuit.edition}", f"{len(data)} bytes", looked_up])
    files = table("The files", ["role", "name", "size", "SHA-256"], rows)
    library = asked.library
    answered: list[list[str]] = [["version", f"heronditch {library['version']}"]]
    if library.get("sha256"):
        answered.append(["SHA-256", element("code", str(library["sha256"]), class_="hash")])
    unknown = "not known: there is no PROVED.txt about this library"
    answered.append(["what was proved", str(library.get("proved") or unknown)])
    notes = [element("p", f"Mind: {note}.") for note in asked.notes]
    heading = element("h2", "What was asked", id="asked")
    return element("section", heading, *notes, files, table("The library that answered", ["what", "told"], answered))


def pattern_section(pattern: Circuit) -> Html:
    """The pattern: its picture, and its parts."""
    register = pattern.register
    heads = ["part", "kind"] + (["package"] if pattern.packages else [])
    rows = []
    for number, name in enumerate(part_labels(pattern)):
        kind = register.kind_name(pattern.kinds[number]) if pattern.kinds[number] else "any"
        package = [register.package_name(pattern.packages[number])] if pattern.packages else []
        rows.append([name, kind, *package])
    picture = figure(pattern_picture(pattern, "The pattern"))
    return element("section", element("h2", "The pattern", id="pattern"), picture, table("Its parts", heads, rows))


def roles_table(caption: str, pattern: Circuit, board: Circuit, roles: Sequence[Sequence[int]]) -> Html:
    """For each part the nodes that play it."""
    rows = ([name, words(board.named(nodes))] for name, nodes in zip(part_labels(pattern), roles))
    return table(caption, ["part", "played by"], rows)


def place_figure(place: Place, number: int) -> Html:
    """The picture of a place, or why there is none."""
    if number > MOST_PICTURES:
        return element("p", f"Not drawn: the first {MOST_PICTURES} places are.")
    try:
        return figure(place_picture([place], f"Place {number}"))
    except Faults as faults:
        return element("p", f"Not drawn: {faults}.")


def place_section(place: Place, number: int, within: Sequence[int], last: int) -> Html:
    """One place: its centres, its picture, its table and its links."""
    pattern, board = place.pattern, place.board
    heading = f"Place {number}: {count(len(place.nodes), 'node')}, {count(len(place.links), 'link')}"
    inside: list[str] = [
        element("h3", heading),
        element("p", "Around ", element("span", words(board.named(place.centres)), class_="centres"), "."),
    ]
    if within:
        word = "place" if len(within) == 1 else "places"
        inside.append(element("p", f"It has {word} {listed([str(other) for other in within])} in it."))
    inside.append(place_figure(place, number))
    roles = roles_table("Part by part", pattern, board, place.roles)
    links = element("div", element("h4", "Its links"), links_list(board, place.links))
    inside.append(element("div", roles, links, class_="beside"))
    onward = [("#contents", "Contents")] + ([(f"#place-{number + 1}", "Next place")] if number < last else [])
    inside.append(element("p", joined((element("a", told, href=where) for where, told in onward), " · "), class_="onward"))
    return element("section", joined(inside), id=f"place-{number}", tabindex="-1", aria_label=f"Place {number}")


def found_sections(found: Sequence[Place], pattern: Circuit, board: Circuit) -> list[Html]:
    """All places together, the pattern, and each place by itself."""
    together = roles_table("What plays each part in any place", pattern, board, united(found))
    sections = [element("section", element("h2", "All places together", id="together"), together)] if len(found) > 1 else []
    sections += [pattern_section(pattern), element("h2", "The places")]
    for number, (place, within) in enumerate(zip(found, inner(found)), 1):
        sections.append(place_section(place, number, within, len(found)))
    return sections


def near_section(pattern: Circuit, board: Circuit) -> Html:
    """The nodes that come nearest."""
    what, near = nearest(pattern, board)
    heading = element("h2", "What comes nearest", id="nearest")
    if what == "whole":
        told = "These nodes match on the whole board, but no place holds within the pattern's radius around any node:"
        return element("section", heading, element("p", told), element("p", words(near[0].nodes)))
    if not near:
        told = "Nothing: even with any one link or any one part of the pattern left out, nothing on the board matches it."
        return element("section", heading, element("p", told))
    thing = "link" if what == "link" else "part, with its links,"
    told = f"With one {thing} of the pattern left out, these nodes of the whole board would match:"
    return element("section", heading, element("p", told), near_table(what, near))


def near_table(what: str, near: Sequence[Near]) -> Html:
    """What would match with one thing left out."""
    rows = ([element("code", one.left_out), str(len(one.nodes)), words(one.nodes)] for one in near)
    return table(f"With one {what} left out", [f"{what} left out", "nodes", "which"], rows)


def why_section(pattern: Circuit, board: Circuit) -> Html:
    """What bars around each node of the rarest kind."""
    heading = element("h2", "What bars", id="bars")
    rare = rarest(pattern, board)
    if rare is None:
        return element("section", heading, element("p", "No node of the board is of a kind that the pattern asks for."))
    kind, nodes = rare
    name = kind_told(kind, pattern, board)
    told = (
        f"The rarest kind of the pattern on this board is {name}: {count(len(nodes), 'node')}. Around each of them the links below, of which"
        " none can be spared, bar a place: with these links of the pattern alone the node matches no part in its ball."
    )
    rows = []
    for group in barred(pattern, board, nodes):
        links = links_list(pattern, group.links) if group.links else Html("none: no part is of its kind and package")
        rows.append([words(group.nodes), links])
    return element(
        "section", heading, element("p", told), table("Links that bar, none to spare", ["around", "links of the pattern"], rows)
    )


def none_sections(pattern: Circuit, board: Circuit) -> list[Html]:
    """Where nothing was found: the counts, what comes nearest, what bars, and the pattern."""
    counts = match(pattern, board).counts
    meanings = {
        "started": "pairs of a part and a node that agree in kind and package",
        "kept": "of them left at the end",
        "struck": "of them struck, since a link has no partner",
        "rounds": "rounds that struck some",
    }
    rows = [[name, str(number), meanings[name]] for name, number in (counts._asdict() if counts else {}).items()]
    told = table("The counts, on the whole board", ["count", "number", "meaning"], rows)
    section = element("section", element("h2", "The counts", id="counts"), told)
    return [section, near_section(pattern, board), why_section(pattern, board), pattern_section(pattern)]


def contents(found: Sequence[Place]) -> Html:
    """The list of what the page has."""
    none = [("#counts", "The counts"), ("#nearest", "What comes nearest"), ("#bars", "What bars")]
    together = [("#together", "All places together")] if len(found) > 1 else []
    entries = [*(together if found else none), ("#pattern", "The pattern")]
    entries += [(f"#place-{number}", f"Place {number}") for number in range(1, len(found) + 1)]
    entries.append(("#asked", "What was asked"))
    listing = element("ul", *(element("li", element("a", told, href=where)) for where, told in entries))
    return element("nav", element("h2", "Contents", id="contents"), listing, aria_label="Contents")


def page(found: Sequence[Place], pattern: Circuit, board: Circuit, asked: Asked) -> str:
    """The whole page."""
    centres = sum(len(place.centres) for place in found)
    title = f"{asked.files['pattern'][0]} on {asked.files['board'][0]}"
    answer = f"{count(len(found), 'place')}, around {centres} of {count(len(board.names), 'node')}"
    if not found:
        answer = f"None: no place of the pattern around any of {count(len(board.names), 'node')}"
    sections = found_sections(found, pattern, board) if found else none_sections(pattern, board)
    return document(
        title,
        element("a", "To the answer", href="#main", class_="skip"),
        element("header", element("h1", title)),
        element("p", answer, class_="answer" if found else "answer none", id="main"),
        contents(found),
        Html("<main>"),
        *sections,
        asked_section(asked, pattern, board),
        Html("</main>"),
    )
