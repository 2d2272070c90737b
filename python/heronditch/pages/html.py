"""Pieces of HTML: each takes plain text and escapes it, but for what is HTML already."""

from __future__ import annotations

from html import escape
from typing import Iterable, Sequence


class Html(str):
    """A piece of HTML, which is not escaped again."""


def raw(text: str) -> Html:
    """HTML of a text."""
    return text if isinstance(text, Html) else Html(escape(text, quote=True))


def element(name: str, *inside: str, **attributes: str) -> Html:
    """An element: attributes are named as Python has them, with a final underscore where need be."""
    told = "".join(f' {key.rstrip("_").replace("_", "-")}="{escape(value, quote=True)}"' for key, value in attributes.items())
    return Html(f"<{name}{told}>{''.join(map(raw, inside))}</{name}>")


def joined(pieces: Iterable[str], between: str = "\n") -> Html:
    """Pieces, one after another."""
    return Html(between.join(map(raw, pieces)))


def words(names: Iterable[str]) -> Html:
    """Names, each of which is kept on one line."""
    return joined((element("span", name, class_="name") for name in names), " ")


def table(caption: str, heads: Sequence[str], rows: Iterable[Sequence[str]]) -> Html:
    """A table whose first column heads its rows."""
    top = element("tr", *(element("th", head, scope="col") for head in heads))
    body = [element("tr", element("th", row[0], scope="row"), *(element("td", cell) for cell in row[1:])) for row in rows]
    inside = [element("caption", caption), element("thead", top), element("tbody", joined(["", *body, ""]))]
    return element("table", *inside)


STYLE = """
:root { color-scheme: light; }
body { font: 1rem/1.5 system-ui, "DejaVu Sans", Verdana, Arial, sans-serif; color: #111; background: #fff; margin: 0 auto; padding: 1rem 1.5rem;
  max-width: 66rem; }
h1 { font-size: 1.6rem; margin: .4rem 0; overflow-wrap: anywhere; }
h2 { font-size: 1.3rem; margin: 2rem 0 .5rem; border-bottom: 1px solid #767676; }
h3 { font-size: 1.1rem; margin: 1.6rem 0 .3rem; }
h4 { font-size: 1rem; margin: .6rem 0 0; }
.answer { font-size: 1.2rem; font-weight: bold; border-left: .4rem solid #0072b2; padding: .2rem .8rem; background: #eef5fa; }
.none { border-color: #d55e00; background: #fdf1ea; }
table { border-collapse: collapse; margin: .6rem 0 1rem; }
caption { text-align: left; font-weight: bold; padding-bottom: .2rem; white-space: nowrap; }
th, td { border: 1px solid #949494; padding: .2rem .6rem; text-align: left; vertical-align: top; overflow-wrap: break-word; }
thead th { background: #ececec; }
tbody th { font-weight: 600; }
.name, code { white-space: nowrap; }
code { font-family: "DejaVu Sans Mono", Consolas, monospace; font-size: .9em; }
.hash { white-space: normal; overflow-wrap: anywhere; }
.links { padding-left: 1.2rem; margin: .3rem 0; }
.links li { break-inside: avoid; overflow-wrap: break-word; }
td .links { min-width: 18rem; }
.beside { display: flex; flex-wrap: wrap; gap: 0 2.5rem; }
.beside > * { flex: 0 1 auto; max-width: 100%; }
.beside > div { flex: 1 1 20rem; }
figure { margin: .6rem 0; overflow-x: auto; }
svg { max-width: 100%; height: auto; }
nav ul { columns: 4 11rem; padding: 0; list-style: none; }
a { color: #00508a; }
a:focus-visible, section:focus-visible, figure:focus-visible { outline: 3px solid #d55e00; outline-offset: 2px; }
.skip { position: absolute; left: -100rem; }
.skip:focus { left: 1rem; top: .5rem; background: #fff; padding: .3rem .6rem; }
@page { size: A4; margin: 15mm; }
@media print {
  body { padding: 0; max-width: none; font-size: 10pt; }
  nav, .skip, .onward { display: none; }
  h2, h3, caption { break-after: avoid; }
  section > p { break-after: avoid; }
  figure, tr { break-inside: avoid; }
  svg { max-height: 230mm; }
  .beside { display: block; }
  .answer, thead th { print-color-adjust: exact; }
  a { color: inherit; text-decoration: none; }
}
"""


def document(title: str, *body: str) -> str:
    """A whole page."""
    head = [
        '<meta charset="utf-8">',
        '<meta name="viewport" content="width=device-width, initial-scale=1">',
        "<meta http-equiv=\"Content-Security-Policy\" content=\"default-src 'none'; style-src 'unsafe-inline'; img-src data:\">",
        '<link rel="icon" href="data:,">',
        element("title", title),
        Html(f"<style>{STYLE}</style>"),
    ]
    inside = "\n".join([*head, "</head>", "<body>", *body, "</body>"])
    return f'<!DOCTYPE html>\n<html lang="en">\n<head>\n{inside}\n</html>\n'
