"""Writes a picture as SVG: without ids, styles or scripts, so that a page may have many of them."""

from __future__ import annotations

from html import escape
from typing import Iterable, Sequence

from .layout import Layout, Path, Picture, Point, Spot, Tie, lay_out, size
from .styles import OUTLINES, Style

FONT = "DejaVu Sans, Verdana, Helvetica, Arial, sans-serif"
MARGIN = 14.0
LETTER = 7.2  # the width of a letter of the text, about
STRONG, FAINT = "#000000", "#8A8A8A"


def number(value: float) -> str:
    """A length, short."""
    return f"{round(value, 1) + 0.0:.1f}".removesuffix(".0")


def pairs(points: Iterable[Point]) -> str:
    """Points, as an outline has them."""
    return " ".join(f"{number(x)},{number(y)}" for x, y in points)


def text(at: Point, words: str, more: str = 'text-anchor="middle"') -> str:
    """A line of text."""
    return f'<text x="{number(at[0])}" y="{number(at[1])}" {more}>{escape(words)}</text>'


def outline(style: Style, middle: Point, wide: float, high: float, look: str) -> str:
    """The shape of a style around a point."""
    x, y = middle
    if not OUTLINES[style.shape]:
        radii = f'rx="{number(wide / 2)}" ry="{number(high / 2)}"'
        return f'<ellipse cx="{number(x)}" cy="{number(y)}" {radii} {look}/>'
    corners = [(x + right * wide / 2, y - up * high / 2) for right, up in OUTLINES[style.shape]]
    return f'<polygon points="{pairs(corners)}" {look}/>'


def spot_lines(spot: Spot, middle: Point) -> list[str]:
    """The SVG of a node: its shape, its text, and the number beside it."""
    wide, high = size(spot)
    x, y = middle
    if spot.strong:
        look = f'fill="{spot.style.fill}" stroke="{STRONG}" stroke-width="{3.5 if spot.thick else 1.4}"'
    else:
        look = f'fill="#FFFFFF" stroke="{FAINT}" stroke-width="1"'
    lines = ["<g>", f"<title>{escape(spot.told or spot.lines[0])}</title>", outline(spot.style, middle, wide, high, look)]
    ink = spot.style.ink if spot.strong else "#555555"
    top = y + 4.2 - 7 * (len(spot.lines) - 1)
    for row, words in enumerate(spot.lines):
        weight = ' font-weight="bold"' if spot.strong and row == 0 else ""
        lines.append(text((x, top + 14 * row), words, f'text-anchor="middle" fill="{ink}"{weight}'))
    if spot.badge:
        corner = (x + wide / 2 - 4, y - high / 2 + 1)
        lines.append(f'<circle cx="{number(corner[0])}" cy="{number(corner[1])}" r="8" fill="#FFFFFF" stroke="{STRONG}"/>')
        lines.append(text((corner[0], corner[1] + 3.5), spot.badge, 'text-anchor="middle" font-size="10"'))
    return [*lines, "</g>"]


def tie_lines(tie: Tie, path: Path) -> list[str]:
    """The SVG of a link: its curve, its arrow heads, and the word on it."""
    colour = STRONG if tie.strong else FAINT
    first, *rest = path.curve
    curve = f"M{pairs([first])} C{pairs(rest)}"
    lines = [f'<path d="{curve}" fill="none" stroke="{colour}" stroke-width="{2 if tie.strong else 1}"/>']
    lines += [f'<polygon points="{pairs(head)}" fill="{colour}" stroke="{colour}"/>' for head in path.heads]
    if tie.word:
        x, y = path.curve[len(path.curve) // 2]
        lines.append(text((x, y - 5), tie.word, 'text-anchor="middle" font-size="11"'))
    return lines


def wrapped(words: str, width: float) -> list[str]:
    """A sentence in lines of a width."""
    lines = [""]
    for word in words.split():
        longer = f"{lines[-1]} {word}".strip()
        if lines[-1] and len(longer) * LETTER > width:
            lines.append(word)
        else:
            lines[-1] = longer
    return lines


def legend(picture: Picture, top: float, width: float) -> tuple[list[str], float]:
    """The SVG of the legend, from a height on, and where it ends: the kinds, side by side, and what else is to be known."""
    lines, x, y = [], MARGIN, top
    for style, name in picture.kinds:
        step = 34 + 8 + len(name) * LETTER + 18
        if x > MARGIN and x + step > MARGIN + width:
            x, y = MARGIN, y + 26
        look = f'fill="{style.fill}" stroke="{STRONG}" stroke-width="1.2"'
        lines.append(outline(style, (x + 17, y), 34, 18, look))
        lines.append(text((x + 42, y + 4.2), name, ""))
        x += step
    y += 28 if picture.kinds else 0
    for remark in picture.remarks:
        for words in wrapped(remark, width):
            lines.append(text((MARGIN, y), words, 'fill="#333333"'))
            y += 17
    return lines, y


def head(picture: Picture, width: float) -> tuple[list[str], float]:
    """The SVG of the title and of what stands below it, and where they end."""
    lines, y = [], MARGIN + 12
    for words in wrapped(picture.title, width * 0.8):
        lines.append(text((MARGIN, y), words, 'font-size="15" font-weight="bold"'))
        y += 20
    for sentence in picture.below:
        for words in wrapped(sentence, width):
            lines.append(text((MARGIN, y), words, 'fill="#333333"'))
            y += 17
    return lines, y


def moved(lines: Sequence[str], right: float, down: float) -> list[str]:
    """Lines, moved."""
    return [f'<g transform="translate({number(right)} {number(down)})">', *lines, "</g>"]


def graph(picture: Picture, laid: Layout) -> list[str]:
    """The SVG of nodes and links: what is faint comes first, and the rest lies above it."""
    ties = sorted(zip(picture.ties, laid.paths), key=lambda pair: pair[0].strong)
    spots = sorted(zip(picture.spots, laid.middles), key=lambda pair: pair[0].strong)
    lines = [line for tie, path in ties for line in tie_lines(tie, path)]
    return lines + [line for spot, middle in spots for line in spot_lines(spot, middle)]


def draw(picture: Picture, titled: bool = True) -> str:
    """The picture as SVG: the same text for the same picture, by the same version of graphviz; with its title in it where asked."""
    laid = lay_out(picture)
    width = max(laid.width, 560.0)
    above, top = head(picture, width) if titled else ([], MARGIN)
    below, bottom = legend(picture, top + laid.height + 34, width)
    size_told = f'width="{number(width + 2 * MARGIN)}" height="{number(bottom + 4)}"'
    box = f'viewBox="0 0 {number(width + 2 * MARGIN)} {number(bottom + 4)}"'
    alternative = escape(" ".join([picture.title.rstrip(".") + ".", *picture.below]), quote=True)
    lines = [
        f'<svg xmlns="http://www.w3.org/2000/svg" {size_told} {box} role="img" aria-label="{alternative}"'
        f' font-family="{FONT}" font-size="12">',
        f"<title>{escape(picture.title)}</title>",
        '<rect width="100%" height="100%" fill="#FFFFFF"/>',
        *above,
        *moved(graph(picture, laid), MARGIN + (width - laid.width) / 2, top + 6),
        *below,
        "</svg>",
    ]
    return "\n".join(lines) + "\n"
