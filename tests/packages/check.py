#!/usr/bin/env python3
"""Checks the sample of packages against the model: what the search with packages finds, and its files in both editions; status 1 on a failure."""
import pathlib
import sys

HERE = pathlib.Path(__file__).resolve().parents[2]
sys.path.insert(0, str(HERE / "tools"))
import model  # noqa: E402

SAMPLE = HERE / "samples" / "packages"


def nodes(table, parts):
    """The line of each part: the nodes that it matches."""
    lines = [[v for v, word in enumerate(table) if word >> u & 1] for u in range(parts)]
    return "".join(f"part {u}: " + " ".join(map(str, line)) + "\n" for u, line in enumerate(lines))


def matched(pattern, board, editions):
    """What the whole-board call of the model comes to, as lines."""
    table = [0] * 512
    reply = model.match_table(pattern, board, table, editions)
    assert reply[0] == "matched", reply
    return nodes(table, pattern[0])


def main():
    """Runs all checks."""
    one = [(SAMPLE / f"{name}.cir").read_bytes() for name in ("pattern", "board")]
    two = [(SAMPLE / f"{name}2.cir").read_bytes() for name in ("pattern", "board")]
    assert matched(*two, (2, 2)) == (SAMPLE / "matched.txt").read_text(), "the search with packages"
    assert matched(*one, (1, 1)).splitlines()[3] == "part 3: 3 8 13", "the plain search"
    assert matched(one[0], two[1], (1, 2)) == nodes([0] * 15, 5), "a pattern without packages on a board with some"
    for role, first, second in zip(("pattern", "board"), one, two):
        assert model.convert(role, 2, 1, second, [0] * 999) == ("refused", 12, role), "a package that would be lost"
        out = [0] * 999
        size = model.convert(role, 1, 2, first, out)[1]
        new = bytes(out[:size])
        assert model.convert(role, 2, 1, new, out) == ("converted", len(first)) and bytes(out[:len(first)]) == first, "there and back again"
    print("packages: all checks passed")


if __name__ == "__main__":
    main()
