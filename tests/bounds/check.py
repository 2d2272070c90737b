#!/usr/bin/env python3
"""Checks the sample of bounds against the model: what the search with bounds finds and the plain one misses; status 1 on a failure."""
import pathlib
import sys

HERE = pathlib.Path(__file__).resolve().parents[2]
sys.path.insert(0, str(HERE / "tools"))
import model  # noqa: E402

SAMPLE = HERE / "samples" / "coupling"


def nodes(table, parts):
    """The line of each part: the nodes that it matches."""
    lines = [[v for v, word in enumerate(table) if word >> u & 1] for u in range(parts)]
    return "".join(f"part {u}: " + " ".join(map(str, line)) + "\n" for u, line in enumerate(lines))


def bounded(pattern, board, bounds=None):
    """What the call of the model comes to on a third-edition file, or on one with these bounds in place of its own, as lines."""
    table = [0] * 512
    if bounds:
        pattern = model.encode_bounded(model.parse_bounded(pattern)[0], bounds)
    reply = model.match_bounded(pattern, board, table)
    assert reply[0] == "matched", reply
    return nodes(table, pattern[0])


def main():
    """Runs all checks."""
    plain, drawn, board = ((SAMPLE / f"{name}.cir").read_bytes() for name in ("pattern", "pattern3", "board"))
    both = (SAMPLE / "matched.txt").read_text()
    one = "".join(f"part {u}: {u}\n" for u in range(5))
    table = [0] * 512
    assert model.match_table(plain, board, table)[0] == "matched" and nodes(table, 5) == one, "the plain search"
    assert bounded(drawn, board) == both, "the search with bounds"
    assert bounded(drawn, board, [1, 1, 1, 1]) == bounded(drawn, board, [1, 1, 2, 1]) == one, "a bound too small"
    assert bounded(drawn, board, [1, 1, 4, 1]) == both, "a larger bound"
    assert model.match_bounded(drawn[:-2] + b"\x05\x00", board, table) == ("refused", 13, "pattern"), "a bound of 5"
    print("bounds: all checks passed")


if __name__ == "__main__":
    main()
