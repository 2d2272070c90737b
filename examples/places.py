#!/usr/bin/env python3
"""Prints the places of a pattern on a board, as the report has them, by the installed Python module heronditch:

    places.py PATTERN.cir BOARD.cir

Status: 0 printed; 1 a file is refused; 2 a file cannot be read."""
import pathlib
import sys

from heronditch import Circuit, Refused, place


def report(pattern: Circuit, board: Circuit) -> str:
    """the lines of the report"""
    lines = []
    for centre in range(len(board.kinds)):
        found = place(pattern, board, centre)
        if found:
            nodes = "".join(f" {node}" for node in found.nodes)
            links = "".join(f" {start}-{end}" for start, end in found.links)
            lines.append(f"place {centre}:{nodes} /{links}\n")
    return "".join(lines) + f"end {len(lines)} of {len(board.kinds)}\n"


def main(words: list[str]) -> int:
    """prints the places, or says what stands in the way"""
    if len(words) != 2:
        print("usage: places.py PATTERN.cir BOARD.cir", file=sys.stderr)
        return 2
    try:
        pattern, board = (Circuit.from_bytes(pathlib.Path(name).read_bytes()) for name in words)
        sys.stdout.write(report(pattern, board))
    except Refused as refusal:
        print(f"refused {refusal.number} {refusal.file or ''}".rstrip())
        print(refusal, file=sys.stderr)
        return 1
    except OSError as error:
        print(f"places.py: {error}", file=sys.stderr)
        return 2
    return 0


if __name__ == "__main__":
    sys.exit(main(sys.argv[1:]))
