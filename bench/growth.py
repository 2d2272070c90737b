#!/usr/bin/env python3
"""Counts how the cost grows: growth.py BENCH FINDER FOLDER

The instructions (callgrind) of the match table and of the report program on boards
of one make and growing size, and on boards whose row of sets has more and more
rounds. BENCH is bench/bench.c linked with the library, FINDER the report program;
the boards are made in FOLDER.
"""

import os
import pathlib
import re
import subprocess
import sys

import boards

SIZES = (64, 128, 256, 512)
MAKES = [(f"full-random, {n} nodes", boards.full_random(n)) for n in SIZES]
MAKES += [(f"one-kind-sparse, {n} nodes", boards.one_kind_sparse(n, 125 * n // 64)) for n in SIZES]
MAKES += [(f"chain, {12 * n} nodes", boards.chain(n)) for n in (5, 10, 21, 42)]
# rings of coprime lengths: their product is the number of rounds; patterns of radius at most 12 but the last
MAKES += [(f"strikes, {p * n} rounds", boards.strikes(p, n)) for p, n in ((3, 4), (5, 24), (7, 64), (11, 120), (23, 200), (23, 510), (31, 510))]


def count(folder, inside, *command):
    """The instructions of a command, or inside one of its functions."""
    inside = [f"--toggle-collect={inside}"] if inside else []
    tunables = "glibc.cpu.x86_rep_stosb_threshold=1000000:glibc.cpu.x86_rep_movsb_threshold=1000000"
    run = subprocess.run(
        ["valgrind", "--tool=callgrind", "--callgrind-out-file=/dev/null", *inside, *command],
        cwd=folder, env={**os.environ, "GLIBC_TUNABLES": tunables}, stdout=subprocess.DEVNULL, stderr=subprocess.PIPE, check=True)
    return int(re.search(rb"Collected : (\d+)", run.stderr)[1])


def main():
    """Prints a line for each board."""
    if len(sys.argv) != 4:
        sys.exit(__doc__)
    bench, finder, where = (pathlib.Path(path).resolve() for path in sys.argv[1:])
    print("| board | links | match table | a node | report | a node |\n|---|---|---|---|---|---|")
    for name, circuits in MAKES:
        nodes, links = len(circuits[1][0]), len(circuits[1][1])
        boards.make(where, name, circuits)
        folder = where / name
        table = count(folder, "heronditch_match", bench, "match", "proved", folder, "0", "0")
        report = count(folder, None, finder)
        print(f"| {name} | {links:,} | {table:,} | {table // nodes:,} | {report:,} | {report // nodes:,} |", flush=True)


if __name__ == "__main__":
    main()
