#!/usr/bin/env python3
"""How long `heronditch find` takes beside a report program, on the boards that bench/boards.py makes.

  command.py [--program 'WORDS'] [BOARD..]

Told is the processor time of whole runs, start-up and all, the least of seven, in milliseconds; how many times the program's time the command
takes; and what the command takes beyond the start of Python and of the module. The report program is target/bin/finder, or what --program
names; it is run in the board's folder. Needs ./heronditch to have been run once.
"""

import argparse
import pathlib
import resource
import shlex
import subprocess

import boards

ROOT = pathlib.Path(__file__).resolve().parents[1]
SIZES = ("full-random", "planted", "planted-32", "chain", "one-kind", "one-kind-dense", "one-kind-sparse", "no-pair-12", "one-part", "strikes-12")


def spent(words, folder, runs=7, enough=2):
    """The least processor time of some runs of a program, in milliseconds; fewer runs where they come to so many seconds."""
    times = []
    while len(times) < runs and sum(times) < enough:
        before = resource.getrusage(resource.RUSAGE_CHILDREN)
        subprocess.run(words, cwd=folder, stdout=subprocess.DEVNULL, stderr=subprocess.DEVNULL, check=False)
        after = resource.getrusage(resource.RUSAGE_CHILDREN)
        times.append(after.ru_utime + after.ru_stime - before.ru_utime - before.ru_stime)
    return 1000 * min(times)


def main():
    """Prints a line for each board."""
    parser = argparse.ArgumentParser(description=__doc__, formatter_class=argparse.RawDescriptionHelpFormatter)
    parser.add_argument("--program", default=str(ROOT / "target/bin/finder"), help="another report program")
    parser.add_argument("boards", metavar="BOARD", nargs="*", help="these boards only")
    arguments = parser.parse_args()
    command = [str(ROOT / "heronditch")]
    start = spent([*command, "find", "--help"], ".")
    print(f"{'board':16} {'report':>8} {'find':>8} {'times':>6} {'beyond the start':>17}")
    for name in arguments.boards or SIZES:
        boards.make(ROOT / "target/bench", name)
        folder = ROOT / "target/bench" / name
        report = spent(shlex.split(arguments.program), folder)
        find = spent([*command, "find", "pattern.cir", "board.cir"], folder)
        print(f"{name:16} {report:8.1f} {find:8.1f} {find / report:6.0f} {find - start:17.1f}")


if __name__ == "__main__":
    main()
