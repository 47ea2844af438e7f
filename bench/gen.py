#!/usr/bin/env python3
"""Times `gen`, the benchmark of table and matcher, and reports steps and packets a second.

    bench/gen.py PROGRAM [--runs N] [COUNT ..]

Of each count (1000, 100000 and 1000000 where none is given) the best of the runs is reported, in processor seconds of
the whole run: as many steps of the tape and as many packets are made and judged in it.
"""

import argparse
import pathlib
import sys
import tempfile

from timing import run

COUNTS = [1_000, 100_000, 1_000_000]


def runs_of(program, count, runs, path):
    """Of each run what it writes, and what it takes."""
    for _ in range(runs):
        with open(path, "wb") as out:
            taken = run([program, "gen", count], out)
        yield path.read_text().strip(), taken


def main():
    parser = argparse.ArgumentParser(description=__doc__.split("\n", 1)[0])
    parser.add_argument("program")
    parser.add_argument("counts", nargs="*", type=int, metavar="COUNT")
    parser.add_argument("--runs", type=int, default=3)
    options = parser.parse_intermixed_args()

    print("| line | seconds | steps and packets a second | peak MB |")
    print("|---|---|---|---|")
    with tempfile.TemporaryDirectory() as name:
        for count in options.counts or COUNTS:
            runs = list(runs_of(options.program, count, options.runs, pathlib.Path(name) / "line"))
            lines = {line for line, _ in runs}
            if len(lines) != 1:
                sys.exit(f"gen {count} wrote different lines: {lines}")
            seconds = min(taken.processor for _, taken in runs)
            peak = max(taken.peak for _, taken in runs)
            rate = count / seconds if seconds else float("inf")
            print(f"| `{runs[0][0]}` | {seconds:.3f} | {rate:,.0f} | {peak / 1024:.1f} |", flush=True)


if __name__ == "__main__":
    main()
