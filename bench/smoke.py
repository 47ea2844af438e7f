#!/usr/bin/env python3
"""Runs each script that measures once, with the smallest sizes, so that none breaks unseen.

    bench/smoke.py PROGRAM [--only WORDS]

What they print is no figure of anything. A script that ends otherwise than with 0 is told with what it said, and the
status is 1 then; so it is where a script beside this one is run neither here nor by `.ci/run`. What lacks a tool is
skipped with a line.
"""

import argparse
import pathlib
import shutil
import subprocess
import sys
import tempfile
import time

BENCH = pathlib.Path(__file__).resolve().parent

# The script with its words behind the program, and the tools that it wants.
RUNS = [
    ("changes.py --items 4 --runs 1 --rules 10 --routes 10", []),
    ("check.py --frames 5 --messages 3 --runs 1", []),
    ("convert.py --megabytes 1 --runs 1", []),
    ("enforce.py --packets 1000 --rules 10 --runs 1", []),
    ("enforce.py --mix atk --packets 1000 --rules 10 --runs 1", []),
    ("enforce.py --instructions --packets 100 --rules 10", ["valgrind"]),
    ("gen.py --runs 1 100", []),
    ("hostile.py --runs 1 --scale 0.005 --only turn", []),
    ("hostile.py --runs 1 --scale 0.005 --only shadow", []),
    ("load.py --sizes 20 --group 20 --changes 20 --runs 1", []),
    ("moments.py --packets 200 --items 10 --rules 10", []),
    ("pair.py --rules 10 --runs 1", []),
    ("pcapng.py --packets 1000 --rules 10 --runs 1", []),
    ("pictures.py --into FOLDER --only speed --packets 1000 --rules 1,10 --filters 1 --runs 1", ["gnuplot", "tcpdump"]),
    ("pictures.py --into FOLDER --only load --rules 10000,20000 --runs 1", ["gnuplot"]),
    ("refusals.py --only shadow", ["cc"]),
    ("shadow.py --runs 1 20", []),
    ("verdicts.py --packets 1000 --rules 10", []),
]


def run_by_nothing():
    """The scripts beside this one that neither `.ci/run` nor this one runs; `compare.py` calls what `plain.py` does."""
    told = "bench/plain.py " + (BENCH.parent / ".ci" / "run").read_text() + "".join(f"bench/{line}" for line, _ in RUNS)
    return [path.name for path in sorted(BENCH.glob("*.py"))
            if "__main__" in path.read_text() and f"bench/{path.name} " not in told]


def ends_well(program, folder, line):
    script, *words = line.replace("FOLDER", str(folder)).split()
    begun = time.monotonic()
    done = subprocess.run([sys.executable, BENCH / script, program, *words], stdout=subprocess.PIPE,
                          stderr=subprocess.STDOUT, text=True, check=False)
    said = f"{time.monotonic() - begun:.1f} s" if done.returncode == 0 else f"status {done.returncode}\n{done.stdout}"
    print(f"{line}: {said}", flush=True)
    return done.returncode == 0


def main():
    parser = argparse.ArgumentParser(description=__doc__, formatter_class=argparse.RawDescriptionHelpFormatter)
    parser.add_argument("program", type=pathlib.Path)
    parser.add_argument("--only", default="")
    options = parser.parse_args()
    unrun = run_by_nothing()
    if unrun:
        print(f"run by nothing: {', '.join(unrun)}")
    are_well = not unrun
    with tempfile.TemporaryDirectory() as name:
        for line, tools in RUNS:
            missing = [tool for tool in tools if shutil.which(tool) is None]
            if options.only not in line:
                continue
            if missing:
                print(f"skipped, since {' and '.join(missing)} is missing: {line}")
                continue
            are_well &= ends_well(options.program.resolve(), pathlib.Path(name), line)
    sys.exit(0 if are_well else 1)


if __name__ == "__main__":
    main()
