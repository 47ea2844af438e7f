#!/usr/bin/env python3
"""Times tools/verdicts.py on the packets of bench/enforce.py, and tells its peak of memory beside that of ten packets.

    bench/verdicts.py PROGRAM [--packets N] [--rules N] [--runs N]

Reported are packets per processor second, start and end included, and the peak, as GNU time tells them.
"""

import argparse
import pathlib
import subprocess
import tempfile

from enforce import port_packets, tape
from timing import best_of
from wire import CONFIG, write_capture

TOOL = str(pathlib.Path(__file__).resolve().parent.parent / "tools" / "verdicts.py")


def measure(program, packets, options, folder):
    capture, lines = folder / "capture", folder / "lines"
    write_capture(capture, port_packets(packets, options.rules))
    with open(lines, "wb") as out:
        subprocess.run([program, "enforce", folder / "config", folder / "tape", capture], stdout=out, check=True)
    ways = {
        "report": [TOOL, capture, lines],
        "report and split": [TOOL, capture, lines, "--split", folder / "parts"],
        "json": [TOOL, capture, lines, "--json"],
        "join": [TOOL, "--join", f"{lines}={capture}"],
    }
    for name, words in ways.items():
        _, seconds, peak = best_of(options.runs, words)
        print(f"{name}: {packets} packets, {seconds:.2f} s, {packets / seconds:,.0f} a second, {peak / 1024:.1f} MB",
              flush=True)


def main():
    parser = argparse.ArgumentParser(description=__doc__.split("\n", 1)[0])
    parser.add_argument("program", type=pathlib.Path)
    parser.add_argument("--packets", type=int, default=1_000_000)
    parser.add_argument("--rules", type=int, default=100)
    parser.add_argument("--runs", type=int, default=1)
    options = parser.parse_args()
    with tempfile.TemporaryDirectory() as made:
        folder = pathlib.Path(made)
        (folder / "config").write_text(CONFIG)
        (folder / "tape").write_bytes(tape(options.rules))
        for packets in (10, options.packets):
            measure(str(options.program.resolve()), packets, options, folder)


if __name__ == "__main__":
    main()
