#!/usr/bin/env python3
"""Times README's first command in a copy of the sources that has nothing built, beside a program that does nothing.

    bench/first.py

The second one stands on the same crates of the kit, so what it takes is the kit's own. A line tells the seconds on the
clock and of the processor of both.
"""

import pathlib
import resource
import shutil
import subprocess
import sys
import tempfile
import time

ROOT = pathlib.Path(__file__).resolve().parent.parent
COMMAND = ["rt", "try", "--", "enforce", "data/peers.toml", "data/sessions.tape", "data/packets.pcap"]
KIT_CRATES = "byteorder toml hex itoa"
IDLE = """//! A program that does nothing.
#![tactic(auto)]

use std::process::ExitCode;

fn main(rt: HostRuntime) -> ExitCode {
    ExitCode::from(0)
}
"""


def processor_seconds():
    used = resource.getrusage(resource.RUSAGE_CHILDREN)
    return used.ru_utime + used.ru_stime


def spent(words, folder):
    """Seconds on the clock and of the processor."""
    begun, used = time.monotonic(), processor_seconds()
    done = subprocess.run(words, cwd=folder, stdout=subprocess.PIPE, stderr=subprocess.STDOUT, text=True, check=False)
    if done.returncode != 0:
        sys.exit(f"first: {' '.join(words)} ended with status {done.returncode}\n{done.stdout}")
    return f"{time.monotonic() - begun:.0f} s on the clock, {processor_seconds() - used:.0f} of the processor"


def main():
    with tempfile.TemporaryDirectory() as name:
        copy = pathlib.Path(name)
        shutil.copytree(ROOT / "crates", copy / "crates", ignore=shutil.ignore_patterns("out", "must-fail"))
        shutil.copy(ROOT / "HANDLES", copy)
        idle = copy / "crates" / "idle"
        (idle / "src").mkdir(parents=True)
        (idle / "src" / "main.rt").write_text(IDLE)
        (copy / "crates.txt").write_text((ROOT / "crates.txt").read_text() + f"idle: {KIT_CRATES}\n")
        kit = spent(COMMAND[:2], idle)
        whole = spent(COMMAND, copy / "crates" / "welgutan")
        print(f"README's first command: {whole}; of a program that does nothing: {kit}")


if __name__ == "__main__":
    main()
