#!/usr/bin/env python3
"""Times `shadow` beside `rules` on made-up tapes, and reports processor seconds.

    bench/shadow.py PROGRAM [--runs N] [COUNT ..]

One peer announces 10.0.0.0/8 and COUNT flow rules under it (1000 and 100000 where none is given). Every tenth
destination has two rules, protocols from 6 on and protocol 17, of which the second can never act; each of the others has
one, for UDP to a port. `rules` plays the same tape and lists the rules, so that the difference is what the report takes.
"""

import argparse
import pathlib
import struct
import sys
import tempfile

from timing import best_of
from wire import CONFIG, TAPE, announce, flow, says, up

COUNTS = [1_000, 100_000]
def rules(count):
    """The components of so many rules, two of every tenth destination."""
    made = 0
    place = 0
    while made < count:
        destination = bytes([1, 32, 10]) + place.to_bytes(3, "big")
        if place % 10 == 0 and made + 1 < count:
            yield destination + bytes.fromhex("038306")
            yield destination + bytes.fromhex("03910011")
            made += 2
        else:
            yield destination + bytes.fromhex("038111 0591") + struct.pack(">H", place % 65536)
            made += 1
        place += 1


def tape(count):
    """The tape, and how many of its rules can never act."""
    parts = [TAPE, up(), says(announce(b"\x08\x0a"))]
    covered = 0
    for components in rules(count):
        covered += components.endswith(bytes.fromhex("03910011"))
        parts.append(says(flow(components, b"")))
    return b"".join(parts), covered


def best(program, word, folder, runs):
    """What a run writes, the least processor seconds, and the peak of memory in kilobytes."""
    words = [program, word, folder / "peers.toml", folder / "rules.tape"]
    _, seconds, peak = best_of(runs, words, folder / "told")
    return (folder / "told").read_bytes(), seconds, peak


def main():
    parser = argparse.ArgumentParser(description=__doc__.split("\n", 1)[0])
    parser.add_argument("program")
    parser.add_argument("counts", nargs="*", type=int, metavar="COUNT")
    parser.add_argument("--runs", type=int, default=3)
    options = parser.parse_intermixed_args()

    print("| rules | covered | `rules` seconds | `shadow` seconds | peak MB of `shadow` |")
    print("|---|---|---|---|---|")
    for count in options.counts or COUNTS:
        with tempfile.TemporaryDirectory() as name:
            folder = pathlib.Path(name)
            (folder / "peers.toml").write_text(CONFIG)
            octets, covered = tape(count)
            (folder / "rules.tape").write_bytes(octets)
            listing, listed, _ = best(options.program, "rules", folder, options.runs)
            if listing.count(b"\nv4 ") != count:
                sys.exit(f"rules listed {listing.count(b'v4 ')} of {count} rules")
            text, seconds, peak = best(options.program, "shadow", folder, options.runs)
            if text.count(b" covered by ") != covered:
                sys.exit(f"shadow told {text.count(b' covered by ')} of {covered} rules")
            print(f"| {count} | {covered} | {listed:.3f} | {seconds:.3f} | {peak / 1024:.1f} |", flush=True)


if __name__ == "__main__":
    main()
