#!/usr/bin/env python3
"""Times `convert` on dumps of growing size, and measures the memory that it takes.

    bench/convert.py PROGRAM [--megabytes N,N,..] [--runs N]

A dump holds the records of three peers: a message with AS numbers of four octets each, and now and then a change of
state, after which the life of the peer is made up anew. What is reported is megabytes a second and the most memory
that was resident.
"""

import argparse
import pathlib
import struct
import tempfile

from timing import best_of
from wire import HEAD, announce, peer, slash24

CONFIG = HEAD + "".join(peer(number, 65000 + number) for number in (1, 2, 3))


def mrt(seconds, subtype, peer, body):
    """A record of BGP4MP (type 16) with AS numbers of four octets."""
    front = struct.pack(">IIHH", 65000 + peer, 65000, 0, 1) + bytes([198, 51, 100, peer, 192, 0, 2, 254])
    return struct.pack(">IHHI", seconds, 16, subtype, len(front) + len(body)) + front + body


def said(number):
    return announce(slash24(number % 131072))


def block(seconds):
    """Records of a thousand messages and three changes of state."""
    parts = [mrt(seconds, 4, 1 + number % 3, said(number)) for number in range(1000)]
    parts += [mrt(seconds, 5, peer, struct.pack(">HH", 6, 1)) for peer in (1, 2, 3)]
    return b"".join(parts)


def write_dump(path, megabytes):
    piece = block(1)
    with open(path, "wb") as out:
        for _ in range(max(1, megabytes * 1000000 // len(piece))):
            out.write(piece)
    return path.stat().st_size


def main():
    parser = argparse.ArgumentParser()
    parser.add_argument("program")
    parser.add_argument("--megabytes", default="10,100,400")
    parser.add_argument("--runs", type=int, default=3)
    options = parser.parse_args()
    with tempfile.TemporaryDirectory() as name:
        folder = pathlib.Path(name)
        (folder / "config").write_text(CONFIG)
        for megabytes in map(int, options.megabytes.split(",")):
            size = write_dump(folder / "dump", megabytes)
            words = [options.program, "convert", folder / "config", folder / "dump"]
            best, _, most = best_of(options.runs, words, folder / "tape")
            print(f"{size / 1e6:8.1f} MB  {best:7.3f} s  {size / 1e6 / best:7.1f} MB/s  {most} kB resident")


if __name__ == "__main__":
    main()
