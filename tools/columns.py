#!/usr/bin/env python3
"""Counts the long lines of src/, specs/ and proofs/.

    tools/columns.py [REPOSITORY]

The status is 1 where a line has more than 240 columns, or where more than 300 have more than 160.
"""

import pathlib
import sys

LONG, LONGEST, MOST = 160, 240, 300


def main():
    root = pathlib.Path(sys.argv[1] if len(sys.argv) > 1 else ".")
    widths = [
        (len(line), path, number)
        for room in ("src", "specs", "proofs")
        for path in sorted(root.glob(f"crates/*/{room}/**/*"))
        if path.suffix in (".rt", ".antt")
        for number, line in enumerate(path.read_text().splitlines(), 1)
    ]
    long = [found for found in widths if found[0] > LONG]
    longest = [found for found in long if found[0] > LONGEST]
    for width, path, number in longest:
        print(f"{path}:{number} {width} columns")
    print(f"{len(widths)} lines, {len(long)} above {LONG} columns, {len(longest)} above {LONGEST}")
    return 1 if longest or len(long) > MOST else 0


if __name__ == "__main__":
    sys.exit(main())
