#!/usr/bin/env python3
"""Makes the table of crates in docs/DESIGN.md out of crates.txt.

    tools/layers.py [--check]

It writes the table into DESIGN, between the lines that name this script: a row for each comment of crates.txt, with the
crates below it, linked where one has a page. With --check it writes nothing, and ends with 1 where the table there is
another.
"""

import pathlib
import sys

ROOT = pathlib.Path(__file__).resolve().parent.parent
DESIGN = ROOT / "docs" / "DESIGN.md"
BEGIN, END = "<!-- made by tools/layers.py -->\n", "<!-- end -->\n"


def groups():
    """The comments of crates.txt, each with the crates that follow it."""
    found = []
    for line in (ROOT / "crates.txt").read_text().split("\n"):
        if line.startswith("#") and "NAME:" not in line:
            found.append((line[1:].strip(), []))
        elif ":" in line and not line.startswith("#"):
            found[-1][1].append(line.split(":")[0].split()[0])
    return found


def shown(crate):
    """Its name, which leads to its page if it has one."""
    folder = f"crates/{crate}"
    return f"[`{crate}`](../{folder})" if (ROOT / folder / "README.md").exists() else f"`{crate}`"


def table():
    rows = [f"| {subject} | {', '.join(shown(crate) for crate in crates)} |" for subject, crates in groups()]
    return "\n".join(["| | crates |", "|---|---|", *rows]) + "\n"


def main(words):
    text = DESIGN.read_text()
    before, rest = text.split(BEGIN)
    told, behind = rest.split(END)
    if words == ["--check"]:
        if told != table():
            sys.exit("docs/DESIGN.md: the table of crates isn't that of crates.txt: run tools/layers.py")
    elif words:
        sys.exit(__doc__)
    else:
        DESIGN.write_text(before + BEGIN + table() + END + behind)


if __name__ == "__main__":
    main(sys.argv[1:])
