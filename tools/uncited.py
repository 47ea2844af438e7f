#!/usr/bin/env python3
"""Names the lemmas and definitions of proofs and specs that no other place names.

    tools/uncited.py [REPOSITORY]

Search finds nothing that isn't named, so such a lemma serves no proof. A name counts as used where it stands anywhere
in its own crate, or in one above, but in its own signature and its own clauses. The names of a record's parts in specs/
tell what the parts are, and need no use. The status is 1 where something is named nowhere else.
"""

import collections
import pathlib
import re
import sys

NAME = r"[A-Za-z_][\w'\-]*"
HEAD = re.compile(rf"^( *)(?:(?:abbrev|pub|data|record) )*({NAME}) *:(?!:)")
GENERATED = ("Answers.antt", "Invariants.antt")


def sources(root):
    """The text of each source file below crates/, without what builds leave there."""
    for path in sorted(root.glob("crates/*/**/*")):
        if path.suffix in (".rt", ".antt") and "out" not in path.relative_to(root).parts[2:3]:
            yield path, path.read_text()


def block_of(lines, start, indent, name):
    """The lines of a definition: its signature and its clauses."""
    head = re.compile(rf"{re.escape(name)}(?![\w'\-])|[\])}}]|unfolding ")
    end = start + 1
    while end < len(lines):
        line = lines[end]
        deep = len(line) - len(line.lstrip())
        if line.strip() and deep <= indent and not (deep == indent and head.match(line.lstrip())):
            break
        end += 1
    return lines[start:end]


def crate_of(root, path):
    return path.relative_to(root).parts[1]


def above(root):
    """Of each crate itself and the crates that stand on it."""
    crates = {}
    for line in (root / "crates.txt").read_text().split("\n"):
        if found := re.match(r"(\w+):(.*)", line):
            crates[found[1]] = {found[1]}
            for low in set(found[2].split()) & set(crates):
                for users in crates.values():
                    users.update({found[1]} if low in users else ())
    return crates


def uncited(root):
    texts = dict(sources(root))
    words = collections.defaultdict(collections.Counter)
    for path, text in texts.items():
        words[crate_of(root, path)].update(re.findall(NAME, text))
    users = above(root)
    for path, text in texts.items():
        if path.suffix != ".antt" or path.name in GENERATED:
            continue
        lines = text.split("\n")
        for start, line in enumerate(lines):
            if found := HEAD.match(line):
                indent, name = found.groups()
                if indent and "specs" in path.parts:
                    continue
                own = "\n".join(block_of(lines, start, len(indent), name))
                uses = sum(words[crate][name] for crate in users[crate_of(root, path)])
                if uses == re.findall(NAME, own).count(name):
                    yield path.relative_to(root), start + 1, name


def main():
    root = pathlib.Path(sys.argv[1] if len(sys.argv) > 1 else ".")
    found = list(uncited(root))
    for path, line, name in found:
        print(f"{path}:{line}", name)
    print(f"{len(found)} named nowhere else")
    return 1 if found else 0


if __name__ == "__main__":
    sys.exit(main())
