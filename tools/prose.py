#!/usr/bin/env python3
"""Tells how long the sentences of the documents are, and the documents together.

    tools/prose.py [DOCUMENT ..]

Of each document the mean of its sentences' words is printed, and each sentence of more than 40. The status is 1 where
there is such a sentence, or where a mean is above 18. Without words it looks at every document and every crate's page,
and the status is 1 too where README and docs/ have more than 110 KB together, or a page more than 25 lines.

A sentence ends at a full stop, a question mark or an exclamation mark with a space behind it, and where a paragraph, an
item or a cell of a table ends. Code is one word, and a link has the words of its text. Blocks of commands aren't read,
nor are headings, and cells below four words.
"""

import argparse
import pathlib
import re
import sys

ROOT = pathlib.Path(__file__).resolve().parent.parent
MOST, MEAN, LEAST_CELL = 40, 18, 4
MOST_OCTETS, MOST_LINES = 110 * 1024, 25


def plain(text):
    """The text without its marks: code as one word, links and pictures as their words."""
    text = re.sub(r"`[^`]*`", "CODE", text)
    text = re.sub(r"!?\[([^\]]*)\]\([^)]*\)", r"\1", text)
    return text.replace("**", "").replace("*", "")


def blocks(text):
    """Paragraphs, items and cells, each with whether it is a cell."""
    for line in text.split("\n"):
        if line.startswith("|"):
            if not re.fullmatch(r"[|\s:-]+", line):
                # A bar within code is no border.
                yield from ((cell, True) for cell in plain(line.replace("\\|", "")).strip().strip("|").split("|"))
        elif line.strip() and not line.startswith(("    ", "#", "<!--")):
            yield plain(re.sub(r"^\s*(?:- |\d+\. )", "", line)), False


def sentences(text):
    for block, is_cell in blocks(text):
        for sentence in re.split(r"(?<=[.?!])(?:[)*\"]*) +", block.strip()):
            words = [word for word in sentence.split() if re.search(r"\w", word)]
            if len(words) >= (LEAST_CELL if is_cell else 1):
                yield len(words), sentence


def look(path):
    """Prints what is to be said of a document, and tells whether it is well."""
    found = list(sentences(path.read_text()))
    mean = sum(length for length, _ in found) / max(1, len(found))
    long = [(length, sentence) for length, sentence in found if length > MOST]
    print(f"{path.relative_to(ROOT)}: {len(found)} sentences of {mean:.1f} words, {len(long)} above {MOST}")
    for length, sentence in long:
        print(f"  {length}: {sentence[:160]}")
    return not long and mean <= MEAN


def are_short(pages):
    """Prints how many octets the pages have together, and tells whether they are no more than MOST_OCTETS."""
    octets = sum(page.stat().st_size for page in pages)
    print(f"README.md and docs: {octets} octets, at most {MOST_OCTETS}")
    return octets <= MOST_OCTETS


def is_short(page):
    """Whether a crate's page has no more than MOST_LINES; one that has more is named."""
    lines = page.read_text().count("\n")
    if lines > MOST_LINES:
        print(f"{page.relative_to(ROOT)}: {lines} lines, at most {MOST_LINES}")
    return lines <= MOST_LINES


def main():
    parser = argparse.ArgumentParser(description=__doc__, formatter_class=argparse.RawDescriptionHelpFormatter)
    parser.add_argument("documents", nargs="*", type=pathlib.Path)
    chosen = [path.resolve() for path in parser.parse_args().documents]
    pages = [ROOT / "README.md", *sorted((ROOT / "docs").glob("*.md"))]
    others = [path for path in sorted(ROOT.glob("*.md")) if path not in pages]
    of_crates = sorted(ROOT.glob("crates/*/README.md"))
    found = [look(path) for path in chosen or pages + others + of_crates]
    if not chosen:
        found += [are_short(pages), *map(is_short, of_crates)]
    sys.exit(0 if all(found) else 1)


if __name__ == "__main__":
    main()
