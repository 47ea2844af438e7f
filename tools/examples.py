#!/usr/bin/env python3
"""examples.py PROGRAM: runs each command that README and the documents show with `$`, and compares what they say it prints.

An example is an indented line that begins with `$ `, and the lines below it up to the next such line or the block's end.
Each is run by bash in a copy of crates/welgutan/data, where `welgutan` is PROGRAM. Behind a comment `FILE: MARK` an indented
block shows what stands in that source file between the lines `// MARK` and `// end`.
"""
import pathlib
import re
import shutil
import subprocess
import sys
import tempfile

ROOT = pathlib.Path(__file__).resolve().parent.parent
DATA = ROOT / "crates" / "welgutan" / "data"
INDENT = "    "


def examples(text):
    """The commands of a document, each with the lines that it is to print."""
    found = None
    for line in [*text.split("\n"), ""]:
        if line.startswith(INDENT + "$ "):
            if found:
                yield found
            found = (line[len(INDENT) + 2 :], [])
        elif found and line.startswith(INDENT):
            found[1].append(line[len(INDENT) :])
        elif found:
            yield found
            found = None


def shown(text):
    """The blocks of a document that show a source file, each with the lines that stand there."""
    for file, mark, block in re.findall(r"^<!-- (\S+): (.+) -->\n\n((?:    .*\n|\n)+)", text, re.M):
        source = (ROOT / file).read_text()
        between = source.partition(f"// {mark}\n")[2].partition("// end\n")[0]
        yield f"{file}: {mark}", [line[len(INDENT) :] for line in block.rstrip().split("\n")], between.rstrip().split("\n")


def printed(command, folder, path):
    ran = subprocess.run(["bash", "-c", command], cwd=folder, env={"PATH": path}, capture_output=True, text=True, timeout=300)
    return ran.stdout.splitlines() + ran.stderr.splitlines()


def main():
    program = pathlib.Path(sys.argv[1]).resolve()
    count = wrong = 0
    with tempfile.TemporaryDirectory() as made:
        folder = pathlib.Path(made)
        (folder / "bin").mkdir()
        (folder / "bin" / "welgutan").symlink_to(program)
        shutil.copytree(DATA, folder / "data")
        path = f"{folder / 'bin'}:{ROOT / 'tools'}:/usr/bin:/bin"
        for page in [ROOT / "README.md", *sorted((ROOT / "docs").glob("*.md"))]:
            for command, lines in examples(page.read_text()):
                count += 1
                found = printed(command, folder / "data", path)
                if found != lines:
                    wrong += 1
                    print(f"{page.name}: $ {command}\nis said to print", *lines, "and prints", *found, sep="\n")
            for place, lines, stands in shown(page.read_text()):
                count += 1
                if lines != stands:
                    wrong += 1
                    print(f"{page.name}: {place}\nis shown as", *lines, "and stands there as", *stands, sep="\n")
    print(f"examples: {count} tried, {wrong} differ")
    sys.exit(1 if wrong or not count else 0)


if __name__ == "__main__":
    main()
