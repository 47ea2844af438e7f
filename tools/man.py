#!/usr/bin/env python3
"""Makes the manual pages out of docs/FORMATS.md and of what the tools say of themselves, so that these can't differ.

    tools/man.py [FOLDER]

The pages of `welgutan`, `welgutan-nft` and `welgutan-verdicts` are written into FOLDER; without it that of `welgutan`
goes to standard output. They are in the language of mandoc (mdoc), with tables as tbl takes them. Sections of FORMATS
whose heading is in capitals are files; what isn't commands, files, sizes, statuses or a tool's is output. The version
is the newest one of CHANGELOG.md.
"""

import ast
import itertools
import os
import pathlib
import re
import sys
import textwrap
import time

from welgutan.command import parser_of

ROOT = pathlib.Path(__file__).resolve().parent.parent
FORMATS, CHANGELOG = ROOT / "docs" / "FORMATS.md", ROOT / "CHANGELOG.md"
VERDICTS = ROOT / "tools" / "verdicts.py"

# The line by which tbl is called stands first.
HEAD = """'\\" t
.Dd {date}
.Dt {title} 1
.Os "welgutan {version}"
.Sh NAME
.Nm {name}
.Nd {purpose}
"""
PURPOSES = {
    "welgutan": "which BGP flow specification rules are admitted, and what they do to packets",
    "welgutan-nft": "lets admitted flow specification rules act in Linux",
    "welgutan-verdicts": "tables, pictures and JSON of what welgutan said of a capture",
}
OF_NFT = "What `tools/nft.py` makes of the listing"
STANDARDS = "RFC 8955, RFC 8956 and RFC 9117, with RFC 4271, RFC 4486, RFC 6396 and RFC 7606."
ESCAPES = str.maketrans({"\\": "\\e", "~": "\\(ti", "^": "\\(ha", "'": "\\(aq", "`": "\\(ga", "-": "\\-"})
SENTENCE_END = re.compile(r"(?<=[^.][.!?:])\s+|(?<=[.!?]\))\s+")
WIDTH = 78
NARROW = 24


def sections(text):
    """The heading and the lines of each section, in their order."""
    parts = re.split(r"^## (.*)\n", text, flags=re.M)[1:]
    return {heading: body.strip("\n").split("\n") for heading, body in zip(parts[::2], parts[1::2])}


def guarded(line):
    """A line that isn't taken for a request, though it begins like one."""
    return "\\&" + line if line.startswith((".", "'")) else line


def inline(text):
    """Words of a paragraph, with code in bold."""
    pieces = re.split(r"`([^`]+)`", text)
    pieces[1::2] = [f"\\fB{code.translate(ESCAPES)}\\fR" for code in pieces[1::2]]
    pieces[::2] = [re.sub(r"\*([^*]+)\*", r"\\fI\1\\fR", plain.replace("\\", "\\e").replace("~", "\\(ti"))
                   for plain in pieces[::2]]
    return "".join(pieces)


def filled(text):
    """A paragraph, each sentence of which begins a line."""
    sentences = SENTENCE_END.split(inline(text))
    lines = [textwrap.wrap(sentence, WIDTH, break_long_words=False, break_on_hyphens=False) for sentence in sentences]
    return [guarded(line) for line in itertools.chain.from_iterable(lines)]


def cells(row):
    return [cell.strip() for cell in row.strip().strip("|").split("|")]


def table(lines):
    """A table, whose wide columns share the room that is left."""
    head, *rows = [cells(line) for line in (lines[0], *lines[2:])]
    rows = [head] * any(head) + rows
    is_wide = [max(len(row[column]) for row in rows) > NARROW for column in range(len(head))]
    out = [".Pp", ".TS", " ".join("lx" if wide else "l" for wide in is_wide) + "."]
    for row in rows:
        blocks = ["\n".join(["T{", *filled(cell), "T}"]) if wide else inline(cell) for cell, wide in zip(row, is_wide)]
        out.append("\t".join(blocks))
    return [*out, ".TE"]


def example(lines):
    return [".Bd -literal -offset indent", *(guarded(line[4:].replace("\\", "\\e")) for line in lines), ".Ed"]


def kind_of(line):
    """What a line belongs to."""
    if not line.strip():
        return "nothing"
    starts = {"    ": "example", "|": "table", "### ": "heading"}
    return next((kind for start, kind in starts.items() if line.startswith(start)), "paragraph")


def body(lines):
    """The text of a section."""
    out = []
    for kind, group in itertools.groupby(lines, kind_of):
        found = list(group)
        if kind == "example":
            out += example(found)
        elif kind == "table":
            out += table(found)
        elif kind == "heading":
            out += [".Pp", f".Sy {found[0][4:]}"]
        elif kind == "paragraph":
            out += itertools.chain.from_iterable([".Pp", *filled(line)] for line in found)
    return out


def without_first_break(lines):
    """A section begins with a paragraph by itself."""
    return lines[1:] if lines[:1] == [".Pp"] else lines


def synopsis(lines):
    """The commands, whose words in capitals stand for others."""
    out = []
    for line in lines:
        words = [f"Ar {word}" if word.isupper() else f"Cm {word}" for word in line.split()[1:]]
        out += [".Nm", "." + " ".join(words)]
    return out


def subsections(found):
    """Sections of FORMATS under headings of their own."""
    for heading, lines in found.items():
        yield ".Ss " + heading.replace("`", "")
        yield from without_first_break(body(lines))


def head(name):
    version = re.search(r"^## (\d+\.\d+\.\d+)$", CHANGELOG.read_text(), re.M)[1]
    return HEAD.format(date=day(), title=name.upper(), version=version, name=name, purpose=PURPOSES[name])


def see_also(name):
    others = [other for other in PURPOSES if other != name]
    return [".Sh SEE ALSO", *(f".Xr {other} 1 ," for other in others[:-1]), f".Xr {others[-1]} 1"]


def whole(name, lines):
    return head(name) + "\n".join([*lines, *see_also(name), ".Sh STANDARDS", *filled(STANDARDS)]) + "\n"


def program_page(text):
    found = sections(text)
    commands = found.pop("The commands")
    statuses, sizes = found.pop("Statuses"), found.pop("Sizes")
    del found[OF_NFT]
    files = {heading: found.pop(heading) for heading in list(found) if heading.isupper()}
    forms = [line for line in commands if kind_of(line) == "example"]
    rest = [line for line in commands if kind_of(line) != "example"]
    lines = [".Sh SYNOPSIS", *synopsis(forms), ".Sh DESCRIPTION", *without_first_break(body(rest))]
    lines += [".Sh OUTPUT", *subsections(found), ".Sh LIMITS", *without_first_break(body(sizes))]
    lines += [".Sh FILES", *subsections(files), ".Sh EXIT STATUS", *without_first_break(body(statuses))]
    return whole("welgutan", lines)


def forms_of(lines):
    """The lines that show how a tool is called, under the tool's installed name, and the other lines."""
    calls = [line for line in lines if re.match(r"    tools/\w+\.py ", line)]
    return ["    " + call.split(maxsplit=1)[1] for call in calls], [line for line in lines if line not in calls]


def tool_synopsis(forms):
    return list(itertools.chain.from_iterable((".Nm", guarded(form.strip().translate(ESCAPES))) for form in forms))


def options_of_nft():
    """What the tool says of its options, as a table."""
    rows = ["| | |", "|---|---|"]
    for action in parser_of("")._actions:
        if action.option_strings and action.dest != "help":
            value = action.metavar or ",".join(action.choices or ())
            rows.append(f"| `{' '.join([*action.option_strings, value]).strip()}` | {action.help} |")
    return without_first_break(table(rows))


def nft_page(text):
    forms, rest = forms_of(sections(text)[OF_NFT])
    rest = [line.replace("tools/nft.py", "welgutan-nft") for line in rest]
    return whole("welgutan-nft", [".Sh SYNOPSIS", *tool_synopsis(forms), ".Sh DESCRIPTION",
                                  *without_first_break(body(rest)), ".Sh OPTIONS", *options_of_nft()])


def paragraphs(text):
    """A text without its line breaks but in examples, its options as code."""
    for block in text.strip("\n").split("\n\n"):
        if kind_of(block) == "example":
            yield from block.split("\n")
        else:
            yield re.sub(r"(?<![\w`-])(--[a-z]+)", r"`\1`", " ".join(block.split("\n")))


def verdicts_page():
    forms, rest = forms_of(list(paragraphs(ast.get_docstring(ast.parse(VERDICTS.read_text())))))
    return whole("welgutan-verdicts", [".Sh SYNOPSIS", *tool_synopsis(forms), ".Sh DESCRIPTION",
                                       *without_first_break(body(rest))])


def day():
    """The day of the last change to FORMATS, or the one that reproducible builds name."""
    seconds = float(os.environ.get("SOURCE_DATE_EPOCH", FORMATS.stat().st_mtime))
    return time.strftime("%B %-d, %Y", time.gmtime(seconds))


def main():
    text = FORMATS.read_text()
    if len(sys.argv) != 2:
        sys.stdout.write(program_page(text))
        return
    pages = {"welgutan": program_page(text), "welgutan-nft": nft_page(text), "welgutan-verdicts": verdicts_page()}
    for name, page in pages.items():
        (pathlib.Path(sys.argv[1]) / f"{name}.1").write_text(page)


if __name__ == "__main__":
    main()
