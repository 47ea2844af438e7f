#!/usr/bin/env python3
"""Lists the answers of tools/answers.py with the clauses that say when they come, what stands after a refusal, and
every public call of the libraries with the clauses of its contract, the edits that the prover must refuse in its body,
and whether the program of single calls makes it, or else whether a run of the whole program leads to it. A clause or a
call that isn't there ends it. .ci/run tries that; nobody keeps the tables.

Usage: tools/claims.py > claims.md

Clauses: the names of what a call ensures; `result` is a clause without a name. Edits in its body: wrong bodies that
change a line of this very function. Called by: names are read, and not types. So a method of a common name counts only
where the name before the dot tells of its type. *No program*: neither program makes the call or may lead to it.
"""

import glob
import os
import re
import sys

from answers import ANSWERS, LEFT, STANDS, STATUSES

ROOT = os.path.dirname(os.path.dirname(os.path.abspath(__file__)))
# the program that makes single calls
PROGRAMS = ["try_calls"]
# the programs that run the whole program
RUNS = ["welgutan", "try_runs"]
# of what is implemented for a type, the calls of these traits are listed
TRAITS = "Speaker", "Files", "Sink", "Wire", "Clock", "Ord"
# how documents write a number of calls
NUMBERS = "no", "one", "two", "three", "four", "five", "six", "seven", "eight", "nine", "ten"
# methods that types of the standard library have too
COMMON = "as_slice", "begin", "copy", "is_empty", "len", "new", "next", "of", "push", "read", "remove", "take"


def crates():
    """The crates from the bottom up."""
    with open(os.path.join(ROOT, "crates.txt")) as lines:
        for line in lines:
            line = line.split("#")[0].strip()
            if line:
                yield line.split(":")[0].split()[0]


def read(*parts):
    with open(os.path.join(ROOT, *parts)) as text:
        return text.read()


def sources(crate):
    folder = os.path.join(ROOT, "crates", crate, "src")
    for place, _, names in sorted(os.walk(folder)):
        for name in sorted(names):
            if name.endswith(".rt"):
                path = os.path.relpath(os.path.join(place, name), os.path.join(ROOT, "crates", crate))
                yield path


def exported(crate):
    """The names that the crate's root gives to others."""
    root = read("crates", crate, "src", "lib.rt")
    names = set()
    for group in re.findall(r"^pub use ([^;]*);", root, re.M):
        names.update(re.findall(r"\b([A-Za-z_][A-Za-z_0-9]*)\b(?!::)", group))
    return names


FN = re.compile(r"^( *)(?:pub\([a-z]+\) )?(pub )?(?:const )?fn ([a-z_0-9]+)")
IMPL = re.compile(r"^impl(?:<[^>]*>)? (?:([A-Z]\w*)(?:<.*>)? for )?([A-Z]\w*)")
TRAIT = re.compile(r"^pub trait ([A-Z]\w*)")
CLAUSE = re.compile(r"^ *(requires|ensures)(?: ([a-z_0-9]+))? \{(?: ([A-Z]\w*))?")
OF_ONE = re.compile(r"^impl ([A-Z]\w*)<(\w+)>")
ALIAS = re.compile(r"^pub type (\w+) = (\w+)<(\w+)>;", re.M)


def aliases():
    """The names that public types of a parameter have for one argument, by type and argument."""
    texts = [read("crates", crate, path) for crate in libraries() for path in sources(crate)]
    return {(of, one): name for text in texts for name, of, one in ALIAS.findall(text)}


def names_of(owner):
    """A type's own name, and the others under which it is called."""
    return {owner, *(name for (of, _), name in ALIASES.items() if of == owner)}


def head(lines):
    """The signature of the function in front of these lines."""
    text = ""
    for line in lines:
        if CLAUSE.match(line) or line.strip() == "{":
            break
        text += line.split("//")[0] + "\n"
        if line.rstrip().endswith(("{", ";")):
            break
    return text


def answer(lines, owner):
    """The types that the answer of the function in front of these lines names."""
    named = set(re.findall(r"\b[A-Z]\w*", head(lines).partition("->")[2]))
    return named | {owner} if owner and "Self" in named else named


def functions(text):
    """Each function: its owner, its trait, whether it is public, its name, its lines, its clauses, the types that its
    answer names, whether it is a law (which is given nothing and gives nothing, or has an empty body)."""
    owner = trait = None
    found = []
    current = None
    lines = text.split("\n")
    for number, line in enumerate(lines):
        if IMPL.match(line):
            trait, owner = IMPL.match(line).groups()
            of_one = OF_ONE.match(line)
            owner = ALIASES.get(of_one.groups(), owner) if of_one else owner
        elif TRAIT.match(line):
            owner, trait = TRAIT.match(line).group(1), "trait"
        elif line.startswith("}") and not line.startswith("})"):
            if current is None or current["indent"]:
                owner = trait = None
        match = FN.match(line)
        if match:
            indent, public, name = match.groups()
            inner = bool(indent)
            if current:
                current["last"] = number - 1
            current = {
                "owner": owner if inner else None, "trait": trait if inner else None, "public": bool(public),
                "name": name, "first": number, "last": number, "clauses": [], "records": {}, "indent": inner,
                "law": line.endswith(f"fn {name}()"),
            }
            current["answer"] = answer(lines[number:], current["owner"])
            found.append(current)
        if current:
            current["last"] = number
            current["law"] = current["law"] or line.strip() == "{}"
            match = CLAUSE.match(line)
            if match:
                kind, label, record = match.groups()
                if kind == "ensures":
                    current["clauses"].append(label or "result")
                    current["records"][label] = record
            if line == ("    }" if current["indent"] else "}"):
                current = None
    return found


def edits(crate):
    """Where each edit's first change stands: source file, line, name."""
    folder = os.path.join(ROOT, "crates", crate, "must-fail")
    if not os.path.isdir(folder):
        return
    for name in sorted(os.listdir(folder)):
        text = read("crates", crate, "must-fail", name)
        path = re.search(r"^file: (\S+)", text, re.M).group(1)
        old = re.search(r"^old: (.*)$", text, re.M).group(1)
        try:
            line = read("crates", crate, path).split(old)[0].count("\n")
        except FileNotFoundError:
            line = -1
        yield path, line, name[: -len(".edit")]


def uses():
    """The libraries that each crate names."""
    named = {}
    for line in read("crates.txt").split("\n"):
        line = line.split("#")[0].strip()
        if line:
            name, libraries = line.split(":")
            named[name.split()[0]] = libraries.split()
    return named


def libraries():
    """The crates that are listed, from the bottom up."""
    return [crate for crate in crates()
            if crate not in PROGRAMS and os.path.exists(os.path.join(ROOT, "crates", crate, "src", "lib.rt"))]


def public_fields():
    """The types that the public fields of each public type name, by the fields' names; of an enum, by no name."""
    found = {}
    for crate in libraries():
        for path in sources(crate):
            text = read("crates", crate, path)
            for kind, owner, inside in re.findall(r"^pub (struct|enum) (\w+)[^{;]*\{(.*?)^\}", text, re.M | re.S):
                fields = found.setdefault(owner, {})
                named = re.findall(r"^    pub (\w+): (.*)", inside, re.M) if kind == "struct" else [("", inside)]
                for name, types in named:
                    fields.setdefault(name, set()).update(re.findall(r"\b[A-Z]\w*", types))
    return found


def words_of(name):
    """The words that a name is made of, in the singular."""
    return {re.sub(r"(?<=[sx])es$|s$", "", word.lower()) for word in re.findall(r"[A-Z]?[a-z0-9]+", name)}


def snake(name):
    return re.sub(r"(?<!^)(?=[A-Z])", "_", name).lower()


class Program:
    """What a comparing program calls, judged by its text."""

    def __init__(self, name, known, found, fields):
        self.text = "\n".join(read("crates", name, path) for path in sources(name))
        self.own = {snake(owner) for owner in re.findall(r"\b(?:struct|enum) (\w+)", self.text)}
        self.imported = {crate: " ".join(re.findall(rf"\b{crate}::(\{{[^}}]*\}}|\w+)", self.text)) for crate in known}
        found = [(crate, function) for crate, function in found if crate in known]
        self.in_hand = set(re.findall(r"\b[A-Z]\w*", " ".join(self.imported.values())))
        while True:
            self.methods = {}
            for crate, function in found:
                if function["owner"] in self.in_hand:
                    self.methods.setdefault(function["name"], {})[function["owner"]] = function["trait"] == "trait"
            self.fields = {}
            for owner in self.in_hand & set(fields):
                for field, types in fields[owner].items():
                    self.fields.setdefault(field, set()).update(types)
            more = set().union(*self.fields.values(), *(f["answer"] for crate, f in found if self.calls(crate, f)))
            more |= {of for (of, _), name in ALIASES.items() if name in more | self.in_hand}
            if more <= self.in_hand:
                break
            self.in_hand |= more

    def calls(self, crate, function):
        """A function, where it is imported, by its name. A method by its type's name, or by a dot behind a value that
        may be of the type."""
        owner, name = function["owner"], function["name"]
        if owner is None:
            return bool(re.search(rf"\b{name}\b", self.imported.get(crate, ""))
                        and re.search(rf"(?<![.:\w]){name}\(", self.text))
        if crate not in self.imported or owner not in self.in_hand:
            return False
        return any(re.search(rf"\b{called}::{name}\b", self.text) for called in names_of(owner)) or any(
            owner in self.types_of(self.text[: match.start()].rsplit("\n", 1)[-1], name)
            for match in re.finditer(rf"\s*\.{name}\(", self.text))

    def types_of(self, line, name):
        """The types in hand of which the value at the line's end may be, of those with a method of that name: the one
        of its name, or of a public field of its name, or those with a word of it. A value whose name says nothing may
        be of each, but for a method that the standard library's types have too."""
        methods = self.methods[name]
        last = re.search(r"[a-z_]\w*$", line)
        last = last.group() if last else ""
        named = (
            {owner for owner, is_trait in methods.items() if snake(owner) == last and not is_trait}
            or (self.fields.get(last, set()) & set(methods) if line.endswith("." + last) else None)
            or {owner for owner in methods if words_of(owner) & words_of(last or line)}
        )
        is_own = last in self.own or re.search(r"(?<!\.)\bself$", line)
        return named or (set() if is_own or name in COMMON else set(methods))


def body(lines):
    """The code of a function, from the brace that opens it, without comments."""
    start = next((n for n, line in enumerate(lines) if line.strip() == "{"), None)
    if start is None:
        start = next((n for n, line in enumerate(lines) if line.rstrip().endswith("{")), len(lines))
    return "\n".join(line.split("//")[0] for line in lines[start + 1:])


class Text:
    """The names that a text of code has: words, functions that it may call, methods behind a dot, methods of a type."""

    def __init__(self, code):
        self.words = set(re.findall(r"\b\w+\b", code))
        self.plain = set(re.findall(r"(?<![.:\w])(\w+)\b(?! *:(?!:))", code))
        self.dotted = set(re.findall(r"\.(\w+)(?:::<[^(]*>)?\(", code))
        self.typed = set(re.findall(r"(?=\b(\w+)(?:::<[^(]*>)?::(\w+)\b)", code))

    def may_call(self, owner, name):
        if owner is None:
            return name in self.plain
        return name in self.dotted or any((called, name) in self.typed for called in {"Self"} | names_of(owner))


TYPE = re.compile(r"^(?:pub(?:\(\w+\))? )?(?:struct|enum|trait) (\w+)(.*(?:\n .*)*)", re.M)


def library_graph():
    """The texts of all functions of the libraries, by crate, type and name, and of all types, with no name; and the
    functions of traits that are implemented, by the types."""
    codes, implemented = {}, {}
    for crate in libraries():
        for path in sources(crate):
            text = read("crates", crate, path)
            lines = text.split("\n")
            codes.update({(crate, owner, ""): code for owner, code in TYPE.findall(text)})
            codes.update({(crate, name, ""): f"{of} {one}" for name, of, one in ALIAS.findall(text)})
            for function in functions(text):
                key = crate, function["owner"], function["name"]
                own = lines[function["first"]: function["last"] + 1]
                codes[key] = codes.get(key, "") + head(own) + body(own)
                if function["trait"] not in (None, "trait"):
                    implemented.setdefault(function["owner"], set()).add(key)
    return {key: Text(code) for key, code in codes.items()}, implemented


def reached(programs, graph):
    """The functions to which a run of these programs may lead, judged by names. A method is one where its type is named
    too, and one of a trait where the type is that it is implemented for."""
    texts, implemented = graph
    starts = {(name, None, "main"): Text("\n".join(read("crates", name, path) for path in sources(name)))
              for name in programs}
    texts = {**texts, **starts}
    below = uses()
    for name in list(below):
        below[name] = set(below[name]).union({name}, *(below.get(other, ()) for other in below[name]))
    allowed = set().union(*(below[name] for name in programs))
    by_word, waiting = {}, {}
    for key in texts:
        by_word.setdefault(key[2] or key[1], []).append(key)
    seen, todo = set(starts), list(starts)

    def reach(key):
        if key not in seen and key[0] in allowed:
            seen.add(key)
            todo.append(key)

    while todo:
        caller = todo.pop()
        text = texts[caller]
        if caller[2] == "":
            for key in [*implemented.get(caller[1], []), *waiting.pop(caller, [])]:
                reach(key)
        for word in text.words & set(by_word):
            for key in by_word[word]:
                crate, owner, name = key
                if key in seen or crate not in below[caller[0]] or name and not text.may_call(owner, name):
                    continue
                if name and owner and (crate, owner, "") not in seen:
                    waiting.setdefault((crate, owner, ""), []).append(key)
                else:
                    reach(key)
    return seen


def way_to(crate, path, function, ways):
    """How a call is reached that no comparing program makes."""
    if function["law"] or os.path.basename(path) == "laws.rt":
        return "a law"
    key = crate, function["owner"], function["name"]
    if key in ways["try_runs"]:
        return "`try_runs`"
    return ", ".join(f"through `{program}`" for program in PROGRAMS if key in ways[program]) or "no program"


def tables():
    named = uses()
    every = [(crate, function) for crate in libraries() for path in sources(crate)
             for function in functions(read("crates", crate, path))]
    fields = public_fields()
    programs = {name: Program(name, named[name], every, fields) for name in PROGRAMS}
    graph = library_graph()
    ways = {name: reached([name], graph) for name in PROGRAMS}
    ways["try_runs"] = reached(RUNS, graph)
    out = []
    ensured = {}
    for crate in libraries():
        names = exported(crate)
        rows = []
        for path in sources(crate):
            text = read("crates", crate, path)
            all_functions = functions(text)
            placed = [(line, name) for where, line, name in edits(crate) if where == path]
            for function in all_functions:
                owner, trait = function["owner"], function["trait"]
                if trait == "trait":
                    shown, public = f"{owner}::{function['name']}", owner in names
                elif owner:
                    shown = f"{owner}::{function['name']}"
                    public = owner in names and (function["public"] or trait in TRAITS)
                else:
                    shown, public = function["name"], function["public"] and function["name"] in names
                if not public:
                    continue
                inside = [name for line, name in placed if function["first"] <= line <= function["last"]]
                seen = [f"`{p}`" for p in PROGRAMS if programs[p].calls(crate, function)]
                clauses = ", ".join(f"`{c}`" for c in dict.fromkeys(function["clauses"])) or "by its trait's" if trait else ", ".join(
                    f"`{c}`" for c in dict.fromkeys(function["clauses"])) or "none"
                if not seen:
                    seen = [way_to(crate, path, function, ways)]
                rows.append((shown, path, clauses, ", ".join(f"`{n}`" for n in inside), ", ".join(seen)))
                ensured[crate, shown] = with_fields(crate, function) if trait is None else None
        if not rows:
            continue
        out.append(f"### `{crate}`\n")
        out.append("| call | clauses | edits in its body | called by |\n|---|---|---|---|")
        for shown, path, clauses, inside, seen in rows:
            out.append(f"| `{shown}` | {clauses} | {inside or '–'} | {seen} |")
        out.append("")
        rest = [name for where, line, name in edits(crate)]
        listed = {n for row in rows for n in re.findall(r"`([a-z_0-9]+)`", row[3])}
        hidden = [name for name in rest if name not in listed]
        if hidden:
            out.append("In functions below these calls: " + ", ".join(f"`{n}`" for n in hidden) + ".\n")
    return "\n".join([*answers(ensured), "## The calls\n", *out])


def with_fields(crate, function):
    """The clauses of a function, and of those that are a record their fields, as `gives.again`."""
    clauses = list(function["clauses"])
    for clause, record in function["records"].items():
        clauses += [f"{clause or 'result'}.{field}" for field in fields_of(crate, record)]
    return clauses


def records():
    """The fields of each record of the definitions, and of each word that stands for one, by crate and name."""
    found, words = {}, {}
    for path in sorted(glob.glob(os.path.join(ROOT, "crates", "*", "specs", "**", "*.antt"), recursive=True)):
        crate, text = os.path.relpath(path, ROOT).split(os.sep)[1], read(path)
        for name, inside in re.findall(r"^pub record (\w+)(.*?)(?=^\S|\Z)", text, re.M | re.S):
            found[crate, name] = re.findall(r"^  pub (\w+) :", inside, re.M)
        for name, body in re.findall(r"^abbrev pub (\w+) .*?^\1 [^=\n]*=\s+(\w+)", text, re.M | re.S):
            words[crate, name] = body
    for (crate, name), body in words.items():
        places = [(crate, body)] if (crate, body) in {**found, **words} else [key for key in found if key[1] == body]
        found.setdefault((crate, name), found.get(places[0], []) if len(places) == 1 else [])
    return found


def fields_of(crate, name):
    """The fields of the record that a clause of the crate names: its own, or the only one of that name."""
    places = [(crate, name)] if (crate, name) in RECORDS else [key for key in RECORDS if key[1] == name]
    return RECORDS[places[0]] if len(places) == 1 else []


def promises():
    """The fields of the records that a run of the program ensures, and a run of `record` or `keep`."""
    live = ("StayPromises", "RecordPromises", "KeepPromises")
    specs = (("Program.antt", "pub record Promises"), *(("Live.antt", f"pub record {name}") for name in live))
    found = (read("crates", "fs_cli", "specs", name).split(record, 1)[1] for name, record in specs)
    return {field for spec in found for field in re.findall(r"^  pub ([a-z_]+) :", spec, re.M)}


def of_promises(rows):
    """Rows of a table: a status, what is said of it, and the fields of `Promises`, or of what a command that stays promises,
    that say so. Each has to be there."""
    fields = promises()
    for status, said, names in rows:
        missing = set(names.split()) - fields
        if missing:
            sys.exit(f"status {status}: no field {missing} of Promises or of what a command that stays promises")
        yield f"| {status} | {said} | {', '.join(f'`{name}`' for name in names.split())} |"


def of_clauses(rows, ensured):
    """Rows of a table: an answer, what is said of it, and the clauses that say so. Each has to stand at its call."""
    for answered, said, calls in rows:
        cells = []
        for place in calls:
            crate, call, *names = place.split()
            known = ensured.get((crate, call))
            if (crate, call) not in ensured or (known is not None and not set(names) <= set(known)):
                sys.exit(f"{answered}: no clause {names} of {call} in {crate}")
            cells.append(f"`{call}` of `{crate}` (" + ", ".join(f"`{name}`" for name in names) + ")")
        yield f"| {answered} | {said} | {'; '.join(cells)} |"


def answers(ensured):
    """The tables of answers, and of what stands after a refusal."""
    return [
        "## Answers and their causes\n", "Of a run; the clauses are fields of `Promises`, and of `record` and `keep` of `StayPromises`, `RecordPromises` and `KeepPromises`, which `PROMISES.md` tells:\n",
        "| status | comes | clauses |\n|---|---|---|", *of_promises(STATUSES), "",
        "Of the layers; `Memory` is free wherever it can be answered:\n",
        "| answer | comes | clauses |\n|---|---|---|", *of_clauses(ANSWERS, ensured), "",
        "## What stands after a refusal\n",
        "Of a run, what it has written to the output; where the files have to tell for that, `PROMISES.md` says:\n",
        "| status | written | clauses |\n|---|---|---|", *of_promises(LEFT), "",
        "Of the layers:\n",
        "| after | stands | clauses |\n|---|---|---|", *of_clauses(STANDS, ensured), "",
    ]


def look_ups():
    """The calls by which `Unicast` gives a path or a route; PROMISES has to name each, and how many they are."""
    calls = [found["name"] for found in functions(read("crates", "fs_unicast", "src", "unicast.rt"))
             if found["owner"] == "Unicast" and found["public"] and found["answer"] & {"Path", "SharedPath", "Held"}]
    said = re.search(r"`Unicast` gives a path or a route by (\w+) calls([^;]*);", read("docs", "PROMISES.md"))
    names = re.findall(r"`(\w+)`", said.group(2)) if said else []
    if said is None or said.group(1) != NUMBERS[len(calls)] or sorted(names) != sorted(calls):
        sys.exit(f"docs/PROMISES.md: `Unicast` gives a path or a route by {len(calls)} calls: {', '.join(calls)}")


ALIASES = aliases()
RECORDS = records()


def main():
    look_ups()
    print(tables())


if __name__ == "__main__":
    main()
