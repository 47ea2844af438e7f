#!/usr/bin/env python3
"""Times `pair` over the host's loopback on rules files of growing size, and measures the memory that it takes.

    bench/pair.py PROGRAM [--rules N,N,..] [--runs N] [--memory TRY_RUNS]

Each rule is TCP to one destination of /24 and one port, with a rate of no bytes. Reported are the rules a second from
the rules file to the listing, the same without the seconds that a file of no rules takes, and the most memory that was
resident. With the built program `try_runs` the same is run over a wire in memory too, as a case whose listing is
compared; its ends have room for about ten thousand rules.
"""

import argparse
import pathlib
import tempfile

from timing import best_of
from wire import CONFIG, frame, slash24

HEAD = "id = \"198.51.100.1\"\nas_path = [65001]\n"


def nlri_of(number):
    return frame(b"\1" + slash24(number % 131072) + bytes.fromhex("038106 048119")).hex()


def rule(number):
    return f"[[rule]]\nfamily = \"v4\"\nnlri = \"{nlri_of(number)}\"\nactions = \"8006fde900000000\"\n"


def over_loopback(program, folder, rules, runs):
    (folder / "rules").write_text(HEAD + "".join(map(rule, range(rules))))
    taken = best_of(runs, [program, "pair", folder / "config", folder / "rules"], folder / "listing")
    lines = (folder / "listing").read_text().count("\nv4 ")
    if lines != rules:
        raise SystemExit(f"{lines} rules listed of {rules}")
    return taken


def case_of(rules):
    """A case of `try_runs`: the files, the words, and what is to be listed, since no route makes a rule valid."""
    parts = [f"room {200 + 80 * rules}", "file config.toml"] + [f"  line {line}" for line in CONFIG.split("\n") if line]
    parts += ["file rules.toml"] + [f"  line {line}" for line in HEAD.split("\n") if line]
    for number in range(rules):
        parts += [f"  line {line}" for line in rule(number).split("\n") if line]
    parts += ["words pair config.toml rules.toml", "case rules over a wire in memory", "  out peer 1 established"]
    parts += [f"  out v4 invalid {nlri_of(number)} peer 1 Originator" for number in range(rules)]
    return "\n".join(parts + ["  ends 0", ""])


def in_memory(program, folder, rules, runs):
    (folder / "case").write_text(case_of(rules))
    taken = best_of(runs, [program, folder / "case"], folder / "told")
    if "1 cases, 0 differ" not in (folder / "told").read_text():
        raise SystemExit((folder / "told").read_text()[:400])
    return taken


def tell(kind, rules, taken, none):
    net = max(taken.clock - none.clock, 1e-9)
    pace = f"{rules / taken.clock:9.0f} rules/s  {rules / net:9.0f} net"
    print(f"{kind} {rules:8} rules  {taken.clock:7.3f} s  {pace}  {taken.peak} kB resident")


def main():
    parser = argparse.ArgumentParser()
    parser.add_argument("program")
    parser.add_argument("--rules", default="1000,10000")
    parser.add_argument("--runs", type=int, default=3)
    parser.add_argument("--memory", help="the built program try_runs")
    options = parser.parse_args()
    with tempfile.TemporaryDirectory() as name:
        folder = pathlib.Path(name)
        (folder / "config").write_text(CONFIG)
        none = over_loopback(options.program, folder, 0, options.runs)
        for rules in map(int, options.rules.split(",")):
            tell("loopback", rules, over_loopback(options.program, folder, rules, options.runs), none)
            if options.memory:
                start = in_memory(options.memory, folder, 0, options.runs)
                tell("memory  ", rules, in_memory(options.memory, folder, rules, options.runs), start)


if __name__ == "__main__":
    main()
