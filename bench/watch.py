#!/usr/bin/env python3
"""Runs what grows by the square in a program that is right and slow, each under a limit of processor time.

    bench/watch.py PROGRAM [--factor F] [--only WORDS]

No clause of a contract bounds what a run takes of the processor, so these runs do: changes of rules beside many rules,
with a packet between each two; packets beside many rules of one destination; two paths of a network in turn beside many
rules for it; messages that change nothing beside many rules. Each limit is some ten times what the run is to take, by
the figures of README and HOSTILE, and below what a body takes that does all anew for each change, packet or message. A
run above its limit is ended and told, and the status is 1. --factor makes the limits longer, for a slow machine.
"""

import argparse
import pathlib
import sys
import tempfile
from typing import Callable, NamedTuple

import hostile
import moments
from timing import Ended, run as timed
from wire import CONFIG, KEEPALIVE, TAPE, says, up


class Run(NamedTuple):
    name: str
    limit: float        # processor seconds
    write: Callable     # writes the tape and the capture into a folder
    commands: tuple = ("enforce",)


def changes(name, rules, items):
    """Items between packets, one before each, beside so many rules."""
    def write(folder):
        (folder / "config").write_text(CONFIG)
        tape = moments.start(rules) + moments.changes(items, items, moments.CHANGES[name])
        (folder / "tape").write_bytes(tape)
        moments.capture(folder / "capture", items, rules)
    return write


def keepalives(rules, items):
    def write(folder):
        (folder / "config").write_text(CONFIG)
        items_of = (says(KEEPALIVE, moment=moment) for moment in moments.moments(items, items))
        (folder / "tape").write_bytes(moments.start(rules) + b"".join(items_of))
        moments.capture(folder / "capture", items, rules)
    return write


def shape(make, count):
    """A shape of `hostile.py`."""
    def write(folder):
        tape, capture = make(count)
        (folder / "config").write_text(hostile.peers(4))
        (folder / "tape").write_bytes(TAPE + tape)
        (folder / "capture").write_bytes(capture)
    return write


def two_paths(rules, turns):
    """Two paths of one network in turn, beside so many rules for it, of which no validity changes."""
    def made(_):
        front, capture = hostile.two_paths_in_turn(2)
        shown = len(up()) + sum(map(len, hostile.rules_for(NETWORK, 2)))
        return up() + b"".join(hostile.rules_for(NETWORK, rules)) + front[shown:] * (turns // 2), capture
    return shape(made, turns)


NETWORK = bytes([24, 192, 0, 2])
RUNS = [
    *(Run(f"10,000 changes {name} beside 10,000 rules", 10, changes(name, 10000, 10000), ("enforce", "changes"))
      for name in moments.CHANGES),
    Run("100,000 packets beside 1,000 rules of one destination", 0.7, shape(hostile.packets_to_one_destination, 1000)),
    Run("100,000 packets beside 8,000 rules of one destination", 2, shape(hostile.packets_to_one_destination, 8000)),
    Run("two paths in turn 40,000 times beside 8,000 rules for their network", 2, two_paths(8000, 40000)),
    Run("10,000 KEEPALIVEs beside 100,000 rules", 25, keepalives(100000, 10000), ("enforce", "changes")),
]
FILES = {"enforce": ("config", "tape", "capture"), "changes": ("config", "tape")}


def has_changes(program, folder):
    """Whether the program has the command: words that are none end with 2."""
    try:
        timed([program, "changes", folder / "none", folder / "none"], status=2)
    except Ended:
        return True
    return False


def over_limit(program, run, folder, factor, commands):
    """The commands of a run that took more than they may; each is told."""
    run.write(folder)
    wrong = []
    for command in (each for each in run.commands if each in commands):
        limit = run.limit * factor
        try:
            spent = timed([program, command, *(folder / name for name in FILES[command])], limit=limit).processor
            told, is_over = f"{spent:.2f} of {limit:g} processor seconds", spent > limit
        except Ended as ended:
            told, is_over = f"{ended}, of {limit:g}", True
        print(f"{command}: {run.name}: {told}{', which is too much' if is_over else ''}", flush=True)
        wrong += [command] if is_over else []
    return wrong


def main():
    parser = argparse.ArgumentParser(description=__doc__, formatter_class=argparse.RawDescriptionHelpFormatter)
    parser.add_argument("program", type=pathlib.Path)
    parser.add_argument("--factor", type=float, default=1.0)
    parser.add_argument("--only", default="")
    options = parser.parse_args()
    program = options.program.resolve()
    with tempfile.TemporaryDirectory() as name:
        folder = pathlib.Path(name)
        commands = ["enforce"] + ["changes"] * has_changes(program, folder)
        runs = [run for run in RUNS if options.only in run.name]
        wrong = [over_limit(program, run, folder, options.factor, commands) for run in runs]
    sys.exit(1 if any(wrong) else 0)


if __name__ == "__main__":
    main()
