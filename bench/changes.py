#!/usr/bin/env python3
"""Measures what one change costs `changes`, beside many rules and beside many routes under one wide destination.

    bench/changes.py PROGRAM [--items N] [--runs N] [--rules N,N,..] [--routes N,N,..] [--instructions]
    bench/changes.py PROGRAM --beside-rules N [--rules N,N,..] [--runs N]

A tape holds the rules, one for each destination, and then items that change something each: a rule comes and goes, at
one destination or at another each time; a unicast route comes and goes and makes a rule valid and not; a peer with a
rule comes and is lost; host routes come and go under destinations, and then under one destination that has many routes
already. Reported is the processor time of one such change, that of the tape without
them taken away, or with --instructions what callgrind counts.

With --beside-rules one rule comes and goes N times in all, beside the rules: reported are the processor seconds of
`changes` and of `rules` over that tape. `changes` may take four times as long; more ends the script with status 1.
"""

import argparse
import pathlib
import sys
import tempfile

import moments
from timing import best_of, instructions
from wire import CONFIG, LOST, TAPE, announce, flow, peer, record, says, slash24, up, withdraw

MOST_TIMES = 4      # what `changes` may take of what `rules` takes of a tape
START = [TAPE, up()]


def with_rules(rules):
    """Rules for one destination each, and a unicast route for each destination."""
    parts = list(START)
    for number in range(rules):
        parts.append(says(announce(slash24(number))))
        parts.append(says(flow(b"\1" + slash24(number))))
    return b"".join(parts)


def with_routes(routes):
    """One rule for 10.0.0.0/7, and routes of one AS under it."""
    parts = list(START)
    parts.append(says(announce(bytes([7, 10])) + flow(bytes([1, 7, 10]))))
    parts += [says(announce(slash24(number))) for number in range(routes)]
    return b"".join(parts)


def changes_of(count):
    """A host route under each of some destinations comes, and goes."""
    parts = []
    for number in range(count // 2):
        host = bytes([32, 10, number // 256 % 256, number % 256, 1])
        parts += [says(announce(host)), says(withdraw(host))]
    return b"".join(parts)


def peer_in_turn(turn):
    """Another peer comes with a network and a rule for it, and is lost."""
    if turn % 2:
        return record(LOST, b"", 2, turn)
    return up(2, turn) + says(announce(moments.BEFORE) + flow(b"\1" + moments.before(0)), 2, turn)


def shapes_of(rules, items):
    """Of each change its name, the tape before it, and so many of it."""
    for name, told in moments.CHANGES.items():
        yield name, moments.start(rules), moments.changes(items, 0, told), moments.changes(items, items, told)
    yield "of a peer", moments.start(rules), b"", b"".join(map(peer_in_turn, range(items)))
    yield "of a route under a destination", with_rules(rules), b"", changes_of(items)


def cost_of(options, folder, front, few, many):
    """What one of the changes takes, in microseconds or instructions."""
    spent = []
    for tape in front + few, front + many:
        (folder / "tape").write_bytes(tape)
        words = [options.program.resolve(), "changes", folder / "config", folder / "tape"]
        spent.append(instructions(words) if options.instructions else best_of(options.runs, words).processor * 1e6)
    return (spent[1] - spent[0]) / options.items


def beside_rules(options, folder, rules):
    """Whether `changes` takes no more than it may of a tape along which one rule changes often."""
    items = moments.changes(options.beside_rules, options.beside_rules, moments.CHANGES["of a rule"])
    (folder / "tape").write_bytes(moments.start(rules) + items)
    files = [folder / "config", folder / "tape"]
    ours, theirs = (best_of(options.runs, [options.program.resolve(), command, *files]).processor
                    for command in ("changes", "rules"))
    print(f"{rules} rules, {options.beside_rules} changes of one: changes {ours:.2f} s, rules {theirs:.2f} s,"
          f" {ours / theirs:.1f} times as much", flush=True)
    return ours <= MOST_TIMES * theirs


def main():
    parser = argparse.ArgumentParser(description=__doc__, formatter_class=argparse.RawDescriptionHelpFormatter)
    parser.add_argument("program", type=pathlib.Path)
    parser.add_argument("--items", type=int, default=2000)
    parser.add_argument("--runs", type=int, default=3)
    parser.add_argument("--rules", default="1000,10000,100000")
    parser.add_argument("--routes", default="1000,100000")
    parser.add_argument("--instructions", action="store_true")
    parser.add_argument("--beside-rules", type=int, metavar="N")
    options = parser.parse_args()
    unit = "instructions" if options.instructions else "us"
    with tempfile.TemporaryDirectory() as made:
        folder = pathlib.Path(made)
        (folder / "config").write_text(CONFIG + peer(2, 65001))
        if options.beside_rules:
            if not all([beside_rules(options, folder, int(rules)) for rules in options.rules.split(",")]):
                sys.exit(f"`changes` takes more than {MOST_TIMES} times what `rules` takes")
            return
        for rules in map(int, options.rules.split(",")):
            for name, front, few, many in shapes_of(rules, options.items):
                cost = cost_of(options, folder, front, few, many)
                print(f"{rules} rules, a change {name}: {cost:,.1f} {unit}", flush=True)
        for routes in map(int, options.routes.split(",")):
            cost = cost_of(options, folder, with_routes(routes), b"", changes_of(options.items))
            print(f"{routes} routes under one, a change of another: {cost:,.1f} {unit}", flush=True)


if __name__ == "__main__":
    main()
