#!/usr/bin/env python3
"""Times `enforce` over a tape of version 2, along which packets and items take turns.

    bench/moments.py PROGRAM [--packets N] [--items N] [--rules N,N,..] [--runs N]
    bench/moments.py PROGRAM --day [--beside PROGRAM] [--packets N] [--runs N]

One peer announces a /24 and one rule for each of many destinations. Then packets come, each at its own moment, with
items between them at even distances. Reported are packets per second without items, and with a unicast route elsewhere
that comes and goes, which changes no validity, so that the rules stay. Then the processor time of one change, over
several numbers of rules: of a rule that comes and goes, of one at another destination each time, and of a unicast route
that comes and goes and makes a rule valid and not. These destinations stand before all others.

With --day one tape holds 1,000 rules and 100,000 changes, as of a day: a rule drawn from all goes, or comes back, and at
each hundredth its unicast route does. Told are the seconds and the peak of memory of `enforce` over it, of both programs
in turn, and whether they write the same lines.
"""

import argparse
import hashlib
import pathlib
import sys
import tempfile

from timing import best_of
from wire import (CONFIG, TIMED_TAPE, announce, flow, no_flow, packet, says, slash24, up, withdraw, write_capture)


def rule_comes(number):
    return flow(b"\1" + slash24(number))


def rule_goes(number):
    return no_flow(b"\1" + slash24(number))


def start(rules):
    parts = [TIMED_TAPE, up(moment=0)]
    parts += [says(announce(slash24(number)) + rule_comes(number), moment=0) for number in range(rules)]
    return b"".join(parts)


def moments(packets, items):
    """The moments of the items: at even distances between the packets, of which one comes each microsecond."""
    return [(item + 1) * packets // (items + 1) * 1000 + 500 for item in range(items)]


def churn(packets, items):
    elsewhere = bytes([24, 203, 0, 113])
    return b"".join(
        says(announce(elsewhere) if turn % 2 == 0 else withdraw(elsewhere), moment=moment)
        for turn, moment in enumerate(moments(packets, items))
    )


BEFORE = bytes([8, 9])      # 9.0.0.0/8, which the peer routes, and which has the destinations of what changes


def before(number):
    """The /24 of that number under 9.0.0.0/8."""
    return bytes([24, 9, number // 256 % 256, number % 256])


def rule_at(place):
    return flow(b"\1" + place)


def no_rule_at(place):
    return no_flow(b"\1" + place)


CHANGES = {
    "of a rule": lambda turn: no_rule_at(before(0)) if turn % 2 else rule_at(before(0)),
    "of a rule elsewhere": lambda turn: no_rule_at(before(turn // 2)) if turn % 2 else rule_at(before(turn // 2)),
    "of a route": lambda turn: announce(BEFORE) if turn % 2 else withdraw(BEFORE),
}


def changes(packets, items, told):
    """A rule under 9.0.0.0/8, and items that change what holds there."""
    parts = [says(announce(BEFORE) + rule_at(before(65535)), moment=0)]
    return b"".join(parts + [says(told(turn), moment=moment) for turn, moment in enumerate(moments(packets, items))])


def day(packets, items, rules):
    """A rule, or each hundredth time its route, of a drawn destination goes if it is there, and comes if it isn't."""
    state, gone, bare, parts = 1, set(), set(), []
    for turn, moment in enumerate(moments(packets, items)):
        state = (state * 6364136223846793005 + 1442695040888963407) % 2**64
        number = (state >> 32) % rules
        away, comes, goes = (bare, announce, withdraw) if turn % 100 == 99 else (gone, rule_comes, rule_goes)
        told = slash24(number) if away is bare else number
        parts.append(says(comes(told) if number in away else goes(told), moment=moment))
        away ^= {number}
    return b"".join(parts)


def day_of(program, folder):
    """What a run takes, and a sum of what it writes."""
    taken = best_of(1, [program, "enforce", *(folder / name for name in ("config", "tape", "capture"))], folder / "lines")
    return taken.clock, taken.peak, hashlib.sha256((folder / "lines").read_bytes()).hexdigest()


def one_day(programs, packets, runs, folder):
    rules, items = 1000, 100000
    capture(folder / "capture", packets, rules)
    (folder / "tape").write_bytes(start(rules) + day(packets, items, rules))
    told = {}
    for _ in range(runs):
        for program in programs:
            told.setdefault(program, []).append(day_of(program, folder))
    for program, times in told.items():
        seconds, peak = min(seconds for seconds, _, _ in times), max(peak for _, peak, _ in times)
        print(f"{program}: {rules} rules, {items} changes, {packets} packets: {seconds:.2f} s, {peak / 1000:.1f} MB")
    if len({written for times in told.values() for _, _, written in times}) > 1:
        sys.exit("the lines differ")


def capture(path, packets, rules):
    def destinations():
        state = 1
        for _ in range(packets):
            state = (state * 6364136223846793005 + 1442695040888963407) % 2**64
            yield slash24((state >> 32) % (2 * rules))[1:] + b"\x09"
    write_capture(path, (packet(destination, 25) for destination in destinations()))


def seconds_of(program, folder, tape, runs):
    """What so many runs take at least."""
    (folder / "tape").write_bytes(tape)
    return best_of(runs, [program, "enforce", *(folder / name for name in ("config", "tape", "capture"))])


def main():
    words = argparse.ArgumentParser(description=__doc__, formatter_class=argparse.RawDescriptionHelpFormatter)
    words.add_argument("program")
    words.add_argument("--packets", type=int, default=1000000)
    words.add_argument("--items", type=int, default=10000)
    words.add_argument("--rules", default="100,1000,10000,100000")
    words.add_argument("--runs", type=int, default=1)
    words.add_argument("--day", action="store_true")
    words.add_argument("--beside", action="append", default=[])
    asked = words.parse_args()
    with tempfile.TemporaryDirectory() as name:
        folder = pathlib.Path(name)
        (folder / "config").write_text(CONFIG)
        if asked.day:
            return one_day([asked.program, *asked.beside], asked.packets, asked.runs, folder)
        for rules in [int(word) for word in asked.rules.split(",")]:
            capture(folder / "capture", asked.packets, rules)
            front = start(rules)
            alone = seconds_of(asked.program, folder, front, asked.runs)
            churned = seconds_of(asked.program, folder, front + churn(asked.packets, asked.items), asked.runs)
            print(f"{rules} rules: {asked.packets / alone.clock:.0f} packets a second without items,", end=" ")
            print(f"{asked.packets / churned.clock:.0f} with {asked.items} items that change no validity", flush=True)
            items = min(asked.items, max(200, 20000000 // max(rules, 1) // 10))
            for name, told in CHANGES.items():
                none = seconds_of(asked.program, folder, front + changes(asked.packets, 0, told), asked.runs)
                all_of = seconds_of(asked.program, folder, front + changes(asked.packets, items, told), asked.runs)
                print(f"    {items} changes {name}: {(all_of.processor - none.processor) / items * 1e6:.1f} us each", flush=True)


if __name__ == "__main__":
    main()
