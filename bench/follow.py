#!/usr/bin/env python3
"""Tries `tools/nft.py --follow`: what the kernel does after changes is what it does after a load of the whole listing.

    bench/follow.py [--sequences N] [--seed S] [--seconds S] [--part PART]
    bench/follow.py --measure

Sequences of changes are drawn: rules of all types come, go, get other actions, and go and come again, plain ones among
them, in batches. At some moments frames go through a device with the follower's table and through one with a fresh load
of `tools/nft.py`: each rule's counter, summed over the moments, and the frames that are left, octet for octet, have to
be the same. The places and words of lines come from the plain reading. Mistakes are planted, and have to be told. Then
the command is tried by itself: who owns the table, what becomes of it at each end, devices that go, output that nobody
reads, lines that don't fit, what a service manager is told; and `--with-ends`, by records that are made up. With --measure
it tells what a change and a frame take.

It judges what happens, and not how soon. All happens in a network namespace of this process alone, which goes with it.
Where there is no root, `ip`, `nft` or such a namespace it is skipped.
"""

import argparse
import collections
import functools
import pathlib
import random
import sys
import tempfile
import time
from types import SimpleNamespace
from unittest import mock

import follow_command
import follow_ends
import follow_measure
import headers
import kernel
import plain
import plain_rules
from follow_command import Wrong, want
from follow_measure import FREE, NOBODY
from plain_packets import Unread, view
from welgutan import expressions, flowspec, follower, layout, ruleset
from welgutan.netlink import Refused
from welgutan.parts import Options
from welgutan.table import Table

FIRST2, HOOKED2, CARRIED2, LAST2 = "try4", "try5", "try6", "try7"
FRESH = "fresh"


# Rules that are drawn, and what the plain reading says of them


def words_of(rule, actions):
    return plain.rule_text(SimpleNamespace(subject=rule, actions=actions))


def read_plain(words):
    """The rule, as the plain reading has it, of words."""
    rule = flowspec.read_words(words)[0]
    return plain_rules.read_frame(plain_rules.Octets(flowspec.rule_octets(rule)), rule.family)


def draw_prefix(draw, family, address, lengths):
    length = draw.choice(lengths)
    width = plain_rules.WIDTHS[family]
    pattern = plain_rules.Pattern(family, 0, length, address >> width - length)
    return plain.pattern_text(pattern)


def draw_plain(draw, frame):
    """Words of a rule that can be an element and that the frame matches, or None where it has no ports."""
    try:
        packet = view(1, frame.octets)
    except Unread:
        return None
    if packet.protocol is None:
        return None
    lengths = (32, 24, 16) if packet.family == 4 else (128, 64, 48)
    words = [f"v{packet.family} dst {draw_prefix(draw, packet.family, packet.destination, lengths)}"]
    if draw.random() < 0.5:
        words.append(f"src {draw_prefix(draw, packet.family, packet.source, (*lengths, 8, 0))}")
    shapes = [(), ("proto",)]
    if packet.source_port is not None and packet.destination_port is not None:
        shapes += [("proto", "dport"), ("proto", "sport"), ("proto", "dport", "sport")]
    values = {"proto": packet.protocol, "dport": packet.destination_port, "sport": packet.source_port}
    words += [f"{name} ={values[name]}{draw_width(draw, values[name])}" for name in draw.choice(shapes)]
    return " ".join(words)


def draw_width(draw, value):
    """Now and then a value is written in more octets than it needs, which decides the order of rules."""
    return ":4" if draw.random() < 0.1 else ":2" if draw.random() < 0.3 and value < 256 else ""


def draw_pool(draw, count, frames):
    """Rules of all types, and as many plain ones."""
    pool = list(kernel.draw_rules(draw, count))
    while len(pool) < 2 * count:
        words = draw_plain(draw, draw.choice(frames))
        if words:
            rule = read_plain(words)
            if rule not in pool:
                pool.append(rule)
    return pool


def draw_actions(draw, is_plain):
    if is_plain:
        goes_on, marks = [kernel.TERMINAL], [kernel.MARKS[1], kernel.TERMINAL]
        heads = draw.choice([goes_on, goes_on, [kernel.DISCARD], [], marks])
        octets = bytes.fromhex("".join(heads))
    else:
        octets = kernel.draw_actions(draw)
    return plain_rules.read_actions(octets)


ORDER = functools.cmp_to_key(plain_rules.compare_rules)


class Standing:
    """The rules that stand, by the plain reading, and lines of their changes."""

    def __init__(self):
        self.of = {4: [], 6: []}
        self.actions = {}

    def come(self, rule, actions):
        rules = self.of[rule.family]
        rules.append(rule)
        rules.sort(key=ORDER)
        self.actions[rule] = actions
        return f"0 + {rules.index(rule) + 1} {words_of(rule, actions)}"

    def go(self, rule):
        place = self.of[rule.family].index(rule)
        line = f"0 - {place + 1} {words_of(rule, self.actions.pop(rule))}"
        del self.of[rule.family][place]
        return line

    def admitted(self):
        """What the listing of these rules is read as."""
        found = []
        for family in (4, 6):
            for number, rule in enumerate(self.of[family], 1):
                read = flowspec.read_octets(plain_rules.rule_octets(rule), family)
                found.append(ruleset.Admitted(family, number, read, tuple(self.actions[rule])))
        return found


def draw_batch(draw, standing, pool, count):
    """Lines: rules come and go; half of those that go come at once with other actions, or a little later again."""
    lines = []

    def come(rule):
        lines.append(standing.come(rule, draw_actions(draw, pool.index(rule) >= len(pool) // 2)))
    for _ in range(count):
        rule, other, kind = draw.choice(pool), draw.choice(pool), draw.random()
        if rule not in standing.actions:
            come(rule)
            continue
        lines.append(standing.go(rule))
        if kind > 0.9 and other not in standing.actions and other != rule:
            come(other)
        if kind > 0.5:
            come(rule)
    return lines


def begins_anew(lines):
    """The rules that come without having just gone."""
    last = ""
    for line in lines:
        subject = line.split(" ", 3)[3].partition(" then ")[0]
        if line.startswith("0 + ") and last != f"- {subject}":
            yield read_plain(subject)
        last = f"{line[2]} {subject}"


# The follower's table beside a fresh load


class Pairs:
    """Two ways for frames: past the follower's table, and past a fresh load."""

    def __init__(self):
        kernel.run("ip", "link", "add", "trybridge2", "up", "type", "bridge")
        kernel.make_pair(FIRST2, HOOKED2)
        kernel.make_pair(CARRIED2, LAST2)
        for device in (HOOKED2, CARRIED2):
            kernel.run("ip", "link", "set", device, "master", "trybridge2")
        self.ends = [(kernel.packet_socket(first), kernel.packet_socket(last))
                     for first, last in ((kernel.FIRST, kernel.LAST), (FIRST2, LAST2))]

    def send(self, frames):
        """The frames that are left behind each table, by their numbers."""
        left = []
        for first, last in self.ends:
            came = {}
            for begin in range(0, len(frames), kernel.BATCH):
                for frame in frames[begin:begin + kernel.BATCH]:
                    first.send(frame.octets)
                came |= kernel.received(last)
            left.append((last, came))
        time.sleep(0.05)
        return [came | kernel.received(last) for last, came in left]


def fresh_counters():
    text = kernel.run("nft", "list", "table", "netdev", FRESH)
    return {(int(family), int(number)): int(packets) for packets, family, number in kernel.COUNTER.findall(text)}


class Sequence:
    """One sequence of changes, with a table of its own."""

    def __init__(self, seed, pairs, check):
        self.draw = random.Random(f"follow {seed}")
        self.draw.has_faults = False
        self.pairs, self.check = pairs, check
        self.frames = [headers.draw_frame(self.draw, number) for number in range(400)]
        self.pool = draw_pool(self.draw, 60, self.frames)
        self.standing, self.wanted = Standing(), collections.Counter()
        self.lists = follower.Lists()
        self.table = Table(Options(kernel.HOOKED, kernel.TABLE, check, None), False, NOBODY, FREE.most_each)
        self.acting = follower.Acting(self.table, FREE)
        self.changes = self.compared = 0

    def run(self):
        """In words: what differs."""
        try:
            want(not self.table.claim(), "an old table is there")
            self.acting.renew([], None)
            for _ in range(self.draw.choice((2, 3))):
                for _ in range(self.draw.randint(1, 4)):
                    self.do_batch()
                yield from self.compare()
        finally:
            self.table.end()

    def do_batch(self):
        lines = draw_batch(self.draw, self.standing, self.pool, self.draw.choice((1, 5, 40)))
        for rule in begins_anew(lines):
            del self.wanted[rule]
        changes, last = [], None
        for line in lines:
            last = self.lists.change(line, last, 0)
            changes.append(last)
        self.acting.act(changes)
        self.changes += len(lines)

    def compare(self):
        admitted = self.standing.admitted()
        text = ruleset.ruleset(admitted, Options(HOOKED2, FRESH, self.check, None))
        kernel.run("nft", "-f", "-", text=text)
        mine, fresh = self.pairs.send(self.frames)
        counted = fresh_counters()
        yield from self.counter_differences(counted)
        for number in sorted(mine.keys() ^ fresh.keys()):
            yield f"frame {number} {'is left' if number in mine else 'is dropped'}, and not by a fresh load"
        for number in sorted(mine.keys() & fresh.keys()):
            if mine[number] != fresh[number]:
                yield f"frame {number} is {mine[number].hex()} and not {fresh[number].hex()}"

    def counter_differences(self, counted):
        for family in (4, 6):
            for place, (rule, held) in enumerate(zip(self.standing.of[family], self.lists.of[family])):
                self.wanted[rule] += counted.get((family, place + 1), 0)
                found = self.table.asked_counts(held)[0] if held.acts() else 0
                self.compared += 1
                if found != self.wanted[rule]:
                    yield f"{held.words} counted {found} and not {self.wanted[rule]}, as {held.state}"


# Mistakes that are planted


def at_the_end(self, rules, keys, held, chain, last):
    place = layout.bisect.bisect(keys, held.key)
    self.add_as_line(held, chain, last)
    self.insert(rules, place, held)
    self.insert(keys, place, held.key)


def shorter_first(found):
    destination, source, shape = found
    return destination, 1, 1 if source is None else -source, shape


def shapes_turned(found):
    destination, source, shape = found
    return -destination, 1, 1 if source is None else -source, -shape


def sources_turned(found):
    destination, source, shape = found
    return -destination, 1, -1 if source is None else source, shape


MISTAKES = {
    "a line stands at its chain's end": (layout.Layout, "insert_line", at_the_end),
    "the shorter destination precedes": (layout, "rank_of_map", shorter_first),
    "the shape with fewer fields precedes": (layout, "rank_of_map", shapes_turned),
    "the shorter source precedes": (layout, "rank_of_map", sources_turned),
    "values written otherwise are looked up": (layout.Destination, "agrees", lambda self, held: True),
    "counts aren't carried": (Table, "counts_of", lambda self, held: (0, 0)),
}


def try_mistakes(pairs, seed):
    for name, (module, function, wrong) in MISTAKES.items():
        told = None
        with mock.patch.object(module, function, wrong):
            for number in range(seed, seed + 40):
                told = told or first_difference(number, pairs)
        print(f"planted, and {f'told: {name}' if told else f'NOT told: {name}'}", flush=True)
        want(told, name)


def first_difference(seed, pairs):
    """The first difference that a sequence tells, or None."""
    try:
        return next(Sequence(seed, pairs, bool(seed % 2)).run(), None)
    except Refused as refused:
        return str(refused)


def sequences(options):
    pairs, sums = Pairs(), collections.Counter()
    end = time.monotonic() + options.seconds
    for seed in range(options.seed, options.seed + options.sequences):
        if seed > options.seed and time.monotonic() > end:
            break
        sequence = Sequence(seed, pairs, bool(seed % 2))
        found = list(sequence.run())
        for words in found[:5]:
            print(f"sequence {seed}: {words}", flush=True)
        sums += collections.Counter(sequences=1, changes=sequence.changes, counters=sequence.compared,
                                    differ=bool(found))
    print(", ".join(f"{sums[name]} {name}" for name in ("sequences", "changes", "counters", "differ")), flush=True)
    want(not sums["differ"], "sequences differ")
    try_mistakes(pairs, options.seed)


def arguments():
    parser = argparse.ArgumentParser(description=__doc__, formatter_class=argparse.RawDescriptionHelpFormatter)
    parser.add_argument("--sequences", type=int, default=40)
    parser.add_argument("--seed", type=int, default=1, help="the first one")
    parser.add_argument("--seconds", type=float, default=600, help="no sequence is begun after so many")
    parser.add_argument("--part", choices=PARTS, action="append", help="only this one")
    parser.add_argument("--step", choices=[step.__name__ for step in follow_command.STEPS], action="append", default=[],
                        help="of the command only this one")
    parser.add_argument("--measure", action="store_true")
    return parser.parse_args()


# A rule that the kernel refuses


REFUSED = "v4 dst 192.0.2.0/24 proto =6,=17 then control 1"


def unknown_expression(right):
    """Of one rule the octets that no kernel knows."""
    def wrong(self, line, held):
        octets = right(self, line, held)
        return expressions.expression("unheard", b"") + octets if held.words == REFUSED else octets
    return wrong


def refusal(_):
    """It is told and left out, and the others of its transaction act; also where the whole table is made anew."""
    table = Table(Options(kernel.HOOKED, kernel.TABLE, False, None), False, NOBODY, FREE.most_each)
    lists, acting = follower.Lists(), follower.Acting(table, FREE)
    words = [*(f"v4 dst 192.0.2.0/24 proto =6,=17 dport ={port}" for port in (1, 2)), REFUSED,
             "v4 dst 192.0.2.0/24 proto =17"]
    with mock.patch.object(layout.Layout, "octets_of", unknown_expression(layout.Layout.octets_of)):
        table.claim()
        acting.renew([], None)
        acting.act([lists.change(f"0 + {place} {line}", None, 0) for place, line in enumerate(words, 1)])
        want_refused(lists)
        acting.renew(lists.all(), None)
        want_refused(lists)
        acting.act([lists.change(f"0 - 3 {REFUSED}", None, 0), lists.change(f"0 - 1 {words[0]}", None, 0)])
    want([held.acts() for held in lists.all()] == [True, True], "the others act no more")
    table.end()
    print("a rule that the kernel refuses is left out, and the others of its transaction act", flush=True)


def want_refused(lists):
    states = [(held.acts(), held.reason) for held in lists.of[4]]
    want([acts for acts, _ in states] == [True, True, False, True], f"with a rule that is refused: {states}")
    want("the kernel refuses it" in states[2][1], f"a rule that is refused has the reason {states[2][1]}")


def command(options):
    with tempfile.TemporaryDirectory() as folder:
        follow_command.try_all(pathlib.Path(folder), options.step)


PARTS = {"sequences": sequences, "refusal": refusal, "command": command, "ends": follow_ends.try_ends}


def main():
    options = arguments()
    if lacks := kernel.lacking():
        print(f"skipped, since {lacks}: bench/follow.py")
        return 0
    kernel.run("ip", "link", "set", "lo", "up")
    if options.measure:
        return follow_measure.measure()
    try:
        for name in options.part or PARTS:
            if name == "sequences" and headers.is_missing:
                print("skipped, since python3-scapy is missing: the sequences of bench/follow.py")
            else:
                PARTS[name](options)
    except Wrong as error:
        print(f"not as it should be: {error}")
        return 1
    print("all as it should be")
    return 0


if __name__ == "__main__":
    sys.exit(main())
