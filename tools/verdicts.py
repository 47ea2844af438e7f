#!/usr/bin/env python3
"""Reports on a capture and the lines that `enforce` wrote of it, or joins the lines of a capture's parts.

    tools/verdicts.py CAPTURE LINES [--changes CHANGES] [--split FOLDER] [--plot FILE.svg]
    tools/verdicts.py CAPTURE LINES [--changes CHANGES] --json
    tools/verdicts.py CAPTURE LINES --list LISTING --tape TAPE
    tools/verdicts.py --join LINES=CAPTURE ..
    tools/verdicts.py --sum REPORT ..
    tools/verdicts.py --at MOMENT [CHANGES]

The report counts packets and octets by verdict, by rule, by the reason for which a packet wasn't read, and by second.
Octets are those on the wire, with the link's header. A packet's verdict is the first of these that fits: `discarded`,
`limited` (it has a rate), `redirected`, `marked`, `passed`; or it is `unread`. A packet counts for each rule that it
matched. Its second is that of its moment, which is the greatest time so far.

A rule's number is the one that it has at the packet's moment. At the next packet another rule may have that number.
With --changes, which takes what `changes` wrote of the same tape, each number is resolved at its packet's moment. Then
packets are counted by rule, and the rule with the most packets comes first. A rule is its text, so with other actions
it is another rule. With --list rules have the words that `list` wrote, which are those of the tape's end. So TAPE is
looked at too: if it goes on after the first packet, --list is refused.

--split writes a capture of each verdict's packets. --plot draws the packets a second through gnuplot. --json writes a
line of JSON for each packet, at once, for jq. A line has the packet's `number`, its `time` in seconds (null for a
simple packet), `octets`, `captured`, `verdict`, `rules`, and what else the line of `enforce` has. If they could be read
it has `source` and `destination`, and with --changes the rules' `texts`. Rates are octets or packets a second. With
--hex they also have the four octets of their floats, as lines and listings have them.

--at writes the listing that stood at a moment, as `list` has it, from what `changes` wrote or is writing. MOMENT is in
nanoseconds since the start of 1970, or in seconds with a point. One of CAPTURE, LINES and CHANGES may be /dev/stdin.

--join writes the lines of a capture's parts under the numbers that they have in the whole. Each part is given with its
capture, or with the number of its packets (LINES=1000). If a part has more or fewer lines than packets, it is told by
its name, and nothing is written. So it is if a part begins before a packet of an earlier one, since its moments aren't
those of the whole then. --sum adds up the reports of parts into one of the whole. If the reports name rules by numbers,
it takes those of one number for one rule.

The files are read in a stream, and what is kept doesn't grow with the packets. The status is 1, and no file is left, if
a line isn't one of `enforce`, if there are more or fewer lines than packets, or if the capture has a fault.
"""

import argparse
import collections
import contextlib
import dataclasses
import functools
import itertools
import json
import math
import os
import pathlib
import re
import shutil
import struct
import subprocess
import sys
import tempfile
from typing import Optional

from captures import BUFFER, SECOND, Fault, addresses, is_ipv6, packets_of

MANY = 1 << 14  # verdicts, of which the readings are kept
LONG = 1 << 12  # octets of a line whose reading isn't kept
LONGEST_LINE = 1 << 24

# A packet belongs to the first of these that its line speaks of.
DISCARDED, LIMITED, REDIRECTED, MARKED, PASSED, UNREAD = VERDICTS = (
    "discarded", "limited", "redirected", "marked", "passed", "unread")

REASONS = {
    1: "neither IPv4 nor IPv6",
    2: "too few octets captured for a header",
    3: "another IP version than the link type tells",
    4: "an IPv4 header length below 20 octets",
    5: "an IPv4 total length below its header, or an IPv6 jumbogram",
}


# Lines


LINE = re.compile(
    rb"(?:(?P<verdict>pass|discard)(?: rules (?P<rules>[1-9]\d{0,9}(?:,[1-9]\d{0,9})*))?(?: mark (?P<mark>\d{1,2}))?"
    rb"(?: redirect (?P<redirect>(?:as2|ip4|as4):[\d.]{1,15}:\d{1,10}))?(?P<sample> sample)?"
    rb"(?P<rates>(?: (?:bytes|packets) [0-9a-f]{8})*)|unread (?P<reason>[1-5]))\n")


@dataclasses.dataclass(eq=False)
class Verdict:
    """What a line says of its packet."""

    name: str  # one of VERDICTS
    said: str  # the line's own first word
    rule_numbers: bytes = b""  # with commas, since a line may have thousands
    mark: Optional[int] = None
    redirect: Optional[str] = None
    sample: bool = False
    rates: tuple = ()
    reason: Optional[int] = None

    def rules(self):
        return list(map(int, self.rule_numbers.split(b","))) if self.rule_numbers else []


def name_of(parts):
    if parts["verdict"] == b"discard":
        return DISCARDED
    return LIMITED if parts["rates"] else REDIRECTED if parts["redirect"] else MARKED if parts["mark"] else PASSED


def verdict_of(text):
    """The verdict of a line after its number, or nothing where `enforce` writes no such line."""
    return verdict_of_short(text) if len(text) < LONG else new_verdict(text)


@functools.lru_cache(maxsize=MANY)
def verdict_of_short(text):
    return new_verdict(text)


def new_verdict(text):
    found = LINE.fullmatch(text)
    if found is None:
        return None
    if found["reason"]:
        return Verdict(UNREAD, "unread", reason=int(found["reason"]))
    return Verdict(
        name=name_of(found),
        said=found["verdict"].decode(),
        rule_numbers=found["rules"] or b"",
        mark=int(found["mark"]) if found["mark"] else None,
        redirect=found["redirect"].decode() if found["redirect"] else None,
        sample=bool(found["sample"]),
        rates=tuple(re.findall(r"(\w+) (\w+)", found["rates"].decode())),
    )


def lines_in(file):
    """The lines of a file, each with its number; one that doesn't end is a fault."""
    for number, line in enumerate(iter(lambda: file.readline(LONGEST_LINE), b""), 1):
        if len(line) == LONGEST_LINE:
            raise Fault(f"line {number} has {LONGEST_LINE} octets and more")
        yield number, line


def rate_of(digits):
    """A rate as a number of octets or packets a second, of the four octets of a float (RFC 8955 section 7.1)."""
    rate = struct.unpack(">f", bytes.fromhex(digits))[0]
    return int(rate) if rate.is_integer() else rate


def with_rates(text, with_digits):
    """The text of a rule with its rates in decimal, and with their digits beside them where these are asked for."""
    rule, then, actions = text.partition(" then ")
    def in_decimal(found):
        return f"{found[1]}{rate_of(found[2])}/s" + (f" ({found[2]})" if with_digits else "")
    return rule + then + re.sub(r"((?:bytes|packets) \d{1,5}:)([0-9a-f]{8})\b", in_decimal, actions)


def read_lines(lines):
    """The text and the verdict of each line, which has its number in front."""
    for number, line in lines_in(lines):
        told, _, text = line.partition(b" ")
        verdict = verdict_of(text)
        if verdict is None or told != b"%d" % number:
            raise Fault(f"line {number} isn't a line of `enforce`: {line[:80].decode(errors='replace')!r}")
        yield text, verdict


def judged(packets, lines):
    """Each packet with its number and its verdict. There have to be as many lines as packets."""
    for number, (packet, line) in enumerate(itertools.zip_longest(packets, read_lines(lines)), 1):
        if packet is None:
            raise Fault(f"line {number} is one too many: the capture has {number - 1} packets")
        if line is None:
            raise Fault(f"line {number} isn't there: the capture has a packet {number}")
        yield number, packet, line[1]


# What `changes` wrote


CHANGE = re.compile(r"(\d{1,20}) ([+-]) ([1-9]\d{0,9}) ((v[46])(?: .*)?)\n")
NEVER = 1 << 65     # after each moment


class Acting:
    """The rules of each family that act at a moment, as the lines of `changes` leave them. A rule is its text, which
    begins with its family."""

    def __init__(self, file, name):
        self.lines, self.name = lines_in(file), name
        self.rules = {"v4": [], "v6": []}
        self.next = None    # the line of the next change, as it was read
        self.next_moment = 0
        self.read_next()
        self.follow(0)

    def fault(self, number, said):
        return Fault(f"{self.name}: line {number} {said}")

    def read_next(self):
        number, line = next(self.lines, (0, b""))
        text = line.decode(errors="replace")
        if re.fullmatch(r"tape \w+ at \d+\n", text):
            raise self.fault(number, f"tells a fault of the tape: {text.strip()}")
        self.next = CHANGE.fullmatch(text), number
        if not line:
            self.next_moment = NEVER
        elif self.next[0] is None or int(self.next[0][1]) < self.next_moment:
            raise self.fault(number, f"isn't a line of `changes`: {text[:80]!r}")
        else:
            self.next_moment = int(self.next[0][1])

    def follow(self, moment):
        """Applies what was told up to that moment."""
        while self.next_moment <= moment:
            found, number = self.next
            rules, at = self.rules[found[5]], int(found[3]) - 1
            if found[2] == "+" and at <= len(rules):
                rules.insert(at, found[4])
            elif found[2] == "-" and at < len(rules) and rules[at] == found[4]:
                del rules[at]
            else:
                raise self.fault(number, f"doesn't go with those before it: {found[0][:80]!r}")
            self.read_next()

    def rule(self, family, number):
        if number > len(self.rules[family]):
            raise Fault(f"{self.name} has no rule {family} {number} at the moment of a packet that matched it")
        return self.rules[family][number - 1]


def moment_of(text):
    """Nanoseconds, or seconds with a point."""
    found = re.fullmatch(r"(\d{1,20})(?:\.(\d{1,9}))?", text)
    if found is None:
        raise argparse.ArgumentTypeError("a moment is nanoseconds since the start of 1970, or seconds with a point")
    return int(text) if found[2] is None else int(found[1]) * SECOND + int(found[2].ljust(9, "0"))


def write_listing(path, moment):
    """The listing at that moment, from a file of changes or a stream of them: the first later one ends it."""
    with open(path, "rb", BUFFER) as file:
        acting = Acting(file, path)
        acting.follow(moment)
        for family in ("v4", "v6"):
            sys.stdout.writelines(rule + "\n" for rule in acting.rules[family])


def last_moment(path):
    """The moment of the last item of a tape; 0 in version 1, which has none."""
    with open(path, "rb", BUFFER) as tape:
        magic, moment = tape.read(8), 0
        while magic == b"FSTAPE2\n" and (head := tape.read(15)):
            _, _, moment, size = struct.unpack(">BHQI", head.ljust(15, b"\xff"))
            if size > 65536 or len(tape.read(size)) < size:
                raise Fault(f"{path}: the tape has a fault, or is cut off")
    if magic not in (b"FSTAPE1\n", b"FSTAPE2\n"):
        raise Fault(f"{path} isn't a tape")
    return moment


# What is made of them


class Counts(dict):
    """Packets and octets by a key."""

    def __missing__(self, key):
        return self.setdefault(key, [0, 0])

    def add(self, key, packets, octets):
        found = self[key]
        found[0] += packets
        found[1] += octets

    def take(self):
        """What was counted, which is counted no more."""
        rows = list(self.items())
        self.clear()
        return rows


class Report:
    """The counts of a capture. Each second's stand in a file that has no name once the second is over."""

    def __init__(self, acting=None):
        self.acting = acting  # who knows which rule has a number
        self.by_family = {"v4": Counts(), "v6": Counts()}  # since the last stop, by verdict
        self.second = Counts()  # this second's, by the name of the verdict
        self.now = 0  # the second of the moment
        self.next_second = SECOND  # in nanoseconds
        self.next_stop = 0  # the first moment of the next second, or of the next change if that is before
        self.first_moment = None  # that of the first packet
        self.first_second = None
        self.seconds = tempfile.TemporaryFile("w+")
        self.verdicts = Counts()
        self.rules = Counts()
        self.reasons = Counts()

    def add(self, packet, verdict):
        _, octets, link, length, time = packet
        if time is None:
            self.first_moment = self.first_moment or 0
        elif time >= self.next_stop:
            self.go_to(time)
        counts = self.by_family["v6" if verdict.rule_numbers and is_ipv6(octets, link) else "v4"]
        found = counts[verdict]
        found[0] += 1
        found[1] += length
        if len(counts) > MANY or len(verdict.rule_numbers) > LONG:
            self.sum_up()

    def go_to(self, moment):
        if self.first_moment is None:
            self.first_moment = moment
        if moment >= self.next_second:
            self.end_second()
            self.now = moment // SECOND
            self.next_second = (self.now + 1) * SECOND
        self.next_stop = self.next_second
        if self.acting:
            if moment >= self.acting.next_moment:
                self.sum_up()
                self.acting.follow(moment)
            self.next_stop = min(self.next_stop, self.acting.next_moment)

    def sum_up(self):
        """Adds what was counted by verdict to the counts that it belongs to."""
        for family, counts in self.by_family.items():
            for verdict, found in counts.take():
                self.verdicts.add(verdict.name, *found)
                self.second.add(verdict.name, *found)
                if verdict.reason:
                    self.reasons.add(verdict.reason, *found)
                for number in verdict.rules():
                    self.add_to_rule(family, number, found)

    def add_to_rule(self, family, number, found):
        """A rule is known by its number, or where it is known which rules act by its text."""
        if self.acting:
            self.rules.add(self.acting.rule(family, number), *found)
        else:
            self.rules.add((family, number), *found)

    def rule_rows(self, words):
        """The rows of the rules' table: by their numbers, or where numbers change the most packets first."""
        if self.acting:
            rows = sorted(self.rules.items(), key=lambda row: (-row[1][0], row[0]))
            return [(text[:2], *found, text[3:]) for text, found in rows]
        return [(f"{family} {number}", *found, words.get((family, number), ""))
                for (family, number), found in sorted(self.rules.items())]

    def end_second(self):
        self.sum_up()
        if self.second and self.first_second is None:
            self.first_second = self.now
        for name, found in sorted(self.second.take(), key=lambda row: VERDICTS.index(row[0])):
            print(self.now, name, *found, file=self.seconds)

    def each_second(self):
        """The packets and octets of each second and verdict that has packets, by rising seconds."""
        self.seconds.seek(0)
        for row in self.seconds:
            second, name, packets, octets = row.split()
            yield int(second), name, int(packets), int(octets)

    def write(self, words, with_digits):
        """Prints the tables, with the text of each rule where it is known."""
        packets, octets = map(sum, zip([0, 0], *self.verdicts.values()))
        print(f"packets {packets}, octets {octets}")
        table("verdict", ((name, *self.verdicts[name], "") for name in VERDICTS))
        table("rule", ((*row, with_rates(text, with_digits)) for *row, text in self.rule_rows(words)))
        table("unread", ((reason, *found, REASONS[reason]) for reason, found in sorted(self.reasons.items())))
        table("second", ((second, *found, name) for second, name, *found in self.each_second()))


def table(title, rows):
    print(f"\n{title:12} {'packets':>12} {'octets':>16}")
    for key, packets, octets, words in rows:
        print(f"{key:<12} {packets:12} {octets:16}  {words}".rstrip())


def listing(path, rules):
    """The text of each of these rules, of which `list` wrote a listing; those that it has not are missed."""
    words, numbers = {}, collections.Counter()
    with open(path, "rb", BUFFER) as file:
        for number, line in lines_in(file):
            family, _, text = line.decode(errors="replace").rstrip("\n").partition(" ")
            if family not in ("v4", "v6"):
                raise Fault(f"{path}: line {number} isn't a line of `list`: {line[:80]!r}")
            numbers[family] += 1
            if (family, numbers[family]) in rules:
                words[family, numbers[family]] = text
    missing = min(rules - set(words), default=None)
    if missing is not None:
        raise Fault(f"{path} has no rule {missing[0]} {missing[1]}")
    return words


def stays(tape, report):
    """A listing names the rules of the tape's end, so nothing may have come after the first packet."""
    if last_moment(tape) > (report.first_moment or 0):
        raise Fault(f"{tape} goes on after the first packet, so that a number may be another rule's from one packet to "
                    "the next: give what `changes` wrote, by --changes in the place of --list")


class Split:
    """A capture for each verdict."""

    def __init__(self):
        self.files = {}

    def open(self, folder, suffix):
        self.files = {name: open(folder / (name + suffix), "wb", BUFFER) for name in VERDICTS}

    def add(self, packet, verdict):
        self.files[verdict.name].write(packet[0])

    def add_to_all(self, octets):
        for file in self.files.values():
            file.write(octets)

    def close(self):
        for file in self.files.values():
            file.close()


@contextlib.contextmanager
def whole_files(folder):
    """A folder to write in, whose files come to the given one in the end, and are gone where an error comes before."""
    is_new = not folder.exists()
    folder.mkdir(parents=True, exist_ok=True)
    try:
        with tempfile.TemporaryDirectory(dir=folder) as name:
            draft = pathlib.Path(name)
            yield draft
            for file in draft.iterdir():
                os.replace(file, folder / file.name)
    except BaseException:
        if is_new:
            with contextlib.suppress(OSError):
                folder.rmdir()
        raise


def rates_in(verdict, with_digits):
    """The rates by their units, and the digits of each where they are asked for. What is no number is its name."""
    known = {}
    for unit, digits in verdict.rates:
        rate = rate_of(digits)
        known.setdefault(unit, []).append(rate if math.isfinite(rate) else str(rate))
        if with_digits:
            known.setdefault(unit + "_hex", []).append(digits)
    return known


def json_line(number, packet, verdict, acting, with_digits):
    """What is known of a packet. The time is a number with all its digits, which a float wouldn't keep."""
    _, octets, link, length, time = packet
    known = {"octets": length, "captured": len(octets)}
    if verdict.reason is None:
        known["source"], known["destination"] = addresses(octets, link)
    known.update(verdict=verdict.said, rules=verdict.rules())
    if acting and verdict.reason is None:
        family = "v6" if is_ipv6(octets, link) else "v4"
        known["texts"] = [acting.rule(family, rule) for rule in verdict.rules()]
    further = {"mark": verdict.mark, "redirect": verdict.redirect, "sample": verdict.sample or None,
               **rates_in(verdict, with_digits), "reason": verdict.reason}
    known.update((key, value) for key, value in further.items() if value is not None)
    seconds = "null" if time is None else f"{time // SECOND}.{time % SECOND:09}"
    return f'{{"number": {number}, "time": {seconds}, {json.dumps(known)[1:]}'


# The picture


COLOURS = {PASSED: "#4c956c", MARKED: "#8ab17d", REDIRECTED: "#6a8caf", LIMITED: "#e9b44c", DISCARDED: "#bc4749",
           UNREAD: "#888888"}
COLUMNS = 1200

PICTURE = """set terminal svg size 900,400 dynamic background '#ffffff' font 'sans-serif,13'
set xdata time
set timefmt '%s'
set format x '%H:%M:%S'
set xlabel 'time of day (UTC)'
set ylabel 'packets a second'
set xrange ['{first}':'{last}']
set yrange [0:*]
set key outside top center horizontal
set tics out nomirror
set border 3
$rates << end
{rates}
end
plot {curves}
"""


def bins_of(report):
    """The packets by verdict of each bin of some seconds, and how many seconds a bin has."""
    width = max(1, -(-(report.now + 1 - report.first_second) // COLUMNS))
    bins = [collections.Counter() for _ in range(report.first_second, report.now + 1, width)]
    for second, name, packets, _ in report.each_second():
        bins[(second - report.first_second) // width][name] += packets
    return bins, width


def picture(report):
    """What gnuplot is to draw: the packets a second of each verdict, one above the other."""
    bins, width = bins_of(report)
    seen = [name for name in COLOURS if name in report.verdicts]
    first = report.first_second
    rates = []
    for start, packets in zip(itertools.count(first, width), bins):
        sums = itertools.accumulate(packets[name] / width for name in seen)
        heights = " ".join(f"{height:g}" for height in sums)
        rates += [f"{start} {heights}", f"{start + width} {heights}"]
    # The highest first, so that each leaves what lies above the next one.
    curves = ", ".join(f"$rates using 1:{seen.index(name) + 2} with filledcurves y1=0 lc rgb '{COLOURS[name]}' "
                       f"title '{name}'" for name in reversed(seen))
    return PICTURE.format(first=first, last=first + len(bins) * width, rates="\n".join(rates), curves=curves)


def plot(report, path):
    if report.first_second is None:
        print("the capture has no packet, so no picture was drawn", file=sys.stderr)
        return
    if shutil.which("gnuplot") is None:
        print("gnuplot isn't installed, so no picture was drawn", file=sys.stderr)
        return
    with whole_files(path.parent) as draft, open(draft / path.name, "w") as file:
        drawn = subprocess.run(["gnuplot"], input=picture(report), stdout=file, text=True, check=False)
        if drawn.returncode != 0:
            raise Fault(f"gnuplot ended with status {drawn.returncode}")


# The commands


def unlike(number):
    return Fault(f"line {number} is of a packet that can be read, and packet {number} of the capture can't")


def counted(told, split, acting):
    """The report of a capture, whose packets are also written where a split is wanted."""
    report, number, is_split = Report(acting), 0, bool(split.files)
    try:
        for number, packet, verdict in told:
            report.add(packet, verdict)
            if is_split:
                split.add(packet, verdict)
    except LookupError:
        raise unlike(number) from None
    report.end_second()
    return report


def write_json(told, acting, with_digits):
    number = 0
    try:
        for number, packet, verdict in told:
            if acting and packet[-1] is not None:
                acting.follow(packet[-1])
            print(json_line(number, packet, verdict, acting, with_digits))
    except (LookupError, ValueError):
        raise unlike(number) from None


def look(options):
    capture, lines = options.files
    split = Split()
    with contextlib.ExitStack() as stack:
        source, text = (stack.enter_context(open(path, "rb", BUFFER)) for path in (capture, lines))
        packets, suffix = packets_of(source, split.add_to_all)
        told, acting = judged(packets, text), None
        if options.changes:
            acting = Acting(stack.enter_context(open(options.changes, "rb", BUFFER)), options.changes)
        if options.json:
            write_json(told, acting, options.hex)
            return
        if options.split:
            split.open(stack.enter_context(whole_files(options.split)), suffix)
            stack.callback(split.close)
        report = counted(told, split, acting)
        words = {}
        if options.list:
            stays(options.tape, report)
            words = listing(options.list, set(report.rules))
        if options.plot:
            plot(report, options.plot)
    report.write(words, options.hex)


class Parts:
    """The parts of a capture, in their order."""

    def __init__(self):
        self.numbers = itertools.count(1)   # of the next lines
        self.latest = 0     # the moment in which the parts so far end

    def packets_in(self, part):
        """The number of packets of the next part: that of its capture, or the one that is given."""
        if part.isdigit() and len(part) < 20:
            return int(part)
        count, before = 0, self.latest
        with open(part, "rb", BUFFER) as source:
            for count, (*_, time) in enumerate(packets_of(source, lambda _: None)[0], 1):
                if count == 1 and (time or 0) < before:
                    raise Fault("it begins before a packet of an earlier part: order the whole by reordercap; cut it")
                self.latest = max(self.latest, time or 0)
        return count

    def lines_of(self, part):
        """The lines of the next part under their numbers."""
        path, _, known = part.partition("=")
        due, number = self.packets_in(known), 0
        with open(path, "rb", BUFFER) as lines:
            for number, (text, _) in enumerate(read_lines(lines), 1):
                yield b"%d %s" % (next(self.numbers), text)
        if number != due:
            raise Fault(f"{number} lines, of {due} packets")


def join(parts):
    """Writes the lines of the parts, one after the other, under the numbers that they have in the whole: first to a
    file that has no name, so that nothing is written where one of them is wrong."""
    with tempfile.TemporaryFile(buffering=BUFFER) as joined:
        known = Parts()
        for part in parts:
            try:
                joined.writelines(known.lines_of(part))
            except Fault as fault:
                raise Fault(f"{part.partition('=')[0]}: {fault}") from None
        joined.seek(0)
        shutil.copyfileobj(joined, sys.stdout.buffer, BUFFER)


# Reports of parts


ROW = re.compile(r"(.{12}) +(\d{1,20}) +(\d{1,20})(?:  (.*))?\n")
TITLES = ("verdict", "rule", "unread", "second")


def is_row_of(title, key, words):
    """Whether a table has such a row: that of a verdict names one, and that of a second ends with one."""
    if title == "second":
        return key.isdecimal() and words in VERDICTS
    return title != "verdict" or key in VERDICTS


def read_report(path, tables):
    """Adds the rows of a report to the tables: packets and octets by a key and its words."""
    title, told = None, 0
    with open(path, "rb", BUFFER) as file:
        for number, line in lines_in(file):
            text = line.decode(errors="replace")
            row = ROW.fullmatch(text)
            if row and title and is_row_of(title, row[1].rstrip(), row[4]):
                tables[title].add((row[1].rstrip(), row[4] or ""), int(row[2]), int(row[3]))
            elif text.split()[1:] == ["packets", "octets"] and text.split()[0] in TITLES:
                title, told = text.split()[0], told + 1
            elif text != "\n" and not (number == 1 and re.fullmatch(r"packets \d+, octets \d+\n", text)):
                raise Fault(f"{path}: line {number} isn't a line of a report: {text[:80]!r}")
    if told != len(TITLES):
        raise Fault(f"{path} is no whole report")


def rule_order(row):
    """By numbers, or without them the most packets first."""
    (key, words), (packets, _) = row
    family, _, number = key.partition(" ")
    return (family, int(number)) if number.isdigit() else ("", -packets, family, words)


def order_of(title):
    """In which order the rows of a table stand: as in a report of the whole."""
    if title == "verdict":
        return lambda row: VERDICTS.index(row[0][0])
    if title == "rule":
        return rule_order
    if title == "second":
        return lambda row: (int(row[0][0]), VERDICTS.index(row[0][1]))
    return lambda row: row[0]


def sum_reports(paths):
    tables = {title: Counts() for title in TITLES}
    for path in paths:
        read_report(path, tables)
    packets, octets = map(sum, zip([0, 0], *tables["verdict"].values()))
    print(f"packets {packets}, octets {octets}")
    for title, counts in tables.items():
        table(title, ((key, *found, words) for (key, words), found in sorted(counts.items(), key=order_of(title))))


def options_of():
    parser = argparse.ArgumentParser(
        description=__doc__, formatter_class=argparse.RawDescriptionHelpFormatter, usage=argparse.SUPPRESS)
    parser.add_argument("files", nargs="*", metavar="FILE")
    for name in ("join", "sum"):
        parser.add_argument("--" + name, action="store_true")
    for name in ("json", "hex"):
        parser.add_argument("--" + name, action="store_true")
    parser.add_argument("--at", type=moment_of, metavar="MOMENT")
    for name in ("changes", "list", "tape", "split", "plot"):
        parser.add_argument("--" + name, type=pathlib.Path)
    options = parser.parse_args()
    wrong = wrong_options(options)
    if wrong:
        parser.error(wrong)
    return options


def wrong_options(options):
    """What is wrong with the words, or nothing."""
    ways = [options.join, options.sum, options.json, options.at is not None]
    pictured, known = options.split or options.plot, options.changes or options.list or options.tape
    if sum(ways) > 1 or any(ways) and (pictured or options.list) or any(ways) and not options.json and known:
        return "--join, --sum, --json and --at go alone, but for --json with --changes"
    if options.at is not None:
        return "--at goes with one file of changes, or none" if options.files[1:] else None
    if options.join:
        bare = [part for part in options.files if not all(part.partition("="))]
        return f"--join wants of each part its lines and its capture, LINES=CAPTURE: {bare[0]}" if bare else None
    if not options.sum and len(options.files) != 2:
        return "a capture and its lines are wanted"
    if options.list and options.changes:
        return "--list and --changes don't go together: --changes has the words of the rules"
    if bool(options.list) != bool(options.tape):
        return ("--list and --tape go together: a listing names the rules of the tape's end, and the tape tells "
                "whether they are those of each packet; --changes, of what `changes` wrote, resolves them there")
    return None


def main():
    options = options_of()
    try:
        if options.at is not None:
            write_listing(options.files[0] if options.files else "/dev/stdin", options.at)
        elif options.join:
            join(options.files)
        elif options.sum:
            sum_reports(options.files)
        else:
            look(options)
        sys.stdout.flush()
    except BrokenPipeError:
        os.dup2(os.open(os.devnull, os.O_WRONLY), sys.stdout.fileno())
        sys.exit(1)
    except (Fault, OSError) as fault:
        sys.exit(f"verdicts: {fault}")


if __name__ == "__main__":
    main()
