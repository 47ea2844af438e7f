"""Keeps the kernel's rules equal to a stream of changes.

A line of the stream is one that `changes` writes: `MOMENT + K LINE` where a rule begins to act at place K of its
family's list, `MOMENT - K LINE` where the rule there acts no longer; LINE is as `list` writes it. Lines that come
together are one transaction. A line that doesn't fit what stands is told, and nothing after it is done.
"""

import gc
import itertools
import os
import re
import select
import signal
import time

from . import flowspec, parts, policy, report
from .layout import OUT, Held
from .netlink import Refused
from .report import moment_words
from .service import Manager, Output
from .table import Gone, NotOurs, Table

QUIET = 0.002           # seconds without a line, after which those that came are done
MOST_LINES = 5000       # of a transaction
MANY_LINES = 1000       # for which it begins at once; for fewer there is a rest first, as long as the last one took
PIECE = 1 << 16
LONGEST_LINE = 1 << 17
WATCHING = 0.5          # seconds between two looks at the device and the table
ENDED, CANNOT, WRONG_LINE = 0, 1, 3

LINE = re.compile(r"(0|[1-9][0-9]{0,19}) ([+-]) ([1-9][0-9]{0,9}) (v([46])(?: .*)?)")


class WrongLine(Exception):
    """A line that doesn't fit what stands, and why."""


class Change:
    """A rule that comes or goes; `before` is the same rule with other actions, which just went."""
    __slots__ = ("comes", "held", "before", "arrived")

    def __init__(self, comes, held, before, arrived):
        self.comes, self.held, self.before, self.arrived = comes, held, before, arrived


class Lists:
    """The admitted rules of both families, each in its order, as the lines so far have them."""

    def __init__(self):
        self.of = {4: [], 6: []}
        self.arrivals = itertools.count()

    def all(self):
        return self.of[4] + self.of[6]

    def change(self, text, last, arrived):
        """Does a line, and answers the change; the last one is of the line before."""
        found = LINE.fullmatch(text)
        if not found:
            raise WrongLine(f"no line of changes: {text[:200]}")
        rules, place = self.of[int(found[5])], int(found[3]) - 1
        if found[2] == "-":
            return Change(False, self.without(rules, place, found[4]), None, arrived)
        try:
            held = Held(found[4])
        except flowspec.NoRule as error:
            raise WrongLine(f"no rule in words: {found[4][:200]}") from error
        self.add(rules, place, held)
        before = last.held if last and not last.comes and last.held.rule == held.rule else None
        return Change(True, held, before, arrived)

    @staticmethod
    def without(rules, place, words):
        if place >= len(rules):
            raise WrongLine(f"no rule at place {place + 1}, of {len(rules)}")
        if rules[place].words != words:
            raise WrongLine(f"at place {place + 1} stands {rules[place].words} and not {words[:200]}")
        return rules.pop(place)

    def add(self, rules, place, held):
        if place > len(rules):
            raise WrongLine(f"no place {place + 1} among {len(rules)} rules")
        if place and not rules[place - 1].key < held.key or place < len(rules) and not held.key < rules[place].key:
            raise WrongLine(f"not in the order of rules at place {place + 1}: {held.words}")
        held.arrival = next(self.arrivals)
        rules.insert(place, held)


def counted(held):
    """What a rule that goes has counted, behind `#`; nothing where it didn't act."""
    return "" if held.reason else f"  # counted {held.counts[0]} packets, {held.counts[1]} octets"


class Acting:
    """Which of the rules act, within the policy, by transactions of the table."""

    def __init__(self, table, bounds):
        self.table, self.bounds = table, bounds
        self.waiting = {}       # rules that a bound leaves out, in the order in which they came
        self.refused = {}       # of rules that the kernel doesn't take, what it says
        self.let_in = []        # of those that waited, who act since the last transaction

    def layout(self):
        return self.table.layout

    def stage(self, changes):
        made_room = False
        for change in changes:
            if change.comes:
                self.begin(change.held)
            else:
                made_room = self.end(change.held) or made_room
        self.let_in = self.admit() if made_room and self.waiting else []

    def begin(self, held):
        layout, why = self.layout(), self.refused.get(held)
        why = why or policy.why_left_out(self.bounds, held)
        waits = self.why_waiting(held) if why is None else None
        if why or waits:
            layout.set(held, state=OUT, reason=why or waits)
            if waits:
                layout.put(self.waiting, held, None)
        else:
            layout.add_rule(held)

    def why_waiting(self, held):
        if self.layout().acting >= self.bounds.most:
            return f"{self.bounds.most} rules act already"
        return self.layout().why_not(held)

    def end(self, held):
        """Answers whether there is room for another rule."""
        if held.acts():
            self.layout().remove_rule(held)
            return True
        if held in self.waiting:
            self.layout().drop(self.waiting, held)
        return False

    def admit(self):
        """Rules that waited, and for which there is room now."""
        found = []
        for held in list(self.waiting):
            if self.layout().acting >= self.bounds.most:
                break
            if self.layout().why_not(held) is None:
                self.layout().drop(self.waiting, held)
                self.layout().set(held, reason=None)
                self.layout().add_rule(held)
                found.append(held)
        return found

    def act(self, changes):
        """Has the kernel do all changes at once; of a rule that it refuses the others act."""
        for change in changes:
            if change.before is not None:
                change.held.counts = self.table.counts_of(change.before)
        while True:
            self.stage(changes)
            layout = self.layout()
            try:
                self.table.commit(layout)
                return
            except Refused as error:
                owners = list(layout.owners)
                layout.take_back()
                if not self.note_refused(error, owners, changes):
                    raise Gone(str(error)) from error

    def note_refused(self, error, owners, changes):
        """Keeps in mind who was refused; answers whether that is somebody who comes."""
        coming = {change.held for change in changes if change.comes} - self.refused.keys()
        culprits = {owners[place]: words for place, words in error.reasons.items() if 0 <= place < len(owners)}
        found = {held: words for held, words in culprits.items() if held in coming}
        if not found and len(coming) == 1 and self.table.is_there():
            found = {held: str(error) for held in coming}
        self.refused |= {held: f"the kernel refuses it: {words}" for held, words in found.items()}
        return bool(found)

    def renew(self, rules, counts):
        """Makes the whole table anew; `counts` are those that an old one had, or None where the rules know theirs."""
        while True:
            for held in rules:
                held.forget()
                if counts is not None:
                    held.counts = self.table.carried(counts, held)
            self.waiting = {}
            layout = self.table.layout = self.table.begin_renewal()
            self.stage([Change(True, held, None, 0) for held in sorted(rules, key=lambda held: held.arrival)])
            try:
                self.table.commit(layout)
                return
            except Refused as error:
                if not self.note_refused(error, layout.owners, [Change(True, held, None, 0) for held in rules]):
                    raise

    def forget(self, changes):
        """Rules that went aren't kept in mind."""
        for change in changes:
            if not change.comes:
                self.refused.pop(change.held, None)


class Input:
    """Lines as they come, and when."""

    def __init__(self, file):
        self.file, self.lines, self.part = file, [], b""
        self.first = self.last = 0.0
        self.has_ended = False

    def read(self):
        octets = os.read(self.file, PIECE)
        if not octets:
            self.has_ended = True
            if self.part:
                self.lines.append((self.part.decode("latin-1") + " (cut)", time.monotonic()))
                self.part = b""
            return
        *whole, self.part = (self.part + octets).split(b"\n")
        now = time.monotonic()
        if whole and not self.lines:
            self.first = now
        if whole:
            self.last = now
        self.lines += [(line.decode("latin-1"), now) for line in whole]
        if len(self.part) > LONGEST_LINE:
            self.lines.append((self.part.decode("latin-1"), now))
            self.has_ended = True

    def due(self, window):
        """Seconds until the lines are to be done; None without any."""
        if not self.lines:
            return None
        if len(self.lines) >= MOST_LINES or self.has_ended:
            return 0
        return max(0, min(self.last + QUIET, self.first + window) - time.monotonic())

    def take(self):
        """Lines for one transaction; a rule that goes isn't parted from what may be its coming again."""
        count = MOST_LINES
        if len(self.lines) > count and " - " in self.lines[count - 1][0]:
            count += 1
        taken, self.lines = self.lines[:count], self.lines[count:]
        return taken


class Follower:
    def __init__(self, options, settings, bounds):
        self.options, self.settings = options, settings
        self.table = Table(options, settings.at_end == "keep", settings.never, bounds.most_each, settings.has_owner)
        self.lists, self.acting = Lists(), Acting(self.table, bounds)
        self.input, self.out, self.err = Input(0), Output(1), Output(2)
        self.manager, self.state = Manager(os.environ), report.State(options)
        self.status, self.settling, self.quiet_since = None, False, time.monotonic()
        self.rest_until = self.watch_at = self.report_at = 0.0
        self.round, self.last_round, self.device, self.chains = None, None, None, None

    # What is told

    def tell(self, words):
        self.err.tell(f"{moment_words(time.time())} {words}")

    def tell_changes(self, changes):
        now, moment = time.monotonic(), moment_words(time.time())
        for change in changes:
            note = self.note_of(change.held) if change.comes else counted(change.held)
            took = (now - change.arrived) * 1000
            self.out.tell(f"{moment} {took:.1f} ms {'+' if change.comes else '-'} {change.held.words}{note}")

    def tell_come(self, rules, note=""):
        """Of rules that come without a line of their own."""
        moment = moment_words(time.time())
        for held in rules:
            self.out.tell(f"{moment} 0.0 ms + {held.words}{note or self.note_of(held)}")

    def note_of(self, held):
        """What else is to be said of a rule that comes: behind `#`, or nothing."""
        if not held.acts():
            return f"  # left out: {held.reason}"
        rates = [parts.rate_words(rate) for rate in flowspec.those_of(held.actions, flowspec.RATES)
                 if not flowspec.discards(rate) and parts.rate_number(rate) is not None]
        words = "; ".join([*parts.untold(held.rule, held.actions, self.options), *rates])
        return f"  # {words}" if words else ""

    # Lines

    def do_lines(self):
        """Does what came; a wrong line ends the run after those before it."""
        changes, last, wrong = [], None, None
        for text, arrived in self.input.take():
            try:
                last = self.lists.change(text, last, arrived)
            except WrongLine as error:
                wrong = error
                break
            changes.append(last)
        self.state.lines += len(changes)
        self.state.last_line = time.time() if changes else self.state.last_line
        if changes and not self.settling:
            self.act(changes)
        self.quiet_since = time.monotonic()
        if wrong:
            self.tell(f"a line doesn't fit, and nothing after it is done: {wrong}")
            self.status = WRONG_LINE

    def act(self, changes):
        begun = time.monotonic()
        try:
            self.acting.act(changes)
        except Gone as error:
            self.tell(f"the kernel does nothing with what came ({error}); the table is made anew")
            self.acting.renew(self.lists.all(), None)
        self.chains = None
        self.tell_changes(changes)
        self.tell_come(self.acting.let_in, "  # let in, since there is room now")
        self.acting.forget(changes)
        self.manager.ready()
        now = time.monotonic()
        self.rest_until = now + (now - begun)

    # The beginning

    def claim(self):
        self.settling = self.table.claim()
        if self.table.lock is not None:
            self.tell("this kernel's tables have no owner of the kind asked for: others may change this one")
        if self.settling:
            self.tell(f"a table {self.options.table} is there, which acts until the lines that come are quiet")
        else:
            self.acting.renew([], None)

    def settle(self):
        """Once lines have come and are quiet, or none has come for long, the new rules take the old table's place."""
        now = time.monotonic()
        has_come = self.state.lines > 0
        if self.input.lines or self.input.has_ended and not has_come:
            return
        patience = self.settings.settle if has_come else self.settings.grace
        if self.input.has_ended or now - self.quiet_since >= patience:
            self.acting.renew(self.lists.all(), self.table.old_counts())
            self.settling = False
            left_out = [held for held in self.lists.all() if not held.acts()]
            self.tell(f"the old table is replaced: {len(self.lists.all()) - len(left_out)} rules act, "
                      f"{len(left_out)} are left out")
            self.tell_come(left_out)
            if has_come:
                self.manager.ready()

    # What may happen meanwhile

    def watch(self):
        self.watch_at = time.monotonic() + WATCHING
        self.watch_device()
        seen = self.table.seen() if not self.settling else None
        if not self.settling and (seen is None or not self.is_as_made()):
            self.tell("somebody took lines out of the table, or it went with its device; it is made anew")
            try:
                self.acting.renew(self.lists.all(), None)
                self.chains = None
            except Refused as error:
                self.tell(f"the table can't be made: {error}")
            seen = self.table.seen()
        self.state.seen, self.state.device = seen, report.device_packets(self.options.device)
        self.state.dropped = self.out.dropped_in_all + self.err.dropped_in_all
        self.state.acts = seen is not None and self.device is not None
        self.state.why = ("the lines aren't quiet yet" if self.settling else "the table isn't there" if seen is None
                          else f"{self.options.device} isn't there")
        if seen is not None or self.settling:
            self.manager.alive()

    def is_as_made(self):
        """Where the table has no owner: whether its chains have the lines that they had after the last change."""
        if self.table.flags:
            return True
        now = self.table.lines_in_chains()
        was, self.chains = self.chains, self.chains or now
        return was is None or was == now

    def watch_device(self):
        found = self.table.device_index()
        if found != self.device or not self.watch_count:
            name = self.options.device
            if found is None:
                self.tell(f"{name} isn't there: no rule acts until it is")
            elif self.watch_count:
                self.tell(f"{name} is there {'again' if self.device is None else 'anew'}: the rules act")
        self.device, self.watch_count = found, self.watch_count + 1

    watch_count = 0

    def do_report(self):
        """A step of a round; at its end the files are written."""
        now = time.monotonic()
        if self.round is None:
            self.round = report.Round(self.lists.all(), self.last_round)
        if not self.round.step(self.table):
            return
        self.last_round, self.round = self.round.begun, None
        self.report_at = now + self.settings.each
        if self.settings.counters:
            try:
                report.write_files(self.settings.counters, self.lists.all(), self.state)
            except OSError as error:
                self.tell(f"{self.settings.counters}: {error.strerror}")

    # The run

    def due(self):
        """Seconds until the lines that wait are to be done; None without any."""
        due = self.input.due(self.settings.window)
        if due is None or len(self.input.lines) >= MANY_LINES:
            return due
        return max(due, self.rest_until - time.monotonic())

    def wait(self, wake):
        now = time.monotonic()
        until = [self.watch_at, self.report_at if not self.settling else self.watch_at]
        due = self.due()
        if due is not None:
            until.append(now + due)
        readable = [wake] + ([0] if not self.input.has_ended and len(self.input.lines) < 2 * MOST_LINES else [])
        writable = [each.file for each in (self.out, self.err) if each.is_waiting()]
        ready = select.select(readable, writable, [], max(0, min(until) - now))
        if wake in ready[0]:
            self.status = ENDED
        elif 0 in ready[0]:
            self.input.read()
        self.out.write()
        self.err.write()

    def turn(self, wake):
        self.wait(wake)
        now = time.monotonic()
        if self.status is None and self.due() == 0:
            self.do_lines()
        if self.status is None and self.settling:
            self.settle()
        if now >= self.watch_at:
            self.watch()
        if now >= self.report_at and not self.settling:
            self.do_report()
        if self.input.has_ended and not self.input.lines and self.status is None:
            self.status = ENDED
            self.tell("the lines have ended")

    def run(self):
        """Follows until the lines end, or a signal says so; answers the status."""
        gc.disable()        # nothing here is in circles for long, and a collection among 100,000 rules takes 0.1 s
        wake = wake_by_signals()
        try:
            self.claim()
            while self.status is None:
                self.turn(wake)
        except (NotOurs, Refused, OSError, Gone) as error:
            self.tell(f"{self.options.table}: {error}")
            self.status = CANNOT
        finally:
            self.finish()
        return self.status

    def finish(self):
        self.table.end()
        if self.settings.counters and self.table.layout is not None:
            self.state.acts, self.state.why = self.settings.at_end == "keep" and self.state.acts, "the follower ended"
            try:
                report.write_files(self.settings.counters, self.lists.all(), self.state)
            except OSError:
                pass
        self.out.write(0.2)
        self.err.write(0.2)


def wake_by_signals():
    """A file that can be read once a signal asks for the end."""
    wake, woken = os.pipe()
    os.set_blocking(woken, False)
    signal.set_wakeup_fd(woken, warn_on_full_buffer=False)
    for each in (signal.SIGTERM, signal.SIGINT, signal.SIGHUP):
        signal.signal(each, lambda *_: None)
    signal.signal(signal.SIGPIPE, signal.SIG_IGN)
    return wake
