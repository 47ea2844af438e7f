"""What the rules have counted, as a text, as JSON and for Prometheus; each file is put in its place whole."""

import datetime
import json
import os
import time

from . import parts
from .flowspec import MARK, RATES, REDIRECTS, discards, goes_on, redirect_target, samples, those_of

AT_ONCE = 64            # rules that are asked for between two looks at the input
MOST_SERIES = 1000      # rules in the file for Prometheus: those with most packets


def moment_words(seconds):
    moment = datetime.datetime.fromtimestamp(seconds, datetime.timezone.utc)
    return moment.isoformat(timespec="milliseconds").replace("+00:00", "Z")


def done_words(held, options):
    """What is done to a packet that matches, rates in decimal."""
    rates = those_of(held.actions, RATES)
    found = ["drop"] if any(map(discards, rates)) else [parts.rate_words(rate) for rate in rates]
    found += [f"mark {action[7]}" for action in those_of(held.actions, (MARK,))[:1]]
    found += ["sample"] * (samples(held.actions) and options.sample is not None)
    found += [f"no redirect to {redirect_target(action)}" for action in those_of(held.actions, REDIRECTS)]
    found += ["goes on" if goes_on(held.actions) else "ends"]
    return ("only counted, not: " if options.check else "") + ", ".join(found)


def state_words(held):
    return "acts" if held.acts() else f"left out: {held.reason}"


def device_packets(device):
    """How many packets the device says that it received, or None."""
    try:
        with open("/proc/thread-self/net/dev", encoding="latin-1") as file:
            rows = dict(row.strip().split(":", 1) for row in file.readlines()[2:])
        return int(rows[device].split()[1])
    except (OSError, KeyError, ValueError, IndexError):
        return None


class Round:
    """One after the other all rules that act are asked for what they counted."""

    def __init__(self, rules, since):
        self.rules, self.place, self.since = rules, 0, since
        self.begun = time.monotonic()

    def step(self, table):
        """Asks for some, and answers whether all have been asked for."""
        for held in self.rules[self.place:self.place + AT_ONCE]:
            if held.acts() and not held.is_new:
                counts = table.counts_of(held)
                if self.since is not None:
                    held.rate = max(0, counts[1] - held.counts[1]) / max(0.001, self.begun - self.since)
                held.counts = counts
        self.place += AT_ONCE
        return self.place >= len(self.rules)


def replace(path, text):
    """The text in the file's place; the folder is the operator's, so nothing in it is followed."""
    new = f"{path}.new"
    try:
        os.unlink(new)
    except FileNotFoundError:
        pass
    with os.fdopen(os.open(new, os.O_WRONLY | os.O_CREAT | os.O_EXCL | os.O_NOFOLLOW, 0o644), "w") as file:
        file.write(text)
    os.replace(new, path)


class State:
    """What is told beside the rules."""

    def __init__(self, options):
        self.options = options
        self.acts, self.why, self.seen, self.device = False, "no rule has come yet", None, None
        self.lines = self.last_line = self.dropped = 0

    def rows(self):
        """Names, words and values for Prometheus."""
        yield "acts", "whether the rules act at the device", "gauge", int(self.acts)
        yield "lines_total", "lines of changes that were done", "counter", self.lines
        yield "last_line_timestamp_seconds", "when the last line came", "gauge", self.last_line
        yield "dropped_lines_total", "lines of output that nobody read", "counter", self.dropped
        if self.seen is not None:
            yield "seen_packets_total", "packets that came to the filter", "counter", self.seen
        if self.device is not None:
            yield "device_packets_total", "packets that the device received", "counter", self.device


def as_text(rules, state):
    head = [f"{moment_words(time.time())} {state.options.device}: {'acts' if state.acts else state.why}",
            f"{state.seen} packets seen by the filter, {state.device} received by the device; {state.lines} lines, "
            f"the last one at {moment_words(state.last_line)}"]
    rows = [f"{held.counts[0]:>12} {held.counts[1]:>15} {parts.grouped(round(held.rate)):>15} octets/s  {held.words}"
            f"  # {done_words(held, state.options)}; {state_words(held)}" for held in rules]
    return "\n".join(head + rows) + "\n"


def as_json(rules, state):
    rows = [{"rule": held.words, "packets": held.counts[0], "octets": held.counts[1],
             "octets_per_second": round(held.rate), "acts": held.acts(), "reason": held.reason,
             "does": done_words(held, state.options)} for held in rules]
    return json.dumps({"moment": moment_words(time.time()), "device": state.options.device,
                       "table": state.options.table, "acts": state.acts, "why": None if state.acts else state.why,
                       "lines": state.lines, "last_line": state.last_line or None, "seen_packets": state.seen,
                       "device_packets": state.device, "rules": rows}, indent=1) + "\n"


def series(name, words, kind, rows):
    """The lines of a name; each row has labels and a value."""
    return [f"# HELP welgutan_{name} {words}", f"# TYPE welgutan_{name} {kind}",
            *(f"welgutan_{name}{{{', '.join(labels)}}} {value}" for labels, value in rows)]


def as_series(rules, state):
    """The device is a label of all, so that several followers' files may stand side by side."""
    device = f'device="{state.options.device}"'
    lines = [line for *head, value in state.rows() for line in series(*head, [([device], value)])]
    acting = sum(held.acts() for held in rules)
    lines += series("rules", "admitted rules, and whether they act", "gauge",
                    [([device, 'state="acts"'], acting), ([device, 'state="left out"'], len(rules) - acting)])
    most = sorted((held for held in rules if held.acts()), key=lambda held: -held.counts[0])[:MOST_SERIES]
    for place, name in enumerate(("packets", "octets")):
        lines += series(f"rule_{name}_total", f"{name} that the rule matched", "counter",
                        [([device, f'rule="{held.words}"'], held.counts[place]) for held in most])
    return "\n".join(lines) + "\n"


def write_files(path, rules, state):
    for suffix, make in (("txt", as_text), ("json", as_json), ("prom", as_series)):
        replace(f"{path}.{suffix}", make(rules, state))
