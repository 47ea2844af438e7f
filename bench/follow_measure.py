"""What a change and a frame take beside many rules of `tools/nft.py --follow`.

A part of `follow.py`, which says what it is for. Times are of this process, from a line's text to the kernel's answer:
by the clock, and of the processor, which a busy machine changes less.
"""

import gc
import os
import statistics
import time
from typing import NamedTuple

import kernel
from follow_command import frame
from welgutan import follower, policy
from welgutan.parts import Options
from welgutan.table import Table

FREE = policy.Policy(frozenset(policy.KINDS), {4: 0, 6: 0}, 10**9, 10**9)
NOBODY = {4: [], 6: []}
MANY = (10000, 100000)
CHANGES = 60
BARE_FIRST, BARE = "try8", "try9"


def address(number):
    return f"10.{number >> 16 & 255}.{number >> 8 & 255}.{number & 255}"


DROP, LIMIT = "then bytes 0:00000000", "then bytes 0:4e6e6b28"


def port_words(number):
    protocol, port = (6, number + 1000) if number < 50000 else (17, number - 49000)
    return f"v4 dst 192.0.2.1/32 proto ={protocol} dport ={port} {DROP}"


def destination_words(number):
    return f"v4 dst {address(number)}/32 proto =17 dport =53 {DROP}"


KINDS = {   # of so many rules the words of one, and an address by which frames meet the most of them
    "destinations": (lambda number: f"v4 dst {address(number)}/32 {DROP}", "10.255.0.1"),
    "destinations with a port": (destination_words, "10.255.0.1"),
    "sources of one destination": (lambda number: f"v4 dst 192.0.2.1/32 src {address(number)}/32 {DROP}", "192.0.2.1"),
    "ports of one destination": (port_words, "192.0.2.1"),
    "destinations with a limit (chains)": (lambda number: f"v4 dst {address(number)}/32 {LIMIT}", "10.255.0.1"),
}


class Took(NamedTuple):
    """Seconds."""
    clock: float
    processor: float


class Beside:
    """A table with so many rules of a kind."""

    def __init__(self, words, count):
        self.words, self.count = words, count
        self.lists = follower.Lists()
        self.table = Table(Options(kernel.HOOKED, kernel.TABLE, False, None), False, NOBODY, FREE.most_each)
        self.acting = follower.Acting(self.table, FREE)
        self.table.claim()
        self.acting.renew([], None)

    def do(self, lines):
        """Seconds that the lines take as one transaction, by the clock and of the processor."""
        begin, used, last, changes = time.perf_counter(), time.thread_time(), None, []
        for line in lines:
            last = self.lists.change(line, last, 0)
            changes.append(last)
        self.acting.act(changes)
        return Took(time.perf_counter() - begin, time.thread_time() - used)

    def do_all(self, lines):
        """Seconds that the lines take, in transactions of as many as the command does at once."""
        took = [self.do(lines[begin:begin + follower.MOST_LINES]) for begin in range(0, len(lines), follower.MOST_LINES)]
        return Took(*map(sum, zip(*took)))

    def fill(self):
        return self.do_all([f"0 + {number + 1} {self.words(number)}" for number in range(self.count)])

    def one_change(self):
        """Of a rule that comes, and of one that goes, what each time took."""
        place = self.count + 1
        line = self.words(self.count)
        times = [(self.do([f"0 + {place} {line}"]), self.do([f"0 - {place} {line}"])) for _ in range(CHANGES)]
        return zip(*times)

    def many_changes(self):
        """What 10,000 rules take that go, in two transactions, and come again."""
        count = min(10000, self.count)
        out = [f"0 - {self.count - number} {self.words(self.count - 1 - number)}" for number in range(count)]
        back = [f"0 + {self.count - count + number + 1} {self.words(self.count - count + number)}"
                for number in range(count)]
        return self.do_all(out), self.do_all(back)


def milliseconds(times):
    """In words: the least and the median by the clock, and of the processor."""
    return ", ".join(f"{min(each) * 1000:.2f} to {statistics.median(each) * 1000:.2f} ms{whose}"
                     for each, whose in zip(zip(*times), ("", " of the processor")))


def seconds(took):
    return f"{took.clock:.2f} s ({took.processor:.2f})"


def nanoseconds(to, senders):
    """What the rules take a frame to the address more than no rules do."""
    frames = [frame(number, to, 9) for number in range(400)]
    least = kernel.least_of_rounds(senders, frames)
    return least["ruled"] - least["bare"]


def measure():
    gc.disable()        # as the command does
    kernel.make_pair(BARE_FIRST, BARE)
    kernel.run("nft", "-f", "-", text=kernel.drop_all(kernel.HOOKED) + kernel.drop_all(BARE))
    senders = {"bare": kernel.packet_socket(BARE_FIRST), "ruled": kernel.packet_socket(kernel.FIRST)}
    print(f"load {os.getloadavg()[0]:.0f} on {os.cpu_count()} processors; least and median; seconds of the processor in "
          "brackets", flush=True)
    for count in MANY:
        for name, (words, to) in KINDS.items():
            beside = Beside(words, count)
            filled = beside.fill()
            comes, goes = map(milliseconds, beside.one_change())
            out, back = map(seconds, beside.many_changes())
            print(f"{count} {name}: all {seconds(filled)}\n  one comes {comes}\n  goes {goes}\n  10,000 go {out}, come "
                  f"{back}; a frame {nanoseconds(to, senders):.0f} ns more", flush=True)
            beside.table.end()
