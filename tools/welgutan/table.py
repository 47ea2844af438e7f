"""The table in the kernel: who owns it, its first lines, and what it counts."""

import errno
import fcntl
import os
import pathlib
import socket
import struct

from . import expressions, parts
from .layout import ELEMENT, Layout, comment_of, map_name
from .netlink import (ACKNOWLEDGE, CREATE, DELETE_TABLE, EXCLUSIVE, GET_CHAIN, GET_ELEMENTS, GET_RULE, GET_SET,
                      GET_TABLE, NEW_CHAIN, NEW_TABLE, Kernel, Refused, attribute, attributes, long_number, name,
                      nested, number, text_of)

OWNER, PERSIST = 2, 4
INGRESS, ACCEPT = 0, 1
MARK_TYPE = 19
LOCKS = pathlib.Path("/run/welgutan")


class NotOurs(Exception):
    """Somebody else holds the table."""


class Gone(Exception):
    """The table isn't there any more, or another one stands in its place."""


def lock(table):
    """A lock by the table's and the namespace's name, for kernels where a table has no owner."""
    LOCKS.mkdir(mode=0o700, exist_ok=True)
    path = LOCKS / f"{table}.{os.stat('/proc/self/ns/net').st_ino}.lock"
    file = os.open(path, os.O_RDWR | os.O_CREAT | os.O_NOFOLLOW | os.O_CLOEXEC, 0o600)
    try:
        fcntl.flock(file, fcntl.LOCK_EX | fcntl.LOCK_NB)
    except BlockingIOError as error:
        os.close(file)
        raise NotOurs(f"another instance holds the table {table}") from error
    return file


class Table:
    """A table of rules, which this process alone changes."""

    def __init__(self, options, keeps, never, most_each, has_owner=True):
        self.options, self.keeps, self.never, self.most_each = options, keeps, never, most_each
        self.kernel = Kernel()
        self.flags = OWNER | (PERSIST if keeps else 0)
        self.lock = self.layout = self.seen_line = None
        self.is_held = False    # by its flags, by the lock, or since this process made it
        if not has_owner:
            self.go_without_owner()

    def go_without_owner(self):
        self.flags = 0
        self.lock = lock(self.options.table)

    def name(self):
        return name(1, self.options.table)

    def found(self):
        """Flags and owner of the table that stands there, or None."""
        answer = self.kernel.asks(GET_TABLE, self.name())
        if answer is None:
            return None
        values = dict(attributes(answer[0]))
        return int.from_bytes(values[2], "big"), 7 in values

    def claim(self):
        """Makes the table this process's own, and answers whether an old one stands there, which acts on until
        `renew`. NotOurs where somebody holds it."""
        found = self.found()
        if found and found[1]:
            raise NotOurs(f"another process owns the table {self.options.table}: Operation not permitted")
        if self.flags:
            self.claim_by_flags(found)
        elif not found:
            self.kernel.transact([(NEW_TABLE, CREATE | EXCLUSIVE, self.name() + number(2, 0))])
        self.is_held = True
        return found is not None

    def claim_by_flags(self, found):
        """An orphan is taken, and a table that never had an owner is let be; else a new one is made."""
        if found and not found[0] & PERSIST:
            return
        flags = OWNER | PERSIST if found else self.flags
        try:
            self.kernel.transact([(NEW_TABLE, CREATE | (0 if found else EXCLUSIVE), self.name() + number(2, flags))])
        except Refused as error:
            code_words = str(error)
            if os.strerror(errno.EPERM) in code_words or os.strerror(errno.EEXIST) in code_words:
                raise NotOurs(f"the table {self.options.table}: {code_words}") from error
            self.go_without_owner()
            self.claim()

    # The whole table anew

    def new_layout(self):
        return Layout(self.options, self.most_each, self.counts_of)

    def begin_renewal(self):
        """A layout whose batch takes the old table out and makes another one with its first lines."""
        layout = self.new_layout()
        if self.found():
            layout.batch.append((DELETE_TABLE, 0, self.name()))
            layout.owners.append(None)
        layout.add(NEW_TABLE, CREATE, number(2, self.flags))
        for chain in ("end", "v4", "v6"):
            layout.add_chain(chain)
        layout.add_set("dscps", 8, MARK_TYPE, 4, number(6, 0xFFFFFF00) + number(7, 0))
        self.add_walk(layout)
        self.add_end(layout)
        for family in (4, 6):
            self.add_never(layout, family)
            if family == 6:
                layout.add_line("v6", expressions.of_parts([parts.LATER_NOTE], None))
            layout.families[family].last = layout.add_line(
                f"v{family}", expressions.of_parts([parts.MARKED_TO_END], None))
        return layout

    def add_walk(self, layout):
        hook = number(1, INGRESS) + number(2, 0) + name(3, self.options.device)
        layout.add(NEW_CHAIN, CREATE, name(3, "walk") + nested(4, hook) + number(5, ACCEPT) + name(7, "filter"))
        self.seen_line = layout.add_line("walk", expressions.counter())
        layout.add_line("walk", expressions.load_meta("mark") + expressions.compare("!=", bytes(4))
                        + expressions.immediate(bytes(4)) + expressions.set_mark())
        for protocol, chain in ((b"\x08\x00", "v4"), (b"\x86\xdd", "v6")):
            layout.add_line("walk", expressions.load_meta("protocol") + expressions.compare("==", protocol)
                            + expressions.verdict("goto", chain))

    @staticmethod
    def add_end(layout):
        accept = expressions.verdict("accept")
        layout.add_line("end", expressions.load_meta("mark") + expressions.compare("==", bytes(4)) + accept)
        mask = struct.pack("=I", parts.HAS_DSCP | parts.DSCP_BITS)
        layout.add_line("end", expressions.load_meta("mark") + expressions.bitwise(mask, bytes(4))
                        + expressions.look_up("dscps", 1, True))
        layout.add_line("end", expressions.immediate(bytes(4)) + expressions.set_mark() + accept)

    def add_never(self, layout, family):
        """What comes from these networks, or goes to them, is accepted before any rule."""
        networks = self.never[family]
        if not networks:
            return
        octets = 4 if family == 4 else 16
        set_name = f"never{family}"
        layout.add_set(set_name, 2 | 4, 7 if family == 4 else 8, octets)
        layout.add_ranges(set_name, networks, octets)
        for is_destination in (True, False):
            load = expressions.load_payload("network", parts.ADDRESSES[family, is_destination][1], octets)
            layout.add_line(f"v{family}", load + expressions.look_up(set_name, 1, False)
                            + expressions.verdict("accept"))

    def commit(self, layout):
        layout.done(self.kernel.transact(layout.batch) if layout.batch else [])
        self.layout = layout

    # What stands there

    def counts_of(self, held):
        """What a rule has counted by now."""
        if held.is_new or not held.acts():
            return held.counts
        found = self.asked_counts(held)
        return held.counts if found is None else found

    def asked_counts(self, held):
        if held.state == ELEMENT:
            which = name(2, map_name(held.rule.family, held.plain.map()))
            answer = self.kernel.asks(GET_ELEMENTS, self.name() + which + nested(
                3, nested(1, nested(1, attribute(1, held.plain.key)))))
            found = list(expressions.elements_in(answer[0])) if answer else []
            return found[0][1] if found else None
        if held.counter_line is None:
            return None
        return self.counts_of_line(held.counter_line)

    def counts_of_line(self, line):
        answer = self.kernel.asks(GET_RULE, self.name() + name(2, line.chain) + long_number(3, line.handle))
        return expressions.counts_of_rule(answer[0]) if answer else None

    def seen(self):
        """Packets that came to the filter, or None where its chain isn't there."""
        if self.seen_line is None or self.seen_line.handle is None:
            return None
        found = self.counts_of_line(self.seen_line)
        return found[0] if found else None

    def is_there(self):
        return self.found() is not None

    def lines_in_chains(self):
        """Of each chain of the table the count of its lines and of what leads to it."""
        answers = self.kernel.asks(GET_CHAIN, b"", dumps=True) or []
        chains = (dict(attributes(each)) for each in answers)
        return {text_of(each[3]): int.from_bytes(each[6], "big") for each in chains
                if text_of(each[1]) == self.options.table}

    def old_counts(self):
        """What the rules of the table that stands there have counted, by comment, and by map and key."""
        counts = {}
        for chain in self.lines_in_chains():
            for each in self.kernel.asks(GET_RULE, self.name() + name(2, chain), dumps=True) or []:
                values = dict(attributes(each))
                comment = expressions.comment_of(values.get(7, b""))
                found = expressions.counts_of_rule(each)
                if comment and found:
                    counts[comment] = found
        for each in self.kernel.asks(GET_SET, self.name(), dumps=True) or []:
            set_name = text_of(dict(attributes(each))[2])
            for answer in self.kernel.asks(GET_ELEMENTS, self.name() + name(2, set_name), dumps=True) or []:
                counts |= {(set_name, key): found for key, found in expressions.elements_in(answer) if found}
        return counts

    @staticmethod
    def carried(counts, held):
        """What an old table's counts have for a rule."""
        found = counts.get(comment_of(held))
        if found is None and held.plain is not None:
            found = counts.get((map_name(held.rule.family, held.plain.map()), held.plain.key))
        return found or (0, 0)

    def end(self):
        """Takes the table out, or leaves it where it is to be kept."""
        try:
            if self.is_held and not self.keeps and self.found():
                self.kernel.transact([(DELETE_TABLE, ACKNOWLEDGE, self.name())])
        except (Refused, OSError):
            pass
        self.kernel.close()
        if self.lock is not None:
            os.close(self.lock)

    def device_index(self):
        """The number of the device, or None where it isn't there."""
        try:
            return socket.if_nametoindex(self.options.device)
        except OSError:
            return None
