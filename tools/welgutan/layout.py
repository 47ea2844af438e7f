"""Where the rules of a table stand in the kernel, and the messages that bring a change there.

A rule that is plain, a destination and perhaps a source by their prefixes and exact values of protocol and ports, is an
element: there is a map for each length of both and each set of fields, and a look-up of it in the family's chain. All
others are lines in a chain of their destination, or in the family's where they have none. A destination is wholly
elements or wholly a chain, since a rule that isn't plain may stand between two that are.

Why look-ups in this order keep the order of rules (RFC 8955 section 5.1): a packet meets at most one element of a map,
and of two plain rules that it meets with one destination the one with the longer source precedes, then the one with a
source, then of the first field that only one has the one that has it. Values are compared as they are written, so of
one source a value has to be written in equally many octets wherever it stands.

What changes is kept in a journal, so that a batch that the kernel refuses can be taken back.
"""

import bisect
import hashlib
import itertools
import struct
from typing import NamedTuple

from . import expressions, parts
from .flowspec import (DESTINATION, DESTINATION_PORT, EQUAL, MARK, PROTOCOL, SOURCE, SOURCE_PORT, WIDTHS,
                       order_key, read_words, those_of)
from .netlink import (APPEND, CREATE, DELETE_CHAIN, DELETE_ELEMENTS, DELETE_RULE, DELETE_SET, ECHO, NEW_CHAIN,
                      NEW_ELEMENTS, NEW_RULE, NEW_SET, attribute, long_number, name, nested, number, text_of, value_of)

FIELDS = (PROTOCOL, DESTINATION_PORT, SOURCE_PORT)
SHAPES = (FIELDS, (PROTOCOL, DESTINATION_PORT), (PROTOCOL, SOURCE_PORT), (PROTOCOL,), ())     # in their order
FIELD_NAMES = {PROTOCOL: "proto", DESTINATION_PORT: "dport", SOURCE_PORT: "sport"}
MOST_LOOK_UPS = 64      # of a family; each takes a packet some 50 ns


class Plain(NamedTuple):
    """Which map an element stands in, and its key: lengths of the prefixes, None without a source, and a shape. Each
    value is told with its source, its type and the octets that it is written in."""
    destination: int
    source: object
    shape: int
    key: bytes
    values: tuple

    def map(self):
        return self.destination, self.source, self.shape


def exact_value(pairs):
    """The pair that asks for one number, or None."""
    return pairs[0] if len(pairs) == 1 and pairs[0].operator == EQUAL else None


def plain_of(rule):
    """The rule as an element, or None where it isn't plain."""
    if rule.destination() is None:
        return None
    values = dict(rule.components)
    destination, source = values.pop(DESTINATION), values.pop(SOURCE, None)
    kinds = tuple(values)
    if kinds not in SHAPES or source is not None and source.offset:
        return None
    exact = [exact_value(value) for value in values.values()]
    if None in exact or any(pair.value > most for pair, most in zip(exact, (0xFF, 0xFFFF, 0xFFFF))):
        return None
    if len(kinds) > 1 and exact[0].value not in (parts.TCP, parts.UDP):
        return None
    key = parts.address_key(rule.family, destination)
    if source is not None:
        key += parts.address_key(rule.family, source)
    key += b"".join(pair.value.to_bytes(1 if kind == PROTOCOL else 2, "big").ljust(4, b"\0")
                    for kind, pair in zip(kinds, exact))
    written = tuple((source, kind, pair.value, pair.width) for kind, pair in zip(kinds, exact))
    return Plain(destination.length, None if source is None else source.length, SHAPES.index(kinds), key, written)


class Held:
    """An admitted rule, with the line that `list` has for it. It acts as an element or as a line, or is left out for a reason."""
    __slots__ = ("rule", "actions", "words", "key", "plain", "state", "reason", "line", "others", "chains", "uses", "mark", "counts",
                 "is_new", "counter_line", "rate", "arrival")

    def __init__(self, words):
        """NoRule where that is no such line."""
        self.rule, self.actions = read_words(words)
        self.words, self.key, self.plain = words, order_key(self.rule), plain_of(self.rule)
        self.state, self.reason = None, None    # ELEMENT, LINE or OUT
        self.line, self.others, self.chains, self.uses, self.mark = None, (), (), (), None
        self.counts, self.is_new = (0, 0), True
        self.counter_line, self.rate, self.arrival = None, 0, 0     # octets a second, and a number by which it came

    def acts(self):
        return self.state in (ELEMENT, LINE)

    def forget(self):
        """Where it stood in a table that is gone; what it counted stays."""
        self.state = self.reason = self.line = self.counter_line = self.mark = None
        self.others, self.chains, self.uses, self.is_new = (), (), (), True


ELEMENT, LINE, OUT = "element", "line", "out"


def comment_of(held):
    """The rule in words, which name it for whoever reads the table; where they are too long, cut before a hash."""
    words = held.words
    if len(words) <= expressions.LONGEST_COMMENT:
        return words
    return f"{words[:94]} {hashlib.sha256(words.encode()).hexdigest()[:32]}"


class ChainLine:
    """A line in a chain: by its handle once the kernel told that, until then by a number of the transaction."""
    __slots__ = ("chain", "handle", "serial")

    def __init__(self, chain, serial):
        self.chain, self.handle, self.serial = chain, None, serial


class LookUp:
    """A map with its line; of elements, or of the chains of the destinations of a length."""
    __slots__ = ("rank", "name", "count", "line")

    def __init__(self, rank, map_name, line):
        self.rank, self.name, self.count, self.line = rank, map_name, 0, line


class Destination:
    """The rules of one destination in their order, whether they are lines in a chain, and of the values of plain ones
    how many write them so."""
    __slots__ = ("prefix", "rules", "keys", "is_chain", "written")

    def __init__(self, prefix):
        self.prefix, self.rules, self.keys, self.is_chain, self.written = prefix, [], [], False, {}

    def agrees(self, held):
        """Whether no other rule writes one of its values in more or fewer octets, which would decide the order."""
        return not any((source, kind, value, width) in self.written for source, kind, value, own in held.plain.values
                       for width in (1, 2, 4, 8) if width != own)


class Family:
    def __init__(self, family):
        self.family, self.chain = family, f"v{family}"
        self.look_ups, self.ranks = {}, []
        self.destinations, self.others, self.other_keys = {}, [], []
        self.last = None        # the chain's last line


# A map's place among the look-ups: the longer destination first, chains before elements, the longer source first


def rank_of_chains(length):
    return -length, 0, 0, 0


def rank_of_map(found):
    destination, source, shape = found
    return -destination, 1, 1 if source is None else -source, shape


def map_name(family, found):
    destination, source, shape = found
    words = [f"v{family}_{destination}"] + [f"from_{source}"] * (source is not None)
    return "_".join(words + [FIELD_NAMES[kind] for kind in SHAPES[shape]])


def chain_of(family, prefix):
    return f"v{family}_to_{prefix.bits:x}_{prefix.length}"


KEY_TYPES = {4: 7, 6: 8, "number": 4, "protocol": 12, "port": 13}      # as nft knows them
VERDICT_TYPE = 0xFFFFFF00
IS_CONSTANT, IS_INTERVAL, IS_MAP, FOR_MEMORY = 2, 4, 8, 1
ENDS_INTERVAL = 1


def key_type(family, found):
    """What `nft list` reads the key as, six bits a field, and its octets."""
    _, source, shape = found
    kinds = [KEY_TYPES[family]] * (1 if source is None else 2)
    kinds += [KEY_TYPES["protocol" if kind == PROTOCOL else "port"] for kind in SHAPES[shape]]
    joined = 0
    for kind in kinds:
        joined = joined << 6 | kind
    addresses = 1 if source is None else 2
    return joined, addresses * WIDTHS[family] // 8 + 4 * len(SHAPES[shape])


def prefix_field(family, is_destination, length):
    """The steps that load the first bits of an address."""
    octets = WIDTHS[family] // 8
    load = "network", parts.ADDRESSES[family, is_destination][1], octets
    mask = (1 << WIDTHS[family]) - (1 << WIDTHS[family] - length)
    return (load,) if length == WIDTHS[family] else (load, ("and", mask.to_bytes(octets, "big")))


def look_up_octets(family, found, set_name):
    """The expressions of a look-up of elements, behind the tests that what it looks at is there."""
    destination, source, shape = found
    tests = list(dict.fromkeys(test for kind in SHAPES[shape] for test in parts.presence(family, kind)))
    fields = [prefix_field(family, True, destination)]
    fields += [prefix_field(family, False, source)] if source is not None else []
    fields += [(parts.field_of(family, kind).load,) for kind in SHAPES[shape]]
    return (expressions.of_parts(tests, None) + expressions.of_key(fields)
            + expressions.look_up(set_name, expressions.FIRST_OF_KEY, True))


def put_back(thing, values):
    for attribute_name, value in values.items():
        setattr(thing, attribute_name, value)


class Layout:
    """What stands in a table. Each change adds messages to `batch`, and to `owners` the rule that each is for."""

    def __init__(self, options, most_each, counts_now):
        self.options, self.most_each, self.counts_now = options, most_each, counts_now
        self.table_name = name(1, options.table)
        self.families = {family: Family(family) for family in (4, 6)}
        self.sets, self.set_names, self.marks, self.verdicts = {}, {}, {}, {}
        self.acting = 0
        self.serials = itertools.count(1)
        self.batch, self.owners, self.owner = [], [], None
        self.new_lines, self.new_rules, self.journal, self.ended = {}, [], [], {}

    # The journal

    def put(self, mapping, key, value):
        had = key in mapping
        self.journal.append((mapping.__setitem__, key, mapping[key]) if had else (mapping.__delitem__, key))
        mapping[key] = value

    def drop(self, mapping, key):
        self.journal.append((mapping.__setitem__, key, mapping[key]))
        del mapping[key]

    def insert(self, items, place, value):
        self.journal.append((items.__delitem__, place))
        items.insert(place, value)

    def remove(self, items, place):
        self.journal.append((items.insert, place, items[place]))
        return items.pop(place)

    def set(self, thing, **values):
        self.journal.append((put_back, thing, {each: getattr(thing, each) for each in values}))
        put_back(thing, values)

    def take_back(self):
        """All that was changed since the last batch is as it was."""
        for action, *values in reversed(self.journal):
            action(*values)
        self.begin()

    def begin(self):
        self.batch, self.owners, self.owner = [], [], None
        self.new_lines, self.new_rules, self.journal, self.ended = {}, [], [], {}

    def done(self, echoes):
        """After a batch was done: the handles that the kernel told, and of each rule that went what it counted."""
        for place, kind, octets in echoes:
            if kind == NEW_RULE and place in self.new_lines:
                self.new_lines[place].handle = int.from_bytes(value_of(octets, 3), "big")
            elif kind == DELETE_RULE and place in self.ended:
                counts = expressions.counts_of_rule(octets)
                if counts:
                    self.ended[place].counts = counts
            elif kind == DELETE_ELEMENTS:
                self.done_elements(octets)
        for held in self.new_rules:
            held.is_new = False
        self.begin()

    def done_elements(self, octets):
        set_name = text_of(value_of(octets, 2))
        for key, counts in expressions.elements_in(octets):
            held = self.ended.get((set_name, key))
            if held is not None and counts:
                held.counts = counts

    # Messages

    def add(self, kind, flags, octets):
        self.batch.append((kind, flags, self.table_name + octets))
        self.owners.append(self.owner)

    def add_chain(self, chain):
        self.add(NEW_CHAIN, CREATE, name(3, chain))

    def delete_chain(self, chain, ends=None):
        if ends is not None:
            self.ended[len(self.batch)] = ends
        self.add(DELETE_CHAIN, ECHO if ends is not None else 0, name(3, chain))

    def add_line(self, chain, octets, before=None, comment="", is_told=True):
        """A line before another one, or at the chain's end; its handle is told where it may be asked for or go."""
        line = ChainLine(chain, next(self.serials) & 0xFFFFFFFF)
        if before is None:
            place = b""
        elif before.handle is not None:
            place = long_number(6, before.handle)
        else:
            place = number(10, before.serial)
        named = attribute(7, expressions.comment(comment)) if comment else b""
        if is_told:
            self.new_lines[len(self.batch)] = line
        self.add(NEW_RULE, CREATE | (ECHO if is_told else 0) | (APPEND if before is None else 0),
                 name(2, chain) + number(9, line.serial) + place + nested(4, octets) + named)
        return line

    def delete_line(self, line, ends=None):
        which = long_number(3, line.handle) if line.handle is not None else number(9, line.serial)
        if ends is not None:
            self.ended[len(self.batch)] = ends
        self.add(DELETE_RULE, ECHO if ends is not None else 0, name(2, line.chain) + which)

    def add_set(self, set_name, flags, kind, octets, further=b""):
        self.add(NEW_SET, CREATE, name(2, set_name) + number(3, flags) + number(4, kind) + number(5, octets)
                 + number(10, next(self.serials)) + further)

    def add_verdicts(self, map_name_, kind, octets, counts):
        counter = nested(17, name(1, "counter") + nested(2, b"")) if counts else b""
        self.add_set(map_name_, IS_MAP, kind, octets, number(6, VERDICT_TYPE) + number(7, 0) + counter)

    def add_element(self, map_name_, key, verdict, counts=(0, 0)):
        body = nested(1, attribute(1, key)) + nested(2, expressions.verdict_data(verdict))
        if any(counts):
            body += nested(7, name(1, "counter") + nested(2, long_number(1, counts[1]) + long_number(2, counts[0])))
        self.add(NEW_ELEMENTS, CREATE, name(2, map_name_) + nested(3, nested(1, body)))

    def delete_element(self, map_name_, key, ends=None):
        if ends is not None:
            self.ended.setdefault((map_name_, key), ends)
        self.add(DELETE_ELEMENTS, ECHO if ends is not None else 0,
                 name(2, map_name_) + nested(3, nested(1, nested(1, attribute(1, key)))))

    def add_ranges(self, set_name, ranges, octets):
        """Elements of a set of ranges, each from its first key to before another one."""
        last, elements = (1 << 8 * octets) - 1, []
        for first, end in ranges:
            elements.append(nested(1, nested(1, attribute(1, first))))
            after = int.from_bytes(end, "big") + 1
            if after <= last:
                elements.append(nested(1, number(3, ENDS_INTERVAL)
                                       + nested(1, attribute(1, after.to_bytes(octets, "big")))))
        for begin in range(0, len(elements), 512):
            self.add(NEW_ELEMENTS, CREATE, name(2, set_name) + nested(3, b"".join(elements[begin:begin + 512])))

    # Sets and marks, which rules share

    def set_of(self, ranges, octets, kind):
        """The name of the set of these ranges, which is made where it isn't there."""
        key = kind, octets, ranges
        found = self.set_names.get(key)
        if found is None:
            found = "values_" + hashlib.sha256(repr(key).encode()).hexdigest()[:16]
            self.put(self.set_names, key, found)
            self.add_set(found, IS_CONSTANT | IS_INTERVAL, KEY_TYPES[kind], octets, number(8, FOR_MEMORY))
            self.add_ranges(found, ranges, octets)
        self.put(self.sets, key, self.sets.get(key, 0) + 1)
        self.uses.append(key)
        return found

    def end_sets(self, uses):
        for key in uses:
            self.put(self.sets, key, self.sets[key] - 1)
            if not self.sets[key]:
                self.add(DELETE_SET, 0, name(2, self.set_names[key]))
                self.drop(self.sets, key)
                self.drop(self.set_names, key)

    def begin_mark(self, value):
        """The chain that sets a DSCP at a walk's end."""
        self.put(self.marks, value, self.marks.get(value, 0) + 1)
        if self.marks[value] == 1:
            chain = f"dscp_{value}"
            self.add_chain(chain)
            for family in (4, 6):
                self.add_line(chain, expressions.set_dscp(family, value), is_told=False)
            self.add_element("dscps", mark_key(value), ("jump", chain))

    def end_mark(self, value):
        self.put(self.marks, value, self.marks[value] - 1)
        if not self.marks[value]:
            self.drop(self.marks, value)
            self.delete_element("dscps", mark_key(value))
            self.delete_chain(f"dscp_{value}")

    # Look-ups

    def look_up(self, family, rank, found):
        """The map with this rank, with its line before the next look-up's; `found` tells what elements it has."""
        self_family = self.families[family]
        known = self_family.look_ups.get(rank)
        if known:
            return known
        place = bisect.bisect(self_family.ranks, rank)
        if place < len(self_family.ranks):
            before = self_family.look_ups[self_family.ranks[place]].line
        else:
            before = self_family.others[0].line if self_family.others else self_family.last
        if found is None:
            length = -rank[0]
            map_name_ = f"v{family}_{length}_chains"
            self.add_verdicts(map_name_, KEY_TYPES[family], WIDTHS[family] // 8, False)
            octets = (expressions.of_key([prefix_field(family, True, length)])
                      + expressions.look_up(map_name_, expressions.FIRST_OF_KEY, True))
        else:
            map_name_ = map_name(family, found)
            self.add_verdicts(map_name_, *key_type(family, found), True)
            octets = look_up_octets(family, found, map_name_)
        made = LookUp(rank, map_name_, self.add_line(self_family.chain, octets, before))
        self.put(self_family.look_ups, rank, made)
        self.insert(self_family.ranks, place, rank)
        return made

    def count_down(self, family, look_up):
        self.set(look_up, count=look_up.count - 1)
        if not look_up.count:
            self.delete_line(look_up.line)
            self.add(DELETE_SET, 0, name(2, look_up.name))
            family_ = self.families[family]
            self.remove(family_.ranks, bisect.bisect_left(family_.ranks, look_up.rank))
            self.drop(family_.look_ups, look_up.rank)

    # A rule as an element

    def verdict_of_element(self, actions):
        """The verdict, where besides there is nothing to do but to count; else None. Rules have few different actions."""
        if actions not in self.verdicts:
            found = parts.verdict(actions, self.options.check)
            is_all = not parts.further(actions, self.options) and not parts.log(actions, self.options)
            self.verdicts[actions] = (found[0].steps[0][1:] if found else ("continue",)) if is_all else None
        return self.verdicts[actions]

    def can_be_element(self, held):
        """Plain, with nothing to do but to count and a verdict, and a look-up that is there or may be."""
        if held.plain is None or self.verdict_of_element(held.actions) is None:
            return False
        family = self.families[held.rule.family]
        return rank_of_map(held.plain.map()) in family.look_ups or len(family.ranks) < MOST_LOOK_UPS

    def add_as_element(self, held):
        look_up = self.look_up(held.rule.family, rank_of_map(held.plain.map()), held.plain.map())
        self.set(look_up, count=look_up.count + 1)
        self.add_element(look_up.name, held.plain.key, self.verdict_of_element(held.actions), held.counts)
        self.set(held, state=ELEMENT)

    def delete_as_element(self, held):
        look_up = self.families[held.rule.family].look_ups[rank_of_map(held.plain.map())]
        self.delete_element(look_up.name, held.plain.key, held)
        self.count_down(held.rule.family, look_up)
        self.set(held, state=None)

    # A rule as a line

    def add_as_line(self, held, chain, before):
        self.uses = []
        line, chains = parts.rule_lines(held.rule, held.actions, f"r{next(self.serials)}", comment_of(held), self.options)
        marks = [] if self.options.check else those_of(held.actions, (MARK,))[:1]
        if marks:
            self.begin_mark(marks[0][7])
        # A rule that tests nothing but its destination needs no chain of its own
        lines = chains.pop(line.leads_to()) if len(chains) == 1 and line.leads_to() in chains else [line]
        for each in chains:
            self.add_chain(each)
        counting = None
        for each, own in chains.items():
            for one in own:
                added = self.add_line(each, self.octets_of(one, held), comment=one.comment, is_told=bool(one.comment))
                counting = added if one.comment else counting
        first, *others = [self.add_line(chain, self.octets_of(one, held), before, one.comment) for one in lines]
        self.set(held, line=first, others=tuple(others), counter_line=counting or first, chains=tuple(chains),
                 uses=tuple(self.uses), mark=marks[0][7] if marks else None, state=LINE)

    def octets_of(self, line, held):
        return expressions.of_parts(line.parts, self.set_of, held.counts)

    def delete_as_line(self, held):
        self.delete_line(held.line, held if held.counter_line is held.line else None)
        for each in held.others:
            self.delete_line(each)
        for each in held.chains:
            self.delete_chain(each, held if each == held.counter_line.chain else None)
        self.end_sets(held.uses)
        if held.mark is not None:
            self.end_mark(held.mark)
        self.set(held, line=None, others=(), counter_line=None, mark=None, state=None, chains=(), uses=())

    def insert_line(self, rules, keys, held, chain, last):
        """The line of a rule in the chain whose lines are these rules' and then, maybe, another one."""
        place = bisect.bisect(keys, held.key)
        self.add_as_line(held, chain, rules[place].line if place < len(rules) else last)
        self.insert(rules, place, held)
        self.insert(keys, place, held.key)

    # A rule at its destination

    def why_not(self, held):
        """Why the rule can't be added beside those of its destination, or None."""
        family, prefix = self.families[held.rule.family], held.rule.destination()
        destination = family.destinations.get(prefix)
        rules = family.others if prefix is None else destination.rules if destination else ()
        if len(rules) < self.most_each:
            return None
        is_looked_up = prefix is not None and self.can_be_element(held) and destination.agrees(held)
        if is_looked_up and (not destination.is_chain or self.are_elements(family, destination)):
            return None
        whose = "rules without a destination" if prefix is None else "rules of its destination"
        return f"{len(rules)} {whose} are there, which can't all be looked up at once"

    def are_elements(self, family, destination):
        """Whether all can be, with as many look-ups as there may be."""
        rules = destination.rules
        if not all(self.can_be_element(each) and destination.agrees(each) for each in rules):
            return False
        ranks = {rank_of_map(each.plain.map()) for each in rules}
        return len(ranks | family.look_ups.keys()) < MOST_LOOK_UPS

    def write(self, destination, held, change):
        """One more or fewer writes the rule's values so."""
        for each in held.plain.values if held.plain else ():
            count = destination.written.get(each, 0) + change
            if count:
                self.put(destination.written, each, count)
            else:
                self.drop(destination.written, each)

    def add_rule(self, held):
        """Lets a rule act that may."""
        self.owner = held
        family, prefix = self.families[held.rule.family], held.rule.destination()
        self.new_rules.append(held)
        self.set(self, acting=self.acting + 1)
        if prefix is None:
            self.insert_line(family.others, family.other_keys, held, family.chain, family.last)
            return
        destination = family.destinations.get(prefix)
        if destination is None:
            destination = Destination(prefix)
            self.put(family.destinations, prefix, destination)
        self.choose(destination, held)
        self.write(destination, held, 1)
        if destination.is_chain:
            self.insert_line(destination.rules, destination.keys, held, chain_of(family.family, prefix), None)
        else:
            self.add_as_element(held)
            place = bisect.bisect(destination.keys, held.key)
            self.insert(destination.rules, place, held)
            self.insert(destination.keys, place, held.key)

    def choose(self, destination, held):
        """Turns a destination's elements into a chain, or back, where the new rule needs that."""
        is_element = self.can_be_element(held) and destination.agrees(held)
        if not destination.is_chain and not is_element:
            self.to_chain(held.rule.family, destination)
        elif destination.is_chain and is_element and len(destination.rules) >= self.most_each:
            self.to_elements(held.rule.family, destination)

    def to_chain(self, family, destination):
        moved = list(destination.rules)
        for each in moved:
            self.set(each, counts=self.counts_now(each))
            self.delete_as_element(each)
        look_up = self.look_up(family, rank_of_chains(destination.prefix.length), None)
        self.set(look_up, count=look_up.count + 1)
        chain = chain_of(family, destination.prefix)
        self.add_chain(chain)
        self.set(destination, is_chain=True)
        for each in moved:
            self.add_as_line(each, chain, None)
            self.new(each)
        self.add_element(look_up.name, parts.address_key(family, destination.prefix), ("jump", chain))

    def new(self, held):
        self.set(held, is_new=True)
        self.new_rules.append(held)

    def to_elements(self, family, destination):
        moved = list(destination.rules)
        for each in moved:
            self.set(each, counts=self.counts_now(each))
            self.delete_as_line(each)
        self.end_chain(family, destination)
        for each in moved:
            self.add_as_element(each)
            self.new(each)

    def end_chain(self, family, destination):
        look_up = self.families[family].look_ups[rank_of_chains(destination.prefix.length)]
        self.delete_element(look_up.name, parts.address_key(family, destination.prefix))
        self.delete_chain(chain_of(family, destination.prefix))
        self.set(destination, is_chain=False)
        self.count_down(family, look_up)

    def remove_rule(self, held):
        """Lets a rule that acts act no more."""
        self.owner = held
        family, prefix = self.families[held.rule.family], held.rule.destination()
        self.set(self, acting=self.acting - 1)
        if prefix is None:
            rules, keys, destination = family.others, family.other_keys, None
        else:
            destination = family.destinations[prefix]
            rules, keys = destination.rules, destination.keys
        if destination is not None:
            self.write(destination, held, -1)
        place = bisect.bisect_left(keys, held.key)
        self.remove(rules, place)
        self.remove(keys, place)
        if held.state == ELEMENT:
            self.delete_as_element(held)
        else:
            self.delete_as_line(held)
        if destination is not None and not rules:
            if destination.is_chain:
                self.end_chain(held.rule.family, destination)
            self.drop(family.destinations, prefix)


def mark_key(value):
    return struct.pack("=I", parts.HAS_DSCP | value)      # the mark stands in the machine's own order
