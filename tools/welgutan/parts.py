"""What a rule tests of a packet and does with it, in parts: each says its text for `nft -f` and its steps for netlink.

All of a rule's tests have to hold, and of each component one of its alternatives. The mark of a packet holds what its
walk remembers: the first DSCP to be set, and of IPv6 whether it is a later fragment.
"""

import ipaddress
import itertools
import math
import struct
from typing import NamedTuple

from .flowspec import (AND, BYTES, DESTINATION, DESTINATION_PORT, DSCP, EQUAL, FLOW_LABEL, FRAGMENT, GREATER, ICMP_CODE,
                       ICMP_TYPE, LESS, MARK, MATCH, NOT, PACKET_LENGTH, PACKETS, PORT, PREFIXES, PROTOCOL, RATES,
                       REDIRECTS, SOURCE_PORT, TCP_FLAGS, WIDTHS, discards, goes_on, redirect_target, samples,
                       those_of)

DSCP_BITS, HAS_DSCP, IS_LATER = 0x3F, 0x40, 0x80
TCP, UDP = 6, 17
ICMP = {4: 1, 6: 58}
HEADER = {4: 0, 6: 40}      # octets that count in a packet's length and not in the field of it


class Part(NamedTuple):
    """A test, or something that is done: its text, and its steps, which `expressions` knows by their first word."""
    text: str
    steps: tuple


class Line(NamedTuple):
    """Parts in their order; a packet goes on to the next one where it passes a test. The comment names a rule."""
    parts: tuple
    comment: str = ""

    def leads_to(self):
        """The chain that every packet goes to which comes here; None where there is none, or something is tested."""
        steps = self.parts[0].steps if len(self.parts) == 1 else ()
        return steps[0][2] if len(steps) == 1 and steps[0][:2] == ("verdict", "jump") else None


class Options(NamedTuple):
    device: str
    table: str
    check: bool         # count, and do nothing
    sample: object      # a group to log to, or None


class NeverMatches(Exception):
    """No packet can match the rule, and why."""


# Fields: what is loaded of a packet


class Field(NamedTuple):
    """A number in a packet: in the octets that are loaded it stands in these bits, `shift` above the lowest."""
    text: str
    load: tuple
    octets: int
    most: int
    shift: int = 0

    def is_whole(self):
        return self.most == (1 << 8 * self.octets) - 1

    def key(self, number):
        """The octets that are loaded of a packet with this number there, where the mask leaves no other bits."""
        return (number << self.shift).to_bytes(self.octets, "big")

    def loaded(self):
        masked = () if self.is_whole() else (("and", self.key(self.most)),)
        return (self.load, *masked)


def in_network_header(text, place, octets, most, shift=0):
    return Field(text, ("network", place, octets), octets, most, shift)


def in_transport_header(text, place, octets):
    return Field(text, ("transport", place, octets), octets, (1 << 8 * octets) - 1)


FIELDS = {
    4: {PACKET_LENGTH: in_network_header("ip length", 2, 2, 0xFFFF), DSCP: in_network_header("ip dscp", 1, 1, 0x3F, 2)},
    6: {PACKET_LENGTH: in_network_header("ip6 length", 4, 2, 0xFFFF),
        DSCP: in_network_header("ip6 dscp", 0, 2, 0x3F, 6),
        FLOW_LABEL: in_network_header("ip6 flowlabel", 1, 3, 0xFFFFF)},
}
FIELDS_OF_BOTH = {
    PROTOCOL: Field("meta l4proto", ("meta", "l4proto"), 1, 0xFF), ICMP_TYPE: in_transport_header("@th,0,8", 0, 1),
    ICMP_CODE: in_transport_header("@th,8,8", 1, 1), DESTINATION_PORT: in_transport_header("th dport", 2, 2),
    SOURCE_PORT: in_transport_header("th sport", 0, 2)}
ADDRESSES = {(4, True): ("ip daddr", 16), (4, False): ("ip saddr", 12), (6, True): ("ip6 daddr", 24),
             (6, False): ("ip6 saddr", 8)}


def field_of(family, kind):
    return FIELDS_OF_BOTH.get(kind) or FIELDS[family][kind]


# Tests


IS_FIRST = {4: Part("@nh,51,13 0", (("network", 6, 2), ("and", b"\x1f\xff"), ("cmp", "==", bytes(2)))),
            6: Part(f"meta mark & {IS_LATER:#x} == 0",
                    (("meta", "mark"), ("and", struct.pack("=I", IS_LATER)), ("cmp", "==", bytes(4))))}
HAS_PORTS = Part("th dport >= 0", (("transport", 2, 2), ("cmp", ">=", bytes(2))))
NO_FRAGMENT_HEADER = Part("exthdr frag missing", (("fragment header",), ("cmp", "==", b"\0")))
LISTED_ALONE = (1, 6, 17, 58)       # behind tests of other lone protocols nft 1.0.6 can't list what follows


def range_text(first, last, is_protocol=False):
    alone = first == last and not (is_protocol and first not in LISTED_ALONE)
    return f"{first}" if alone else f"{first}-{last}"


def is_within(field, ranges):
    """The alternatives of a number that has to be in one of the ranges: none or one."""
    if not ranges:
        return []
    is_protocol = field.load == ("meta", "l4proto")
    texts = [range_text(*each, is_protocol and len(ranges) == 1) for each in ranges]
    if len(ranges) > 1:
        keys = tuple((field.key(first), field.key(last)) for first, last in ranges)
        kind = "protocol" if is_protocol else "port" if field.text[:2] == "th" else "number"
        test = (("in", keys, field.octets, kind),)
        return [Part(f"{field.text} {{ {', '.join(texts)} }}", field.loaded() + test)]
    (first, last), = ranges
    if "-" in texts[0]:
        test = ("cmp", ">=", field.key(first)), ("cmp", "<=", field.key(last))
    else:
        test = (("cmp", "==", field.key(first)),)
    return [Part(f"{field.text} {texts[0]}", field.loaded() + test)]


def masked(text, load, mask, is_not, value, octets=2):
    """A test of the bits of a mask."""
    sign = "!=" if is_not else "=="
    steps = load, ("and", mask.to_bytes(octets, "big")), ("cmp", sign, value.to_bytes(octets, "big"))
    return Part(f"{text} & {mask:#x} {sign} {value:#x}", steps)


def groups(pairs):
    """RFC 8955 section 4.2.1: AND binds tighter than OR."""
    joined = []
    for pair in pairs:
        if pair.operator & AND:
            joined[-1].append(pair)
        else:
            joined.append([pair])
    return joined


def number_holds(pair, number):
    return bool(pair.operator & (LESS if number < pair.value else GREATER if number > pair.value else EQUAL))


def bits_hold(pair, bits):
    common = bits & pair.value
    return (common == pair.value if pair.operator & MATCH else common != 0) != bool(pair.operator & NOT)


def list_holds(test, pairs, number):
    return any(all(test(pair, number) for pair in group) for group in groups(pairs))


def held_ranges(pairs, least, most):
    """The ranges of numbers of which the list holds: it changes only at the values it names and after them."""
    starts = {least} | {value for pair in pairs for value in (pair.value, pair.value + 1) if least <= value <= most}
    starts = sorted(starts) + [most + 1]
    joined = []
    for first, following in itertools.pairwise(starts):
        if list_holds(number_holds, pairs, first):
            if joined and joined[-1][1] + 1 == first:
                first = joined.pop()[0]
            joined.append((first, following - 1))
    return joined


def number_alternatives(family, kind, pairs):
    if kind == PORT:
        return [test for each in (SOURCE_PORT, DESTINATION_PORT) for test in number_alternatives(family, each, pairs)]
    field = field_of(family, kind)
    header = HEADER[family] if kind == PACKET_LENGTH else 0
    ranges = held_ranges(pairs, header, field.most + header)
    return is_within(field, [(first - header, last - header) for first, last in ranges])


def flags_test(pair):
    """RFC 8955 section 4.2.2.9: the data offset's bits are 0 in what is tested."""
    is_not = bool(pair.operator & NOT)
    mask, value = pair.value & 0x0FFF, pair.value if pair.operator & MATCH else 0
    return masked("@th,96,16", ("transport", 12, 2), mask, is_not == bool(pair.operator & MATCH), value)


def all_of(tests):
    tests = list(tests)
    return Part(" ".join(test.text for test in tests), tuple(step for test in tests for step in test.steps))


class FragmentField(NamedTuple):
    text: str
    load: tuple
    mask: bytes

    def test(self, is_set):
        sign = "!=" if is_set else "=="
        return Part(f"{self.text} {sign} 0", (self.load, ("and", self.mask), ("cmp", sign, bytes(len(self.mask)))))


def ipv4_fragment_field(mask):
    return FragmentField(f"ip frag-off & {mask:#x}", ("network", 6, 2), mask.to_bytes(2, "big"))


FRAGMENT_FIELDS = {     # offset, more fragments, don't fragment
    4: [ipv4_fragment_field(0x1FFF), ipv4_fragment_field(0x2000), ipv4_fragment_field(0x4000)],
    6: [FragmentField("frag frag-off", ("fragment", 2, 2), b"\xff\xf8"),
        FragmentField("frag more-fragments", ("fragment", 3, 1), b"\x01")],
}


def fragment_bits(offset, more, dont=0):
    """RFC 8955 section 4.2.2.12: don't fragment 1, a later fragment 2, the first one 4, the last one 8."""
    return dont | (2 | (0 if more else 8) if offset else 4 if more else 0)


def fragment_alternatives(family, pairs):
    """Of the states of the fields, 0 or not, those of which the list holds, by as few fields as tell them."""
    fields = FRAGMENT_FIELDS[family]
    held = {state for state in itertools.product((0, 1), repeat=len(fields))
            if list_holds(bits_hold, pairs, fragment_bits(*state))}
    found, left = [], set(held)
    for known in sorted(itertools.product((None, 0, 1), repeat=len(fields)), key=lambda known: -known.count(None)):
        states = {state for state in held if all(know in (None, bit) for know, bit in zip(known, state))}
        if states & left and len(states) == 2**known.count(None):
            left -= states
            found.append(all_of(field.test(know) for field, know in zip(fields, known) if know is not None))
    return found + [NO_FRAGMENT_HEADER] * (family == 6 and list_holds(bits_hold, pairs, 0))


def address_text(family, bits):
    return str(ipaddress.IPv4Address(bits) if family == 4 else ipaddress.IPv6Address(bits))


def masked_address(family, is_destination, prefix):
    """In words the field and the mask of a prefix's bits, and what they have to be."""
    size, left = prefix.length - prefix.offset, WIDTHS[family] - prefix.length
    mask = f" & {address_text(family, (1 << size) - 1 << left)}" if size < WIDTHS[family] else ""
    return ADDRESSES[family, is_destination][0] + mask, address_text(family, prefix.bits << left)


def loaded_address(family, is_destination, prefix):
    """The steps that load the bits of a prefix, and leave the others 0."""
    octets, size = WIDTHS[family] // 8, prefix.length - prefix.offset
    load = "network", ADDRESSES[family, is_destination][1], octets
    if size == WIDTHS[family]:
        return (load,)
    return load, ("and", ((1 << size) - 1 << WIDTHS[family] - prefix.length).to_bytes(octets, "big"))


def address_key(family, prefix):
    return (prefix.bits << WIDTHS[family] - prefix.length).to_bytes(WIDTHS[family] // 8, "big")


def prefix_test(family, kind, prefix):
    if not prefix.length:
        return Part("", ())
    text = " == ".join(masked_address(family, kind == DESTINATION, prefix))
    return Part(text, loaded_address(family, kind == DESTINATION, prefix)
                + (("cmp", "==", address_key(family, prefix)),))


def alternatives(family, kind, value):
    if kind in PREFIXES:
        return [prefix_test(family, kind, value)]
    if kind == TCP_FLAGS:
        return [all_of(map(flags_test, group)) for group in groups(value)]
    if kind == FRAGMENT:
        return fragment_alternatives(family, value)
    return number_alternatives(family, kind, value)


NEEDED = {PORT: (TCP, UDP), DESTINATION_PORT: (TCP, UDP), SOURCE_PORT: (TCP, UDP), TCP_FLAGS: (TCP,)}


def needed_protocols(family, kind):
    """The protocols in whose header a component looks; None where it looks in none."""
    return (ICMP[family],) if kind in (ICMP_TYPE, ICMP_CODE) else NEEDED.get(kind)


def presence(family, kind):
    """The tests that what a component looks at is there; the kernel would find it in later fragments too."""
    tests = [IS_FIRST[family]] if needed_protocols(family, kind) else []
    return tests + [HAS_PORTS] * (kind in (PORT, SOURCE_PORT))


def protocol_ranges(rule):
    """The ranges of the protocols that the rule can match; None where it asks for none."""
    asked = rule.value(PROTOCOL)
    held = held_ranges(asked, 0, 0xFF) if asked else [(0, 0xFF)]
    needed = [found for kind, _ in rule.components if (found := needed_protocols(rule.family, kind))]
    for each in needed:
        held = [(number, number) for number in each if any(first <= number <= last for first, last in held)]
    if not held:
        raise NeverMatches("no protocol that it asks for has what else it asks for")
    return held if asked or needed else None


def rule_tests(rule):
    """The tests that all have to hold, and lists of alternatives, of each of which one has to. A destination without
    an offset isn't among them: its look-up leads to the rule."""
    ranges = protocol_ranges(rule)
    tests, branches = is_within(FIELDS_OF_BOTH[PROTOCOL], ranges) if ranges else [], []
    for kind, value in rule.components:
        if kind == PROTOCOL or kind == DESTINATION and not value.offset:
            continue
        tests += presence(rule.family, kind)
        found = alternatives(rule.family, kind, value)
        if not found:
            raise NeverMatches("nothing is what one of its components asks for")
        if len(found) == 1:
            tests += found
        else:
            branches.append(found)
    return [test for test in dict.fromkeys(tests) if test.steps], branches


# What a rule does


MOST_RATE = {BYTES: 18 * 10**9, PACKETS: 10**9}      # above these the kernel has no limit of bytes or packets a second
ACCEPT, DROP = Part("accept", (("verdict", "accept"),)), Part("drop", (("verdict", "drop"),))
COUNTER = Part("counter", (("counter",),))


def go_to(chain):
    return Part(f"goto {chain}", (("verdict", "goto", chain),))


def jump_to(chain):
    return Part(f"jump {chain}", (("verdict", "jump", chain),))


def rate_number(rate):
    """The nearest number from 1 on that the kernel can keep to, or None (RFC 8955 sections 7.1 and 7.2)."""
    number = struct.unpack(">f", rate[4:])[0]
    if not math.isfinite(number) or number > MOST_RATE[rate[:2]]:
        return None
    return max(1, round(number))


def limit(rate, number):
    """Drops what is above the rate; a bucket of one second's rate may come at once. nft's own of packets has five."""
    if rate[:2] == BYTES:
        return Part(f"limit rate over {number} bytes/second drop", (("limit", "bytes", number, 0), *DROP.steps))
    text = f"limit rate over {number}/second burst {number} packets drop"
    return Part(text, (("limit", "packets", number, number), *DROP.steps))


def limits(actions):
    numbers = {rate: rate_number(rate) for rate in those_of(actions, RATES) if not discards(rate)}
    return [limit(rate, number) for rate, number in numbers.items() if number is not None]


def mark_notes(actions):
    """The first DSCP of the walk is noted, and set after it: rules see the packet as it came."""
    return [Part(f"meta mark & {HAS_DSCP:#x} == 0 meta mark set meta mark | {HAS_DSCP | action[7]:#x}",
                 (("meta", "mark"), ("and", struct.pack("=I", HAS_DSCP)), ("cmp", "==", bytes(4)),
                  ("meta", "mark"), ("or", struct.pack("=I", HAS_DSCP | action[7])), ("set mark",)))
            for action in those_of(actions, (MARK,))[:1]]


def is_discard(actions):
    return any(map(discards, those_of(actions, RATES)))


def verdict(actions, check):
    if not check and is_discard(actions):
        return [DROP]
    return [] if goes_on(actions) else [go_to("end")]


def further(actions, options):
    """What is done beside counting, logging and the verdict."""
    return [] if options.check else mark_notes(actions) + limits(actions)


def log(actions, options):
    if options.sample is None or options.check or not samples(actions):
        return []
    return [Part(f"log group {options.sample}", (("log", options.sample),))]


def ends(actions, comment, options):
    """What a rule does where all of it matches, as lines; the counter comes first, a verdict last."""
    end = verdict(actions, options.check)
    count = [COUNTER] + log(actions, options)
    beside = further(actions, options)
    if not beside:
        return [Line((*count, *end), comment)]
    return [Line(tuple(count), comment), *(Line((each,)) for each in beside), *(Line((each,)) for each in end)]


def rule_lines(rule, actions, name, comment, options):
    """The line that begins a rule, and its chains: one for each component of several alternatives, and its end."""
    tests, branches = rule_tests(rule)
    lines = ends(actions, comment, options)
    if not branches and len(lines) == 1:
        return Line((*tests, *lines[0].parts), comment), {}
    names = [f"{name}_{place}" for place in range(len(branches) + 1)]
    chains = {each: [Line((test, go_to(following))) for test in found]
              for each, following, found in zip(names, names[1:], branches)}
    return Line((*tests, jump_to(names[0]))), chains | {names[-1]: lines}


def grouped(number):
    return f"{number:,}"


def rate_words(rate):
    """A rate in decimal, or what the kernel makes of it."""
    unit = "octets" if rate[:2] == BYTES else "packets"
    number = rate_number(rate)
    if number is None:
        return f"no limit of {rate[4:].hex()} {unit} a second"
    return f"limit of {grouped(number)} {unit} a second, and of one second's at once"


def untold(rule, actions, options):
    """What of a rule's actions isn't done, in words."""
    for action in those_of(actions, REDIRECTS):
        yield f"no redirect to {redirect_target(action)}, the packets are counted"
    for rate in those_of(actions, RATES):
        if not discards(rate) and rate_number(rate) is None:
            yield rate_words(rate)
    if samples(actions) and options.sample is None:
        yield "no sample without --sample, the packets are counted"


def never_matches(rule):
    """Why no packet matches the rule, or None."""
    try:
        rule_tests(rule)
    except NeverMatches as reason:
        return str(reason)
    return None


# The chains that every table has


def end_lines(values):
    """Where each walk ends that drops nothing: the DSCP that was noted is set, and the packet's mark taken back."""
    elements = ", ".join(f"{HAS_DSCP | value:#x} : jump dscp_{value}" for value in values)
    marking = [f"meta mark & {HAS_DSCP | DSCP_BITS:#x} vmap {{ {elements} }}"] if values else []
    return ["meta mark 0 accept", *marking, "meta mark set 0 accept"]


LATER_NOTE = Part(f"frag frag-off != 0 meta mark set {IS_LATER:#x}",
                  (("fragment", 2, 2), ("and", b"\xff\xf8"), ("cmp", "!=", bytes(2)),
                   ("immediate", struct.pack("=I", IS_LATER)), ("set mark",)))
MARKED_TO_END = Part("meta mark != 0 goto end",
                     (("meta", "mark"), ("cmp", "!=", bytes(4)), ("verdict", "goto", "end")))
