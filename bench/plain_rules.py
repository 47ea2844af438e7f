"""Flow rules as octets: reading and writing, their order, actions, matching, and which rule contains which.

A part of `plain.py`, which says what it is for.
"""

import itertools
from typing import NamedTuple

WIDTHS = {4: 32, 6: 128}
DESTINATION, SOURCE, PORT, DESTINATION_PORT, SOURCE_PORT = 1, 2, 4, 5, 6
TCP_FLAGS, DSCP, FRAGMENT, FLOW_LABEL = 9, 11, 12, 13
END, AND, LESS, GREATER, EQUAL, NOT, MATCH = 0x80, 0x40, 4, 2, 1, 2, 1


class Short(Exception):
    """Fewer octets stand there than a field has."""


class Malformed(Exception):
    """Octets that no text of their kind begins with."""


def require(condition):
    if not condition:
        raise Malformed()


class Octets:
    """Octets that are read from the front."""

    def __init__(self, octets):
        self.octets, self.place = octets, 0

    def take(self, count):
        if self.place + count > len(self.octets):
            raise Short()
        self.place += count
        return self.octets[self.place - count:self.place]

    def number(self, count):
        return int.from_bytes(self.take(count), "big")

    def are_left(self):
        return self.place < len(self.octets)

    def rest(self):
        return self.take(len(self.octets) - self.place)


# Prefixes and flow rules


class Pattern(NamedTuple):
    """The address bits from `offset` to before `length`, counted from the highest; a prefix where the offset is 0."""
    family: int
    offset: int
    length: int
    bits: int


class Pair(NamedTuple):
    """An operator's octet and its value, of `width` octets."""
    operator: int
    width: int
    value: int


class Component(NamedTuple):
    kind: int
    value: object       # a Pattern, or a tuple of Pairs


class Rule(NamedTuple):
    family: int
    components: tuple


def read_pattern(octets, family, offset, length):
    """The octets of a prefix or pattern, padded to whole octets (RFC 4271 section 4.3, RFC 8956 section 3.1)."""
    count = (length - offset + 7) // 8
    return Pattern(family, offset, length, octets.number(count) >> (count * 8 - (length - offset)))


def read_prefix(octets, family):
    """RFC 4271 section 4.3: a length and the least octets that hold it."""
    length = octets.number(1)
    if length > WIDTHS[family]:
        raise Malformed()
    return read_pattern(octets, family, 0, length)


def read_prefix_component(octets, family):
    """RFC 8955 sections 4.2.2.1 and 4.2.2.2, RFC 8956 sections 3.1 and 3.2."""
    if family == 4:
        return read_prefix(octets, family)
    length, offset = octets.number(1), octets.number(1)
    if not (offset < length <= 128 or (length, offset) == (0, 0)):
        raise Malformed()
    return read_pattern(octets, family, offset, length)


def allowed_widths(kind):
    """RFC 8955 section 4.2.2: how many octets a value of the type may have."""
    return {TCP_FLAGS: (1, 2), DSCP: (1,), FRAGMENT: (1,)}.get(kind, (1, 2, 4, 8))


def value_bits(family, kind):
    """Of a value the bits that mean something (RFC 8955 sections 4.2.2.11 and 4.2.2.12, RFC 8956 section 3.6)."""
    if kind == DSCP:
        return 0x3F
    if kind == FRAGMENT:
        return 0x0F if family == 4 else 0x0E
    return 2**64 - 1


def read_pairs(octets, family, kind):
    """RFC 8955 section 4.2.1: pairs up to the one with the end bit, without the bits that are ignored."""
    meaningful = 0xF3 if kind in (TCP_FLAGS, FRAGMENT) else 0xF7
    pairs, operator = [], 0
    while not operator & END:
        operator = octets.number(1) & meaningful
        width = 1 << (operator >> 4 & 3)
        if width not in allowed_widths(kind):
            raise Malformed()
        operator &= ~AND if not pairs else ~0
        pairs.append(Pair(operator, width, octets.number(width) & value_bits(family, kind)))
    return tuple(pairs)


def read_rule(value, family):
    """RFC 8955 section 4.2: components by strictly rising types, to the end of the value."""
    octets, components, last = Octets(value), [], 0
    while octets.are_left():
        kind = octets.number(1)
        if not last < kind <= (12 if family == 4 else FLOW_LABEL):
            raise Malformed()
        reads_prefix = kind in (DESTINATION, SOURCE)
        read = read_prefix_component(octets, family) if reads_prefix else read_pairs(octets, family, kind)
        components.append(Component(kind, read))
        last = kind
    return Rule(family, tuple(components))


def read_frame(octets, family):
    """RFC 8955 section 4.1: a length of one octet below 240, or of three nibbles behind `f`, and a rule."""
    length = octets.number(1)
    if length >= 0xF0:
        length = (length & 0x0F) << 8 | octets.number(1)
    return read_rule(octets.take(length), family)


def pattern_octets(pattern):
    size = pattern.length - pattern.offset
    count = (size + 7) // 8
    return (pattern.bits << count * 8 - size).to_bytes(count, "big")


def value_octets(component):
    """What stands behind the type."""
    value = component.value
    if isinstance(value, Pattern):
        return bytes([value.length] + [value.offset] * (value.family == 6)) + pattern_octets(value)
    return b"".join(bytes([pair.operator]) + pair.value.to_bytes(pair.width, "big") for pair in value)


def rule_octets(rule):
    """The canonical frame (RFC 8955 section 4.1)."""
    value = b"".join(bytes([component.kind]) + value_octets(component) for component in rule.components)
    size = len(value)
    return (bytes([size]) if size < 240 else (0xF000 | size).to_bytes(2, "big")) + value


def destination_of(rule):
    """RFC 8955 section 6 and RFC 8956 section 3.1: only a prefix without an offset is a destination to validate."""
    for component in rule.components:
        if component.kind == DESTINATION and component.value.offset == 0:
            return component.value
    return None


def covers(outer, inner):
    """RFC 4632 section 3.1: the outer prefix's bits are a front of the inner one's."""
    return (outer.family == inner.family and outer.length <= inner.length
            and inner.bits >> inner.length - outer.length == outer.bits)


# The order of rules


def compare(first, second):
    return (first > second) - (first < second)


def compare_patterns(first, second):
    """RFC 8955 section 5.1 and RFC 8956 section 4: lower offset; of nested ones the longer; else the lower one."""
    if first.offset != second.offset:
        return compare(first.offset, second.offset)
    sizes = [first.length - first.offset, second.length - second.offset]
    common = min(sizes)
    fronts = [first.bits >> sizes[0] - common, second.bits >> sizes[1] - common]
    return compare(*fronts) or compare(sizes[1], sizes[0])


def compare_strings(first, second):
    """RFC 8955 section 5.1: over the common length as octet strings, then the longer first."""
    common = min(len(first), len(second))
    return compare(first[:common], second[:common]) or compare(len(second), len(first))


def compare_rules(first, second):
    """RFC 8955 section 5.1: below 0 where the first one precedes."""
    for one, other in itertools.zip_longest(first.components, second.components):
        if one is None or other is None:
            return 1 if one is None else -1
        if one.kind != other.kind:
            return compare(one.kind, other.kind)
        if one.kind in (DESTINATION, SOURCE):
            order = compare_patterns(one.value, other.value)
        else:
            order = compare_strings(value_octets(one), value_octets(other))
        if order:
            return order
    return 0


# Traffic actions


def read_actions(octets):
    """RFC 8955 section 7: the listed extended communities, without ignored bits, rising and each once."""
    actions = set()
    for place in range(0, len(octets), 8):
        community = octets[place:place + 8]
        head = community[:2].hex()
        if head in ("8006", "800c", "8008", "8108", "8208"):
            actions.add(community)
        elif head == "8007":
            actions.add(community[:2] + bytes(5) + bytes([community[7] & 3]))
        elif head == "8009":
            actions.add(community[:2] + bytes(5) + bytes([community[7] & 0x3F]))
    return tuple(sorted(actions))


# Matching


def number_holds(pair, datum):
    """RFC 8955 section 4.2.1.1."""
    relation = LESS if datum < pair.value else GREATER if datum > pair.value else EQUAL
    return bool(pair.operator & relation)


def bits_hold(pair, datum):
    """RFC 8955 section 4.2.1.2; a value of one octet is compared with the low octet."""
    common = datum & pair.value
    holds = common == pair.value if pair.operator & MATCH else common != 0
    return holds != bool(pair.operator & NOT)


def groups(pairs):
    """RFC 8955 section 4.2.1: AND binds tighter than OR."""
    joined = []
    for pair in pairs:
        if pair.operator & AND:
            joined[-1].append(pair)
        else:
            joined.append([pair])
    return joined


def list_holds(kind, pairs, datum):
    test = bits_hold if kind in (TCP_FLAGS, FRAGMENT) else number_holds
    return any(all(test(pair, datum) for pair in group) for group in groups(pairs))


def address_holds(pattern, datum):
    """RFC 8956 section 3.1."""
    bits = datum >> WIDTHS[pattern.family] - pattern.length
    return bits & (1 << pattern.length - pattern.offset) - 1 == pattern.bits


def data_of(packet, kind):
    """RFC 8955 section 4.2.2, RFC 8956 section 3: of a component's type what it is compared with."""
    ports = [packet.source_port, packet.destination_port]
    return {1: [packet.destination], 2: [packet.source], 3: [packet.protocol], 4: ports, 5: ports[1:], 6: ports[:1],
            7: [packet.icmp_type], 8: [packet.icmp_code], 9: [packet.tcp_flags], 10: [packet.length],
            11: [packet.dscp], 12: [packet.fragment], 13: [packet.flow_label]}[kind]


def component_matches(component, packet):
    data = [datum for datum in data_of(packet, component.kind) if datum is not None]
    if isinstance(component.value, Pattern):
        return any(address_holds(component.value, datum) for datum in data)
    return any(list_holds(component.kind, component.value, datum) for datum in data)


def matches(rule, packet):
    """RFC 8955 section 4.2: all components match."""
    return rule.family == packet.family and all(component_matches(each, packet) for each in rule.components)


# The report of rules that never act


def pattern_lies_in(inner, outer):
    """Each address that the inner pattern matches is matched by the outer one."""
    if outer.length == outer.offset:
        return True
    if not inner.offset <= outer.offset < outer.length <= inner.length:
        return False
    shared = inner.bits >> inner.length - outer.length
    return shared & (1 << outer.length - outer.offset) - 1 == outer.bits


def list_lies_in(kind, inner, outer):
    """Each number of 64 bits of the inner list is of the outer one: both change only beside the values they name."""
    values = {0, 2**64 - 1}
    for pair in inner + outer:
        values |= {pair.value - 1, pair.value, pair.value + 1}
    return all(list_holds(kind, outer, value) for value in values
               if 0 <= value < 2**64 and list_holds(kind, inner, value))


def component_lies_in(inner, outer):
    """RFC 8955 section 4.2.2: a source or destination port also lies in a port."""
    if inner.kind != outer.kind and not (outer.kind == PORT and inner.kind in (DESTINATION_PORT, SOURCE_PORT)):
        return False
    if isinstance(outer.value, Pattern):
        return pattern_lies_in(inner.value, outer.value)
    if outer.kind in (TCP_FLAGS, FRAGMENT):
        return inner.value == outer.value
    return list_lies_in(outer.kind, inner.value, outer.value)


def contains(outer, inner):
    """Each component of the outer rule has one of the inner rule that lies in it."""
    return all(any(component_lies_in(one, other) for one in inner.components) for other in outer.components)
