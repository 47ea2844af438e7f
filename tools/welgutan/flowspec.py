"""Flow rules: as the octets that `rules` writes, as the words that `list` writes, and in their order.

It is written from the RFCs and from `docs/FORMATS.md`, and shares nothing with the readings in `bench/`.
"""

import functools
import re
import socket
from typing import NamedTuple

WIDTHS = {4: 32, 6: 128}
(DESTINATION, SOURCE, PROTOCOL, PORT, DESTINATION_PORT, SOURCE_PORT, ICMP_TYPE, ICMP_CODE, TCP_FLAGS, PACKET_LENGTH,
 DSCP, FRAGMENT, FLOW_LABEL) = range(1, 14)
PREFIXES, BITS = (DESTINATION, SOURCE), (TCP_FLAGS, FRAGMENT)
VALUE_WIDTHS = {TCP_FLAGS: (1, 2), DSCP: (1,), FRAGMENT: (1,)}      # in octets; of others 1, 2, 4 and 8
LAST_TYPE = {4: FRAGMENT, 6: FLOW_LABEL}
END, AND, LESS, GREATER, EQUAL, NOT, MATCH = 0x80, 0x40, 4, 2, 1, 2, 1
MOST_OCTETS = 4095      # of a rule (RFC 8955 section 4.1)


class NoRule(ValueError):
    """Octets or words that no rule, or no action, has."""


class Prefix(NamedTuple):
    """The address bits from `offset` to before `length`, as a number (RFC 8956 section 3.1); of IPv4 from bit 0."""
    offset: int
    length: int
    bits: int


class Pair(NamedTuple):
    """An operator, of which the bits that act are kept (AND, and what is compared), and a value of `width` octets."""
    operator: int
    width: int
    value: int


class Rule(NamedTuple):
    """A family, 4 or 6, and for each type in rising order a Prefix or a tuple of Pairs."""
    family: int
    components: tuple

    def value(self, kind):
        return next((value for each, value in self.components if each == kind), None)

    def destination(self):
        """The prefix that is the destination; None where there is none, or one with an offset."""
        found = self.components[0] if self.components else (None, None)
        return found[1] if found[0] == DESTINATION and not found[1].offset else None


def require(holds, what):
    if not holds:
        raise NoRule(what)


# As octets (RFC 8955 section 4, RFC 8956 section 3)


def prefix_octets(family, prefix):
    size = prefix.length - prefix.offset
    count = (size + 7) // 8
    head = [prefix.length] if family == 4 else [prefix.length, prefix.offset]
    return bytes(head) + (prefix.bits << count * 8 - size).to_bytes(count, "big")


def pairs_octets(pairs):
    """With the end bit at the last pair alone, and each value's width in its operator."""
    octets = bytearray()
    for place, pair in enumerate(pairs, 1):
        end = END if place == len(pairs) else 0
        octets.append(end | pair.operator | (pair.width.bit_length() - 1) << 4)
        octets += pair.value.to_bytes(pair.width, "big")
    return bytes(octets)


def value_octets(family, kind, value):
    return prefix_octets(family, value) if kind in PREFIXES else pairs_octets(value)


def rule_octets(rule):
    """The NLRI: a length of one octet, or from 240 on of two, and the components."""
    octets = b"".join(bytes([kind]) + value_octets(rule.family, kind, value) for kind, value in rule.components)
    head = bytes([len(octets)]) if len(octets) < 240 else (0xF000 | len(octets)).to_bytes(2, "big")
    return head + octets


def read_prefix(octets, place, family):
    """The prefix that begins at the place, and where it ends; the order of length and offset is the component's."""
    length, place = octets[place], place + 1
    offset = 0
    if family == 6:
        offset, place = octets[place], place + 1
    require(length <= WIDTHS[family] and (offset < length or offset == length == 0), "a prefix")
    size = length - offset
    count = (size + 7) // 8
    require(place + count <= len(octets), "a prefix's octets")
    bits = int.from_bytes(octets[place:place + count], "big") >> count * 8 - size
    return Prefix(offset, length, bits), place + count


def read_pairs(octets, place, kind):
    pairs, operator = [], 0
    while not operator & END:
        operator = octets[place]
        width = 1 << (operator >> 4 & 3)
        require(place + 1 + width <= len(octets), "a value's octets")
        value = int.from_bytes(octets[place + 1:place + 1 + width], "big")
        pairs.append(Pair(operator & (AND | (3 if kind in BITS else 7)), width, value))
        place += 1 + width
    return tuple(pairs), place


def read_octets(octets, family):
    """The rule whose NLRI these octets are; only the canonical ones are read."""
    try:
        place = 2 if octets[0] >= 0xF0 else 1
        components = []
        while place < len(octets):
            kind = octets[place]
            read = read_prefix(octets, place + 1, family) if kind in PREFIXES else read_pairs(octets, place + 1, kind)
            components.append((kind, read[0]))
            place = read[1]
    except IndexError as error:
        raise NoRule("octets are missing") from error
    rule = Rule(family, tuple(components))
    require(is_rule(rule) and rule_octets(rule) == octets, "not the octets that a rule has")
    return rule


def are_rising(rule):
    """Whether each type stands once, in its order, and is one of the family's."""
    last = 0
    for kind, _ in rule.components:
        if kind <= last:
            return False
        last = kind
    return last <= LAST_TYPE[rule.family]


def is_rule(rule):
    """What octets alone don't say: rising types, widths, and bits that mean something."""
    return are_rising(rule) and all(kind in PREFIXES or are_pairs(rule.family, kind, value)
                                    for kind, value in rule.components)


def are_pairs(family, kind, pairs):
    widths = VALUE_WIDTHS.get(kind, (1, 2, 4, 8))
    most = {DSCP: 0x3F, FRAGMENT: 0x0F}.get(kind, 2**64 - 1)
    unused = 1 if (family, kind) == (6, FRAGMENT) else 0
    return not pairs[0].operator & AND and all(
        pair.width in widths and pair.value <= most and not pair.value & unused for pair in pairs)


# As words


NAMES = {DESTINATION: "dst", SOURCE: "src", PROTOCOL: "proto", PORT: "port", DESTINATION_PORT: "dport",
         SOURCE_PORT: "sport", ICMP_TYPE: "itype", ICMP_CODE: "icode", TCP_FLAGS: "tcp", PACKET_LENGTH: "len",
         DSCP: "dscp", FRAGMENT: "frag", FLOW_LABEL: "label"}
KINDS = {name: kind for kind, name in NAMES.items()}
NUMBER_SIGNS = ("!", "=", ">", ">=", "<", "<=", "!=", "*")
BIT_SIGNS = ("~", "=", "!~", "!=")
NUMBER = re.compile(r"(!=|>=|<=|[!=><*])(0|[1-9][0-9]*)(?::([1248]))?")
BIT = re.compile(r"(!~|!=|~|=)((?:[0-9a-f]{2}){1,2})")


def address_words(family, bits):
    """As `list` writes an address: of IPv6 eight groups."""
    if family == 4:
        return socket.inet_ntoa(bits.to_bytes(4, "big"))
    return ":".join(f"{bits >> shift & 0xFFFF:x}" for shift in range(112, -16, -16))


def prefix_words(family, prefix):
    tail = f"-{prefix.offset}" if prefix.offset else ""
    return f"{address_words(family, prefix.bits << WIDTHS[family] - prefix.length)}/{prefix.length}{tail}"


def least_width(value):
    return 1 if value < 1 << 8 else 2 if value < 1 << 16 else 4 if value < 1 << 32 else 8


def pair_words(kind, pair):
    if kind in BITS:
        return f"{BIT_SIGNS[pair.operator & 3]}{pair.value:0{2 * pair.width}x}"
    tail = f":{pair.width}" if pair.width != least_width(pair.value) else ""
    return f"{NUMBER_SIGNS[pair.operator & 7]}{pair.value}{tail}"


def component_words(family, kind, value):
    if kind in PREFIXES:
        return f"{NAMES[kind]} {prefix_words(family, value)}"
    words = "".join(("&" if pair.operator & AND else ",") + pair_words(kind, pair) for pair in value)
    return f"{NAMES[kind]} {words[1:]}"


def rule_words(rule):
    return " ".join([f"v{rule.family}"] + [component_words(rule.family, *each) for each in rule.components])


def line_of(rule, actions):
    """The line that `list` has for an admitted rule."""
    return rule_words(rule) + "".join([" then"] * bool(actions) + [f" {action_words(each)}" for each in actions])


def read_prefix_words(family, word):
    address, _, rest = word.partition("/")
    length, _, offset = rest.partition("-")
    if family == 4:
        bits = int.from_bytes(socket.inet_aton(address), "big")     # what isn't canonical is told later
    else:
        bits = int.from_bytes(b"".join(int(part, 16).to_bytes(2, "big") for part in address.split(":")), "big")
    length, offset = int(length), int(offset or 0)
    require((offset < length or offset == length == 0) and length <= WIDTHS[family], word)
    return Prefix(offset, length, bits >> WIDTHS[family] - length & (1 << length - offset) - 1)


def read_pair_words(kind, joint, word):
    joined = AND if joint == "&" else 0
    found = (BIT if kind in BITS else NUMBER).fullmatch(word)
    require(found, word)
    if kind in BITS:
        return Pair(joined | BIT_SIGNS.index(found[1]), len(found[2]) // 2, int(found[2], 16))
    value = int(found[2])
    width = int(found[3]) if found[3] else least_width(value)
    require(value < 1 << 8 * width, word)
    return Pair(joined | NUMBER_SIGNS.index(found[1]), width, value)


@functools.lru_cache(1 << 14)
def read_component_words(family, name, word):
    """A type and its value, by the two words that `list` has for them."""
    kind = KINDS[name]
    if kind in PREFIXES:
        value = read_prefix_words(family, word)
    else:
        pieces = re.split("([,&])", word)
        value = tuple(map(functools.partial(read_pair_words, kind), [",", *pieces[1::2]], pieces[::2]))
        require(are_pairs(family, kind, value), word)
    require(component_words(family, kind, value) == f"{name} {word}", word)
    return kind, value


@functools.lru_cache(1 << 10)
def read_action_line(text):
    words = text.split(" ")
    actions = tuple(read_action(name, word) for name, word in zip(words[::2], words[1::2], strict=True))
    require(are_actions(actions) and " ".join(map(action_words, actions)) == text, text)
    return actions


def read_words(line):
    """The rule and the actions of a line of `list`; what that wouldn't write so is NoRule."""
    subject, then, rest = line.partition(" then ")
    family, *words = subject.split(" ")
    require(family in ("v4", "v6") and len(words) % 2 == 0, line)
    family = int(family[1])
    try:
        rule = Rule(family, tuple(read_component_words(family, *each) for each in zip(words[::2], words[1::2])))
        actions = read_action_line(rest) if then else ()
    except (KeyError, ValueError, IndexError, OverflowError, OSError) as error:
        raise NoRule(line) from error
    require(are_rising(rule) and (len(line) <= MOST_OCTETS or len(rule_octets(rule)) <= MOST_OCTETS + 2), line)
    return rule, actions


# The order of rules (RFC 8955 section 5.1, RFC 8956 section 4)


def prefix_key(family, prefix):
    """A lower offset first; then of nested prefixes the longer one, and else the lower one: so by the last address
    that a prefix has, and where it is one for both, the longer first."""
    size, left = prefix.length - prefix.offset, WIDTHS[family] - prefix.length
    return prefix.offset, prefix.bits << left | (1 << left) - 1, -size


def order_key(rule):
    """Of two rules the one with the lesser key precedes. Behind the octets of a value, and behind the components,
    stands more than all that can stand there, so that the longer one precedes."""
    parts = []
    for kind, value in rule.components:
        key = prefix_key(rule.family, value) if kind in PREFIXES else pairs_octets(value).decode("latin-1") + "\u0100"
        parts.append((kind, key))
    return (*parts, (FLOW_LABEL + 1,))


# Actions (RFC 8955 section 7): communities of eight octets, rising, each once


BYTES, PACKETS, CONTROL, MARK = b"\x80\x06", b"\x80\x0c", b"\x80\x07", b"\x80\x09"
REDIRECTS = {b"\x80\x08": "as2", b"\x81\x08": "ip4", b"\x82\x08": "as4"}
RATES = {BYTES: "bytes", PACKETS: "packets"}
SHORT_ACTIONS = {CONTROL: ("control", 3), MARK: ("mark", 0x3F)}


def read_actions(octets):
    """The actions whose octets these are, as `rules` writes them."""
    actions = tuple(octets[place:place + 8] for place in range(0, len(octets), 8))
    require(len(octets) % 8 == 0 and are_actions(actions), octets.hex())
    return actions


def are_actions(actions):
    return all(map(is_action, actions)) and all(first < second for first, second in zip(actions, actions[1:]))


def is_action(action):
    head = action[:2]
    if head in SHORT_ACTIONS:
        return action[2:7] == bytes(5) and action[7] <= SHORT_ACTIONS[head][1]
    return head in RATES or head in REDIRECTS


def those_of(actions, heads):
    return [action for action in actions if action[:2] in heads]


def goes_on(actions):
    """Section 7.3: with the terminal bit later rules are tried too; without the action they aren't."""
    return any(action[7] & 1 for action in those_of(actions, (CONTROL,)))


def samples(actions):
    return any(action[7] & 2 for action in those_of(actions, (CONTROL,)))


def discards(rate):
    """Sections 7.1 and 7.2: a rate of zero, or a negative one."""
    return rate[4:] == bytes(4) or rate[4] >= 0x80


def redirect_target(action):
    form, rest = REDIRECTS[action[:2]], action[2:]
    split = 2 if form == "as2" else 4
    first = ".".join(map(str, rest[:4])) if form == "ip4" else str(int.from_bytes(rest[:split], "big"))
    return f"{form}:{first}:{int.from_bytes(rest[split:], 'big')}"


def action_words(action):
    head = action[:2]
    if head in RATES:
        return f"{RATES[head]} {int.from_bytes(action[2:4], 'big')}:{action[4:].hex()}"
    if head in SHORT_ACTIONS:
        return f"{SHORT_ACTIONS[head][0]} {action[7]}"
    return f"redirect {redirect_target(action)}"


def read_action(name, word):
    for head, each in RATES.items():
        if each == name:
            number, _, rate = word.partition(":")
            return head + int(number).to_bytes(2, "big") + bytes.fromhex(rate)
    for head, (each, _) in SHORT_ACTIONS.items():
        if each == name:
            return head + bytes(5) + int(word).to_bytes(1, "big")
    require(name == "redirect", name)
    form, first, number = word.split(":")
    head = next(head for head, each in REDIRECTS.items() if each == form)
    split = 2 if form == "as2" else 4
    octets = bytes(map(int, first.split("."))) if form == "ip4" else int(first).to_bytes(split, "big")
    return head + octets + int(number).to_bytes(6 - split, "big")
