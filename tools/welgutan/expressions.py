"""The parts of rules as the kernel's expressions, and what it tells of them."""

import functools
import struct

from .netlink import attribute, attributes, long_number, name, nested, number, text_of, value_of

VERDICT_REGISTER, REGISTER, FIRST_OF_KEY = 0, 1, 8      # keys of several fields stand in registers of four octets
BASES = {"network": 1, "transport": 2}
META = {"protocol": 1, "mark": 3, "l4proto": 16}
SIGNS = {"==": 0, "!=": 1, "<=": 3, ">=": 5}
VERDICTS = {"drop": 0, "accept": 1, "continue": -1, "jump": -3, "goto": -4}
FRAGMENT_HEADER, IS_PRESENT = 44, 1
LIMITS = {"packets": 0, "bytes": 1}
IS_OVER = 1
SECOND = 1
INTERNET_CHECKSUM, IN_IPV4_HEADER = 1, 10


def expression(kind, octets):
    return nested(1, name(1, kind) + nested(2, octets))


@functools.lru_cache(1 << 8)
def verdict_data(verdict):
    """The octets of a verdict as data: a word, and a chain where it leads to one."""
    word, *chain = verdict
    return nested(2, number(1, VERDICTS[word]) + b"".join(name(2, each) for each in chain))


def load_payload(base, place, octets, register=REGISTER):
    return expression("payload", number(1, register) + number(2, BASES[base]) + number(3, place) + number(4, octets))


def load_meta(key, register=REGISTER):
    return expression("meta", number(2, META[key]) + number(1, register))


def load_fragment(place, octets, flags=0):
    return expression("exthdr", number(1, REGISTER) + attribute(2, bytes([FRAGMENT_HEADER])) + number(3, place)
                      + number(4, octets) + number(5, flags))


def bitwise(mask, further, register=REGISTER):
    """The register with the mask, and then with these bits turned."""
    return expression("bitwise", number(1, register) + number(2, register) + number(3, len(mask))
                      + nested(4, attribute(1, mask)) + nested(5, attribute(1, further)))


def turned(octets):
    return bytes(octet ^ 0xFF for octet in octets)


def compare(sign, octets):
    return expression("cmp", number(1, REGISTER) + number(2, SIGNS[sign]) + nested(3, attribute(1, octets)))


def look_up(set_name, register, gives_verdict):
    to = number(3, VERDICT_REGISTER) if gives_verdict else b""
    return expression("lookup", name(1, set_name) + number(2, register) + to)


def immediate(octets):
    return expression("immediate", number(1, REGISTER) + nested(2, attribute(1, octets)))


def verdict(*words):
    return expression("immediate", number(1, VERDICT_REGISTER) + nested(2, verdict_data(words)))


def set_mark():
    return expression("meta", number(2, META["mark"]) + number(3, REGISTER))


@functools.lru_cache(1 << 8)
def counter(packets=0, octets=0):
    return expression("counter", long_number(1, octets) + long_number(2, packets))


def limit(unit, rate, burst):
    return expression("limit", long_number(1, rate) + long_number(2, SECOND) + number(3, burst)
                      + number(4, LIMITS[unit]) + number(5, IS_OVER))


def log(group):
    return expression("log", attribute(1, struct.pack(">H", group)))


def write_payload(octets, checksum):
    kind = number(6, INTERNET_CHECKSUM) + number(7, IN_IPV4_HEADER) if checksum else number(6, 0) + number(7, 0)
    return expression("payload", number(5, REGISTER) + number(2, BASES["network"]) + number(3, 0) + number(4, octets)
                      + kind + number(8, 0))


def set_dscp(family, value):
    """The second octet of an IPv4 header with its checksum, or the first two of IPv6."""
    mask, shift = (b"\xff\x03", 2) if family == 4 else (b"\xf0\x3f", 6)
    return (load_meta("protocol") + compare("==", b"\x08\x00" if family == 4 else b"\x86\xdd")
            + load_payload("network", 0, 2) + bitwise(mask, (value << shift).to_bytes(2, "big"))
            + write_payload(2, family == 4))


STEPS = {
    "network": lambda place, octets: load_payload("network", place, octets),
    "transport": lambda place, octets: load_payload("transport", place, octets),
    "meta": load_meta,
    "fragment": load_fragment,
    "fragment header": lambda: load_fragment(0, 1, IS_PRESENT),
    "and": lambda mask: bitwise(mask, bytes(len(mask))),
    "or": lambda octets: bitwise(turned(octets), octets),
    "cmp": compare,
    "immediate": immediate,
    "set mark": set_mark,
    "verdict": verdict,
    "limit": limit,
    "log": log,
}


@functools.lru_cache(1 << 14)
def of_step(step):
    """The expressions of a step; rules have the same ones over and over."""
    return STEPS[step[0]](*step[1:])


def of_parts(parts, set_of, counts=(0, 0)):
    """The expressions of a line's parts; `set_of` answers the name of a set with these ranges of so many octets."""
    found = []
    for part in parts:
        for step in part.steps:
            if step[0] == "counter":
                found.append(counter(*counts))
            elif step[0] == "in":
                found.append(look_up(set_of(*step[1:]), REGISTER, False))
            else:
                found.append(of_step(step))
    return b"".join(found)


def of_key(fields):
    """The expressions that load a key: of each field its steps, a load and perhaps a mask."""
    found, register = [], FIRST_OF_KEY
    for steps in fields:
        (word, *values), *masks = steps
        load = load_meta(*values, register) if word == "meta" else load_payload(word, *values, register)
        found.append(load)
        found += [bitwise(mask, bytes(len(mask)), register) for _, mask in masks]
        octets = 1 if word == "meta" else values[1]
        register += (octets + 3) // 4
    return b"".join(found)


# What the kernel tells


COUNTER = name(1, "counter")


def counts_in(octets):
    """Packets and octets of a counter among expressions, or None."""
    for _, each in attributes(octets):
        if each.startswith(COUNTER):
            values = value_of(each, 2)
            return int.from_bytes(value_of(values, 2), "big"), int.from_bytes(value_of(values, 1), "big")
    return None


def counts_of_rule(octets):
    return counts_in(value_of(octets, 4) or b"")


def elements_in(octets):
    """Of each element its key and its counts, which are None where it has none."""
    for _, element in attributes(value_of(octets, 3) or b""):
        expressions = value_of(element, 7)
        yield value_of(value_of(element, 1), 1), None if expressions is None else counts_in(attribute(1, expressions))


COMMENT = 0
LONGEST_COMMENT = 127       # and an octet that ends it


def comment(text):
    octets = text.encode()[:LONGEST_COMMENT] + b"\0"
    return bytes([COMMENT, len(octets)]) + octets


def comment_of(octets):
    """The comment in a rule's own data, or an empty text."""
    return text_of(octets[2:2 + octets[1]]) if octets[:1] == bytes([COMMENT]) and len(octets) > 2 else ""
