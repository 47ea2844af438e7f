"""The configuration, the tape, and what its octets leave: messages, updates, sessions and held routes.

A part of `plain.py`, which says what it is for.
"""

import re
import struct
import tomllib
from typing import NamedTuple

from plain_rules import Malformed, Octets, Rule, Short, read_actions, read_frame, read_prefix, require

UNICAST, FLOW = 1, 133
FAMILY_OF_AFI = {1: 4, 2: 6}
AS_SET, AS_SEQUENCE, CONFEDERATION_SEQUENCE, CONFEDERATION_SET = 1, 2, 3, 4


class Closing(Exception):
    """The session closes: behind a fault with its codes, or behind the peer's NOTIFICATION."""

    def __init__(self, code, subcode, word="closed"):
        super().__init__(f"{word} {code}/{subcode}")


class Refusal(Exception):
    """The run ends here, with a status and perhaps a line."""

    def __init__(self, status, line=""):
        super().__init__(status, line)
        self.status, self.line = status, line


# The configuration


class Peer(NamedTuple):
    number: int
    address: tuple      # family and bits
    asn: int
    max_routes: object
    external: bool


class Config(NamedTuple):
    local_as: int
    allow_no_destination: bool
    empty_path_valid: bool
    peers: dict


def integer(table, key, least, most):
    value = table.pop(key, None)
    require(type(value) is int and least <= value <= most)
    return value


def boolean(table, key, default):
    value = table.pop(key, default)
    require(type(value) is bool)
    return value


def ipv4_address(text):
    require(re.fullmatch(r"(0|[1-9][0-9]{0,2})(\.(0|[1-9][0-9]{0,2})){3}", text))
    numbers = [int(part) for part in text.split(".")]
    require(max(numbers) < 256)
    return int.from_bytes(bytes(numbers), "big")


def ipv6_groups(text):
    groups = text.split(":") if text else []
    require(all(re.fullmatch("[0-9a-fA-F]{1,4}", group) for group in groups))
    return [int(group, 16) for group in groups]


def ipv6_address(text):
    """RFC 4291 section 2.2, the first two forms."""
    halves = text.split("::")
    require(len(halves) <= 2)
    groups = [ipv6_groups(half) for half in halves]
    missing = 8 - sum(map(len, groups))
    require(missing == 0 if len(halves) == 1 else missing >= 1)
    groups = groups[0] + [0] * missing + (groups[1] if len(groups) == 2 else [])
    return int.from_bytes(struct.pack(">8H", *groups), "big")


def address(text):
    require(type(text) is str)
    return (4, ipv4_address(text)) if "." in text else (6, ipv6_address(text))


def read_peer(table, local_as):
    require(type(table) is dict)
    number, asn = integer(table, "number", 1, 65535), integer(table, "as", 1, 2**32 - 1)
    max_routes = integer(table, "max_routes", 1, 2**32 - 1) if "max_routes" in table else None
    peer = Peer(number, address(table.pop("address", None)), asn, max_routes, asn != local_as)
    require(not table)
    return peer


def read_config(octets):
    """The keys that `docs/FORMATS.md` lists, and no others."""
    table = tomllib.loads(octets.decode("utf-8"))
    local_as = integer(table, "local_as", 1, 2**32 - 1)
    family, identifier = address(table.pop("local_id", None))
    require(family == 4 and identifier != 0)
    allow, empty = boolean(table, "allow_no_destination", False), boolean(table, "empty_path_valid", True)
    hold_time = table.pop("hold_time", 0)
    require(type(hold_time) is int and (hold_time == 0 or 3 <= hold_time <= 65535))
    tables = table.pop("peer", None)
    require(type(tables) is list and 1 <= len(tables) <= 1024 and not table)
    peers = [read_peer(entry, local_as) for entry in tables]
    require(len({peer.number for peer in peers}) == len(peers))
    return Config(local_as, allow, empty, {peer.number: peer for peer in sorted(peers)})


# The tape


class Item(NamedTuple):
    kind: int
    peer: int
    moment: int
    payload: bytes


UP, RECEIVED, LOST = 1, 2, 3
MAGICS = (b"FSTAPE1\n", b"FSTAPE2\n")


def tape_fault(name, place):
    return Refusal(4, f"tape {name} at {place}\n")


def tape_version(octets):
    magic = octets.take(8)
    if magic not in MAGICS:
        wrong = next(count for count in range(9) if not any(m.startswith(magic[:count]) for m in MAGICS))
        raise tape_fault("Magic", wrong - 1)
    return 1 + MAGICS.index(magic)


def read_item(octets, version, peers, last):
    """One record; its fields are judged in their order, each as soon as it is whole."""
    place = octets.place
    kind = octets.number(1)
    if kind not in (UP, RECEIVED, LOST):
        raise tape_fault("Kind", place)
    peer = octets.number(2)
    if peer not in peers:
        raise tape_fault("Peer", place + 1)
    moment = octets.number(8) if version == 2 else 0
    if moment < last:
        raise tape_fault("Moment", place + 3)
    place = octets.place
    length = octets.number(4)
    if length > (65536 if kind == RECEIVED else 0):
        raise tape_fault("Length", place)
    return Item(kind, peer, moment, octets.take(length))


def tape_items(content, peers):
    """The items of a tape, one after the other; the first fault ends them."""
    octets, last = Octets(content), 0
    try:
        version = tape_version(octets)
        while octets.are_left():
            item = read_item(octets, version, peers, last)
            last = item.moment
            yield item
    except Short:
        raise tape_fault("Cut", len(content))


def read_tape(content, peers):
    return list(tape_items(content, peers))


# Messages


OPEN, UPDATE, NOTIFICATION, KEEPALIVE, ROUTE_REFRESH = 1, 2, 3, 4, 5
LENGTHS = {OPEN: (29, 4096), UPDATE: (23, 4096), NOTIFICATION: (21, 4096), KEEPALIVE: (19, 19), ROUTE_REFRESH: (23, 23)}


def judge_header(header):
    """RFC 4271 section 6.1: marker, length, type and the type's length, as far as they stand there whole."""
    if header[:16] != b"\xff" * len(header[:16]):
        raise Closing(1, 1)
    if len(header) >= 18 and not 19 <= int.from_bytes(header[16:18], "big") <= 4096:
        raise Closing(1, 2)
    if len(header) >= 19:
        if header[18] not in LENGTHS:
            raise Closing(1, 3)
        least, most = LENGTHS[header[18]]
        if not least <= int.from_bytes(header[16:18], "big") <= most:
            raise Closing(1, 2)


def messages(octets):
    """RFC 4271 section 4.1: the whole messages, each with its type; then the rest is judged."""
    place = 0
    while True:
        header = octets[place:place + 19]
        judge_header(header)
        length = int.from_bytes(header[16:18], "big")
        if len(header) < 19 or place + length > len(octets):
            return
        yield header[18], octets[place + 19:place + length]
        place += length


def read_capabilities(octets):
    """RFC 5492 section 4: parameters of type 2 alone, made of whole capabilities; those of the code 65 are answered."""
    numbers = []
    while octets.are_left():
        kind, value = octets.number(1), Octets(octets.take(octets.number(1)))
        require(kind == 2)
        while value.are_left():
            code, content = value.number(1), value.take(value.number(1))
            require(code not in (1, 65) or len(content) == 4)
            if code == 65:
                numbers.append(int.from_bytes(content, "big"))
    return numbers


def read_open(body, expected):
    """RFC 4271 section 6.2: the first fault closes; answered is whether AS numbers have four octets (RFC 6793)."""
    octets = Octets(body)
    version, asn, hold_time, identifier = (octets.number(count) for count in (1, 2, 2, 4))
    if version != 4:
        raise Closing(2, 1)
    if asn == 0:
        raise Closing(2, 2)
    if hold_time in (1, 2):
        raise Closing(2, 6)
    if identifier == 0:
        raise Closing(2, 3)
    try:
        require(octets.number(1) == len(body) - 10)
        numbers = read_capabilities(octets)
    except (Short, Malformed):
        raise Closing(2, 4)
    if (numbers + [asn])[0] != expected:
        raise Closing(2, 2)
    return bool(numbers)


# Updates


class Path(NamedTuple):
    origin: int
    segments: tuple     # forms with their numbers
    local_pref: int
    originator: object  # None where the route tells none


class Route(NamedTuple):
    """A held route: of a prefix, without actions, or of a rule."""
    peer: Peer
    subject: object
    path: Path
    actions: tuple


class Update(NamedTuple):
    withdrawn: list
    announced: list
    path: object        # None where the announced routes are to be withdrawn
    actions: tuple


def read_all(octets, read, family):
    subjects = []
    while octets.are_left():
        subjects.append(read(octets, family))
    return subjects


def read_attributes(octets):
    """RFC 4271 section 4.3 and RFC 7606 section 3(g): of each type the first; MP attributes only once."""
    values = {}
    while octets.are_left():
        flags, kind = octets.number(1), octets.number(1)
        value = octets.take(octets.number(2 if flags & 0x10 else 1))
        require(not (kind in (14, 15) and kind in values))
        values.setdefault(kind, value)
    return values


def read_multiprotocol(value, has_next_hop):
    """RFC 4760 sections 3 and 4: the routes of the four families that are read; others are skipped."""
    octets = Octets(value)
    family, subsequent = FAMILY_OF_AFI.get(octets.number(2)), octets.number(1)
    if family is None or subsequent not in (UNICAST, FLOW):
        return []
    if has_next_hop:
        octets.take(octets.number(1))
        octets.take(1)
    return read_all(octets, read_frame if subsequent == FLOW else read_prefix, family)


def read_segments(value, width):
    """RFC 4271 section 4.3 and RFC 5065 section 3; an unknown form, no numbers or an overrun is malformed."""
    octets, segments = Octets(value), []
    while octets.are_left():
        form, count = octets.number(1), octets.number(1)
        require(form in (AS_SET, AS_SEQUENCE, CONFEDERATION_SEQUENCE, CONFEDERATION_SET) and count)
        segments.append((form, tuple(octets.number(width) for _ in range(count))))
    return tuple(segments)


def read_path(values, external, width):
    """RFC 7606 section 7: what is malformed here makes the UPDATE's announcements withdrawals."""
    origin = values[1]
    require(len(origin) == 1 and origin[0] <= 2)
    segments = read_segments(values[2], width)
    if external:
        require(all(form in (AS_SET, AS_SEQUENCE) for form, _ in segments))
        return Path(origin[0], segments, 100, None)
    preference, originator = values.get(5), values.get(9)
    require(all(value is None or len(value) == 4 for value in (preference, originator)))
    return Path(origin[0], segments, 100 if preference is None else int.from_bytes(preference, "big"),
                None if originator is None else int.from_bytes(originator, "big"))


def path_and_actions(values, external, width):
    """None and no actions where the announced routes are to be withdrawn (RFC 7606 section 2)."""
    communities = values.get(16)
    try:
        require(communities is None or communities and len(communities) % 8 == 0)
        return read_path(values, external, width), read_actions(communities or b"")
    except (Short, Malformed, KeyError):
        return None, ()


def fields_of_update(body):
    """RFC 4271 section 4.3: withdrawn prefixes, attributes, prefixes; an overrun is 3/1."""
    octets = Octets(body)
    try:
        withdrawn = octets.take(octets.number(2))
        values = read_attributes(Octets(octets.take(octets.number(2))))
    except (Short, Malformed):
        raise Closing(3, 1)
    return withdrawn, values, octets.rest()


def read_update(body, external, width):
    """RFC 4271 section 6.3 and RFC 7606 sections 3 and 5.3: the first of the faults in their order closes."""
    withdrawn, values, last = fields_of_update(body)
    try:
        withdrawn, announced = (read_all(Octets(field), read_prefix, 4) for field in (withdrawn, last))
    except (Short, Malformed):
        raise Closing(3, 10)
    try:
        announced += read_multiprotocol(values[14], True) if 14 in values else []
        withdrawn += read_multiprotocol(values[15], False) if 15 in values else []
    except (Short, Malformed):
        raise Closing(3, 9)
    return Update(withdrawn, announced, *path_and_actions(values, external, width))


# Sessions and held routes


def apply_update(held, peer, update):
    """Withdrawals act first; treat-as-withdraw takes what would be announced; then the limit (RFC 4486 section 4)."""
    taken = update.withdrawn + (update.announced if update.path is None else [])
    for subject in taken:
        held.pop(subject, None)
    for subject in update.announced if update.path is not None else []:
        held[subject] = Route(peer, subject, update.path, update.actions if isinstance(subject, Rule) else ())
    if peer.max_routes is not None and len(held) > peer.max_routes:
        raise Closing(6, 1)


def session(peer, octets):
    """RFC 4271 section 8: the state that all octets of a life lead to, and the routes that are held then."""
    state, width, held = "wait-open", 2, {}
    takes = {"wait-open": (OPEN,), "wait-keepalive": (KEEPALIVE,), "established": (UPDATE, KEEPALIVE, ROUTE_REFRESH)}
    try:
        for kind, body in messages(octets):
            if kind == NOTIFICATION:
                raise Closing(body[0], body[1], "notified")
            if kind not in takes[state]:
                raise Closing(5, 0)
            if kind == OPEN:
                state, width = "wait-keepalive", 4 if read_open(body, peer.asn) else 2
            elif kind == UPDATE:
                apply_update(held, peer, read_update(body, peer.external, width))
            else:
                state = "established"
    except Closing as closing:
        return str(closing), {}
    return state, held


def life(items, number):
    """All octets of the peer's present life, or None where it has none."""
    octets = None
    for item in items:
        if item.peer != number:
            continue
        if item.kind == UP:
            octets = b""
        elif item.kind == LOST:
            octets = None
        elif octets is not None:
            octets += item.payload
    return octets


class Standing(NamedTuple):
    """What the items of a tape leave: the state of each peer by its number, and all held routes."""
    states: dict
    held: list


def play(config, items):
    states, held = {}, []
    for number, peer in config.peers.items():
        octets = life(items, number)
        states[number], routes = ("down", {}) if octets is None else session(peer, octets)
        held += routes.values()
    return Standing(states, held)
