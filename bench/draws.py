"""Draws configurations, tapes and captures for `bench/compare.py`, each from a seed and a number alone.

Rules, routes and packets are drawn from small pools, so that rules match, routes cover destinations, peers announce
equal rules and withdrawals meet what is held. All is drawn well formed first, and in half of the draws something is
then made wrong, now and then.
"""

import random
import struct
from typing import NamedTuple

import wire
from wire import LOST, MARKER, SAYS, TAPE, TIMED_TAPE, UP, message, record

LOCAL_AS = 65000
AS_NUMBERS = [65001, 65002, 200000, LOCAL_AS, LOCAL_AS]
SECOND = 10**9
TAPE_SECONDS = 12


class Peer(NamedTuple):
    number: int
    address: str
    asn: int
    limit: int      # 0: none


class Inputs(NamedTuple):
    config: bytes
    tape: bytes
    capture: bytes


def chance(draw, percent):
    return draw.random() * 100 < percent


def rarely(draw, percent):
    """A fault: never in half of the draws, so that these go on to their ends."""
    return draw.has_faults and chance(draw, percent)


def some(draw, pool, most):
    """Up to `most` members, each once."""
    return draw.sample(pool, min(len(pool), draw.randint(1, most)))


def flipped(draw, octets):
    """The octets with one of them changed, left out or doubled."""
    place = draw.randrange(len(octets)) if octets else 0
    new = draw.choice([b"", octets[place:place + 1] * 2, bytes([draw.randrange(256)]), bytes([draw.randrange(256)])])
    return octets[:place] + new + octets[place + 1:]


# The configuration

ADDRESSES = ["198.51.100.1", "198.51.100.2", "2001:db8::3", "198.51.100.4", "FE80::a:0005"]
FAULTY_LINES = ["speed = 1", "as = 0", "number = 1", 'local_id = "::1"', 'address = "1.2.3"', 'address = "1::2::3"']
IDENTIFIERS = [bytes([198, 51, 100, last]) for last in (1, 2, 4, 9)]


def draw_peers(draw):
    count = draw.randint(3, 5)
    numbers, numbered = draw.sample([1, 2, 3, 7, 300, 65535], count), draw.sample(AS_NUMBERS, count)
    return [Peer(number, address, asn, draw.randint(3, 20) if chance(draw, 12) else 0)
            for number, address, asn in zip(numbers, ADDRESSES, numbered)]


def config_text(draw, peers):
    lines = [f"local_as = {LOCAL_AS}", 'local_id = "192.0.2.254"']
    lines += ["allow_no_destination = " + draw.choice(["true", "true", "true", "false"])] if chance(draw, 90) else []
    lines += ["hold_time = 90"] if chance(draw, 20) else []
    lines += ["empty_path_valid = " + draw.choice(["true", "false"])] if chance(draw, 60) else []
    for peer in peers:
        lines += ["[[peer]]", f"number = {peer.number}", f'address = "{peer.address}"', f"as = {peer.asn}"]
        lines += [f"max_routes = {peer.limit}"] if peer.limit else []
    if rarely(draw, 2):
        lines[draw.randrange(len(lines))] = draw.choice(FAULTY_LINES)
    return "\n".join(lines).encode() + b"\n"


# Prefixes and rules: pools by family, of address octets and lengths

PREFIXES = {
    4: [(bytes([10, 1, 2, 3]), length) for length in (0, 8, 16, 24, 25, 30, 32)]
    + [(bytes([10, 1, 2, 130]), 25), (bytes([10, 1, 3, 0]), 24), (bytes([10, 2, 2, 3]), 16),
       (bytes([192, 0, 2, 1]), 24)],
    6: [(bytes.fromhex("20010db8000100020000000000000003"), length) for length in (0, 32, 48, 61, 64, 128)]
    + [(bytes.fromhex("20010db8000200020000000000000003"), length) for length in (48, 64)],
}
HOSTS = {
    4: [bytes([10, 1, 2, 3])] * 4
    + [bytes([10, 1, 2, 130]), bytes([10, 1, 3, 9]), bytes([10, 2, 2, 3]), bytes([192, 0, 2, 1])],
    6: [PREFIXES[6][0][0]] * 4 + [PREFIXES[6][-1][0]] + [bytes.fromhex("20010db800010002ffff000000000001")],
}
NUMBERS = {3: [1, 6, 6, 17, 17, 58], 4: [53, 80, 80, 65536], 5: [53, 53, 80, 1024], 6: [53, 80, 1024, 5000],
           7: [0, 3, 8, 128], 8: [0, 1, 3], 10: [28, 40, 48, 60, 1500, 2**64 - 1], 11: [0, 10, 46],
           13: [0, 1, 0x12345, 0xFFFFF]}
KINDS = {4: range(3, 13), 6: range(3, 14)}
BITS = {9: [0x02, 0x12, 0x10, 0x01, 0x112, 0xF002], 12: [0, 1, 2, 2, 4, 4, 8, 6, 15]}


def prefix_octets(draw, address, length):
    """RFC 4271 section 4.3; the bits past the length are left as they are, or cleared."""
    octets = bytearray(address[:(length + 7) // 8])
    if length % 8 and not chance(draw, 20):
        octets[-1] &= 0xFF00 >> length % 8
    return bytes([length]) + bytes(octets)


def pattern_octets(draw, address, length):
    """RFC 8956 section 3.1: a length, an offset and the bits between them."""
    offset = draw.choice([0] * 9 + [16, 31, 33, 48, 60]) if length else 0
    if offset >= length:
        offset = 0
    size = length - offset
    number = int.from_bytes(address, "big") >> 128 - length & (1 << size) - 1
    return bytes([length, offset]) + (number << -size % 8).to_bytes((size + 7) // 8, "big")


def pair_octets(draw, kind, first, last):
    """RFC 8955 section 4.2.1, sometimes with bits that are to be ignored."""
    value = draw.choice(BITS[kind] if kind in BITS else NUMBERS[kind])
    width_codes = {11: [0], 12: [0], 9: [0, 1] if value < 256 else [1]}.get(kind, [0, 1, 2, 3])
    width_codes = [code for code in width_codes if value < 256**(1 << code)]
    code = draw.choice(width_codes) if chance(draw, 30) else width_codes[0]
    operator = draw.choice([0, 1, 2, 3] if kind in BITS else [1, 1, 1, 1, 0, 2, 3, 3, 4, 5, 5, 6, 7])
    operator |= (0x80 if last else 0) | code << 4
    operator |= 0x40 if chance(draw, 5 if first else 45) else 0
    operator |= 0x08 if chance(draw, 5) else 0
    if kind in (11, 12) and chance(draw, 10):
        value |= 0xC0 if kind == 11 else 0xF0
    return bytes([operator]) + value.to_bytes(1 << code, "big")


def list_octets(draw, kind, most=3):
    count = draw.choice([1, 1, 3, draw.randint(1, most)])
    return b"".join(pair_octets(draw, kind, place == 0, place == count - 1) for place in range(count))


def prefix_component(draw, family):
    address, length = draw.choice(PREFIXES[family][:-1])
    return prefix_octets(draw, address, length) if family == 4 else pattern_octets(draw, address, length)


def rule_components(draw, family):
    """Types and what stands behind them: mostly a destination and little else, rarely a long list."""
    kinds = [1] * chance(draw, 80) + [2] * chance(draw, 10)
    further = [draw.sample(KINDS[family], count) for count in (1, 3)]
    kinds += draw.choice([[], [3], [4], [4], [5], [3, 5], [12], [12], *further])
    return {kind: component(draw, family, kind, 200 if chance(draw, 2) else 3) for kind in kinds}


def component(draw, family, kind, most=3):
    return prefix_component(draw, family) if kind < 3 else list_octets(draw, kind, most)


def narrowed(draw, family, components):
    """A rule that it mostly contains: with components that it lacks, or with a destination's or source's port."""
    if 4 in components and chance(draw, 60):
        components = {draw.choice([5, 6]) if kind == 4 else kind: value for kind, value in components.items()}
    kinds = draw.sample(range(2, 13), draw.choice([0, 1, 1]))
    return {kind: component(draw, family, kind) for kind in kinds} | components


def rule_frames(draw, family):
    """A few rules, some narrower than others."""
    rules = [rule_components(draw, family) for _ in range(draw.randint(2, 6))]
    rules += [narrowed(draw, family, rule) for rule in rules[:3]]
    return [frame(draw, b"".join(bytes([kind]) + rule[kind] for kind in sorted(rule))[:4095]) for rule in rules]


def frame(draw, value):
    if len(value) < 240 and not chance(draw, 5):
        return bytes([len(value)]) + value
    return (0xF000 | len(value)).to_bytes(2, "big") + value


# Actions


def community(draw):
    kind = draw.choice(["8006", "8006", "800c", "8007", "8007", "8007", "8008", "8108", "8208", "8009", "0002", "8306"])
    rest = bytes(draw.randrange(256) for _ in range(6)) if chance(draw, 10) else bytes([0, 7, 0, 0, 0, 100])
    if kind in ("8006", "800c"):
        figure = draw.choice(["00000000", "49742400", "c2c80000", "80000000"])
        rest = draw.choice([b"\0\0", b"\xfd\xe9"]) + bytes.fromhex(figure)
    if kind in ("8007", "8009"):
        rest = rest[:5] + bytes([draw.choice([1, 1, 1, 3, 2, 0, 46, 110])])
    return bytes.fromhex(kind) + rest


def communities(draw):
    return b"".join(community(draw) for _ in range(draw.choice([1, 1, 2, 3])))


# Updates


def attribute(draw, kind, value):
    """RFC 4271 section 4.3, with a length of one octet or of two."""
    flags = {14: 0x80, 15: 0x80, 16: 0xC0, 9: 0x80}.get(kind, 0x40)
    if len(value) > 255 or chance(draw, 5):
        return bytes([flags | 0x10, kind]) + struct.pack(">H", len(value)) + value
    return bytes([flags, kind, len(value)]) + value


def segment(form, numbers, width):
    return bytes([form, len(numbers)]) + b"".join(min(n, 256**width - 1).to_bytes(width, "big") for n in numbers)


def as_path(draw, peer, width):
    """Mostly the peer's AS alone, of an internal peer mostly that of another or nothing; sometimes sets."""
    first = peer.asn if peer.asn != LOCAL_AS else draw.choice([65001, 65002])
    forms = [[(2, [first])], [(2, [first, 65009])], [], [(1, [first, 65002])]]
    forms += [[(2, [first]), (1, [65001, 65009])]] * 2
    confederation = [[(3, [65100])], [(3, [65100]), (2, [first])], [(4, [65100])], [(4, [65100, 65101]), (3, [65102])]]
    other = [[(2, [65009])], [(2, [65002, 65001])]]
    if peer.asn == LOCAL_AS:
        forms = [[]] * 5 + [[(2, [first])]] * 4 + forms + confederation
    elif chance(draw, 65):
        forms = forms[:1]
    elif rarely(draw, 10):
        forms = confederation
    return b"".join(segment(form, numbers, width) for form, numbers in draw.choice(forms + other * chance(draw, 30)))


def path_attributes(draw, peer, width):
    attributes = {1: bytes([draw.choice([0, 0, 1, 2])]), 2: as_path(draw, peer, width), 3: bytes([198, 51, 100, 1])}
    if chance(draw, 30 if peer.asn == LOCAL_AS else 5):
        attributes[5] = struct.pack(">I", draw.choice([50, 100, 200]))
    if chance(draw, 20 if peer.asn == LOCAL_AS else 5):
        attributes[9] = draw.choice(IDENTIFIERS)
    if chance(draw, 5):
        attributes[draw.choice([4, 8, 17, 99])] = b"\0" * 4
    return attributes


def spoiled(draw, attributes):
    """The attributes with one that is malformed, missing, or not positive in length (RFC 7606)."""
    kind = draw.choice([1, 2, 5, 9, 16, 2, 16])
    values = {1: [b"", b"\3", b"\0\0"], 2: [b"\2", b"\2\0", b"\7\1\0\0\0\1", b"\2\1\0"], 16: [b"", b"\0" * 12]}
    attributes = dict(attributes)
    if kind in (1, 2) and chance(draw, 30):
        attributes.pop(kind, None)
    else:
        attributes[kind] = draw.choice(values.get(kind, [b"", b"\0\0\0"]))
    return attributes


class Subjects:
    """The routes of one draw: prefixes of both families, and a few rules, by address family and subsequent one."""

    def __init__(self, draw):
        self.pools = {(afi, 1): [prefix_octets(draw, *prefix) for prefix in PREFIXES[family]]
                      for afi, family in ((1, 4), (2, 6))}
        for afi, family in ((1, 4), (2, 6)):
            self.pools[afi, 133] = rule_frames(draw, family)

    def some(self, draw, key, most=3):
        return b"".join(some(draw, self.pools.get(key, [b"\0"]), most))


def draw_family(draw):
    return draw.choice([(1, 133)] * 12 + [(2, 133)] * 10 + [(1, 1)] * 2 + [(2, 1)] * 2 + [(1, 134)] * chance(draw, 30))


def multiprotocol(key, routes, next_hop=None):
    """RFC 4760 sections 3 and 4."""
    head = struct.pack(">HB", *key)
    return head + (b"" if next_hop is None else bytes([len(next_hop)]) + next_hop + b"\0") + routes


def update_parts(draw, subjects):
    """What is withdrawn and announced, in the fields of IPv4 and in attributes."""
    withdrawn = subjects.some(draw, (1, 1), 2) if chance(draw, 8) else b""
    announced = subjects.some(draw, (1, 1)) if chance(draw, 12) else b""
    attributes = {}
    if not announced and not chance(draw, 8) or chance(draw, 10):
        key = draw_family(draw)
        next_hop = b"" if key[1] == 133 else bytes(4 if key[0] == 1 else 16)
        attributes[14] = multiprotocol(key, subjects.some(draw, key), next_hop)
    if chance(draw, 10):
        key = draw_family(draw)
        attributes[15] = multiprotocol(key, subjects.some(draw, key, 2))
    return withdrawn, attributes, announced


def update_body(draw, peer, width, subjects):
    withdrawn, attributes, announced = update_parts(draw, subjects)
    attributes |= path_attributes(draw, peer, width) if announced or 14 in attributes or chance(draw, 20) else {}
    if chance(draw, 65):
        attributes[16] = communities(draw)
    if rarely(draw, 8):
        attributes = spoiled(draw, attributes)
    if rarely(draw, 0.5):
        withdrawn, announced = flipped(draw, withdrawn), flipped(draw, announced)
    encoded = [attribute(draw, kind, flipped(draw, value) if rarely(draw, 0.5) else value)
               for kind, value in attributes.items()]
    if encoded and rarely(draw, 2):
        encoded.append(draw.choice(encoded))
    if chance(draw, 50):
        draw.shuffle(encoded)
    joined = b"".join(encoded)
    return struct.pack(">H", len(withdrawn)) + withdrawn + struct.pack(">H", len(joined)) + joined + announced


# Messages


def open_body(draw, peer, width):
    """RFC 4271 section 4.2, with the capability of four-octet AS numbers where they have four; rarely with a fault."""
    version, hold_time, identifier = 4, draw.choice([0, 3, 180]), draw.choice(IDENTIFIERS)
    asn = peer.asn if peer.asn < 65536 else 23456
    capabilities = bytes.fromhex("010400010085") * chance(draw, 30) + bytes.fromhex("0200") * chance(draw, 20)
    capabilities += b"\x41\x04" + struct.pack(">I", peer.asn) if width == 4 else b""
    if rarely(draw, 6):
        version, hold_time, asn, identifier, capabilities = draw.choice([
            (3, 0, asn, identifier, b""), (4, 1, asn, identifier, b""), (4, 0, 0, identifier, b""),
            (4, 0, asn, bytes(4), b""), (4, 0, 64999, identifier, b""), (4, 0, asn, identifier, b"\x41\x02\0\0"),
            (4, 0, asn, identifier, b"\x41\x09\0"), (4, 0, asn, identifier, b"\x41\x04\0\0\0\1")])
    parameters = bytes([2, len(capabilities)]) + capabilities if capabilities else b""
    body = bytes([version]) + struct.pack(">HH", asn, hold_time) + identifier + bytes([len(parameters)]) + parameters
    return body + b"\0" * rarely(draw, 1)


def odd_message(draw):
    """What closes a session, or does nothing."""
    return draw.choice([
        message(3, bytes([6, draw.randrange(10), 0])), message(5, b"\0\1\0\1"), message(4, b""), message(4, b""),
        message(1, bytes.fromhex("04fde90000c633640100")), message(2, b"\0\0\0\0"), message(9, b""), message(4, b"\0"),
        b"\xfe" + message(4, b""), MARKER + b"\x10\x01\x02", MARKER + b"\0\x12\x04", message(2, b"\0\0\0"),
        message(2, bytes.fromhex("0005180a0102030000")), message(2, bytes.fromhex("0000000003fffafa")),
        message(2, bytes.fromhex("0000000009800e0600018500000301")), message(2, b"\0\0\0\0\x21\0")])


class Stream:
    """What one peer of a draw says: its opening, and then messages."""

    def __init__(self, draw, peer):
        self.peer, self.pending = peer, b""
        self.width = 2 if peer.asn < 65536 and chance(draw, 25) else 4

    def opening(self, draw):
        self.pending = message(1, open_body(draw, self.peer, self.width)) + message(4, b"")

    def say(self, draw, subjects):
        if rarely(draw, 3):
            self.pending += odd_message(draw)
        else:
            self.pending += message(2, update_body(draw, self.peer, self.width, subjects))

    def base(self, draw, subjects):
        """The unicast routes that rules rest on: a few of each family, of this peer."""
        for afi in (1, 2):
            path = path_attributes(draw, self.peer, self.width)
            path[2] = segment(2, [self.peer.asn if self.peer.asn != LOCAL_AS else 65001], self.width)
            path[14] = multiprotocol((afi, 1), subjects.some(draw, (afi, 1), 5), bytes(4))
            encoded = b"".join(attribute(draw, kind, value) for kind, value in path.items())
            self.pending += message(2, b"\0\0" + struct.pack(">H", len(encoded)) + encoded)

    def cut(self, draw):
        """Octets for a record: mostly all that is pending, else some of it."""
        place = len(self.pending) if chance(draw, 70) else draw.randint(0, len(self.pending))
        octets, self.pending = self.pending[:place], self.pending[place:]
        return octets


# Tapes


def draw_events(draw, peers):
    """Kinds, octets and peers, in their order."""
    subjects, streams, events = Subjects(draw), [Stream(draw, peer) for peer in peers], []
    for stream in streams[:-1] if chance(draw, 30) else streams:
        events.append((UP, b"", stream.peer.number))
        stream.opening(draw)
        if stream is streams[0] or chance(draw, 15):
            stream.base(draw, subjects)
        events.append((SAYS, stream.cut(draw), stream.peer.number))
    for _ in range(draw.randint(4, 40)):
        stream = draw.choice(streams + streams[:1] * 6)
        if chance(draw, 3):
            events.append((draw.choice([UP, UP, LOST]), b"", stream.peer.number))
            stream.opening(draw)
        else:
            stream.say(draw, subjects)
        events.append((SAYS, stream.cut(draw), stream.peer.number))
    return events


def moments(draw, count):
    """Equal and rising ones, more of them early."""
    if chance(draw, 10):
        return [5 * SECOND] * count
    return sorted(int(TAPE_SECONDS * draw.random() * draw.random()) * SECOND + draw.choice([0, 0, 1, 1500])
                  for _ in range(count))


def draw_tape(draw, peers):
    events = draw_events(draw, peers)
    if chance(draw, 50):
        records = [record(*event) for event in events]
        return spoil_tape(draw, TAPE, records, 3)
    records = [record(*event, moment) for event, moment in zip(events, moments(draw, len(events)))]
    return spoil_tape(draw, TIMED_TAPE, records, 11)


def spoil_tape(draw, magic, records, length_at):
    """The whole tape; in one of twenty something is wrong with it."""
    if not rarely(draw, 10):
        return magic + b"".join(records)
    place = draw.randrange(len(records))
    wrong = draw.choice(["cut", "magic", "kind", "peer", "length", "order"])
    if wrong == "kind":
        records[place] = bytes([draw.choice([0, 4, 255])]) + records[place][1:]
    elif wrong == "peer":
        records[place] = records[place][:1] + b"\x12\x34" + records[place][3:]
    elif wrong == "length":
        records[place] = records[place][:length_at] + b"\0\1\0\1" + records[place][length_at + 4:]
    elif wrong == "order":
        records[place], records[-1] = records[-1], records[place]
    elif wrong == "magic":
        magic = flipped(draw, magic)
    tape = magic + b"".join(records)
    return tape[:draw.randrange(len(tape))] if wrong == "cut" else tape


# Packets

EXTENSIONS = [0, 43, 44, 51, 60]


def transport_octets(draw, protocol):
    ports = struct.pack(">HH", draw.choice(NUMBERS[6]), draw.choice(NUMBERS[5]))
    if protocol == 6:
        return ports + bytes(8) + struct.pack(">H", 0x5000 | draw.choice(BITS[9]) & 0x1FF) + bytes(6)
    if protocol == 17:
        return ports + bytes(4) + bytes(draw.choice([0, 0, 32]))
    return bytes([draw.choice(NUMBERS[7]), draw.choice(NUMBERS[8])]) + bytes(6)


def fragment_field(draw):
    """Offset and flags as IPv4 has them: mostly a whole packet, else a first, middle or last fragment."""
    return draw.choice([0x4000, 0x2000, 0x2000, 0x2001, 0x0001, 0x6000]) if chance(draw, 35) else 0


def ipv4_packet(draw):
    protocol = draw.choice([1, 6, 6, 17, 17, 58])
    options = bytes(4 * draw.choice([0, 0, 0, 1, 10]))
    octets = options + transport_octets(draw, protocol)
    length = 20 + len(octets) if chance(draw, 92) else draw.choice([20, 24, 19, 22, 0])
    first = (0x45 if chance(draw, 98) else 0x43) + len(options) // 4
    head = bytes([first, draw.choice(NUMBERS[11]) << 2 | draw.randrange(4)])
    head += struct.pack(">HHHBBH", length, 0, fragment_field(draw), 64, protocol, 0)
    return head + draw.choice(HOSTS[4]) + draw.choice(HOSTS[4]) + octets


def extension(draw, kind, following):
    """RFC 8200 section 4: a header of this kind before the following one."""
    if kind == 44:
        field = fragment_field(draw)
        return bytes([following, 0]) + struct.pack(">HI", (field & 0x1FFF) << 3 | field >> 13 & 1, 7)
    size = draw.choice([0, 0, 1, 2])
    octets = bytes([following, size if not chance(draw, 4) else 200])
    return octets + bytes(((size + 2) * 4 if kind == 51 else (size + 1) * 8) - 2)


def ipv6_packet(draw):
    following = draw.choice([58, 6, 6, 17, 17, 1])
    octets = transport_octets(draw, following)
    for _ in range(draw.choice([0, 0, 0, 1, 1, 2, 3])):
        kind = draw.choice(EXTENSIONS)
        octets, following = extension(draw, kind, following) + octets, kind
    length = len(octets) if chance(draw, 92) else draw.choice([0, 4, 8, len(octets) + 9])
    word = 6 << 28 | draw.choice(NUMBERS[11]) << 22 | draw.choice(NUMBERS[13])
    return struct.pack(">IHBB", word, length, following, 64) + draw.choice(HOSTS[6]) + draw.choice(HOSTS[6]) + octets


LINKS = [1, 101, 113, 276, 228, 229]       # Ethernet, raw IP, Linux cooked and its version 2, raw IPv4 and IPv6


def link_header(draw, link, family):
    ether_type = struct.pack(">H", 0x0800 if family == 4 else 0x86DD)
    if chance(draw, 3):
        ether_type = draw.choice([b"\x08\x06", b"\x08\x00", b"\x86\xdd"])
    if link == 1:
        tags = b"".join(draw.choice([b"\x81\0\0\5", b"\x88\xa8\0\5"]) for _ in range(draw.choice([0, 0, 0, 1, 2, 3])))
        return bytes(12) + tags + ether_type
    return {113: bytes(14) + ether_type, 276: ether_type + bytes(18)}.get(link, b"")


def draw_frame(draw, link):
    family = {228: 4, 229: 6}.get(link) or draw.choice([4, 6])
    family = 10 - family if chance(draw, 2) else family
    octets = link_header(draw, link, family) + (ipv4_packet(draw) if family == 4 else ipv6_packet(draw))
    if chance(draw, 8):
        octets = octets[:draw.randrange(len(octets) + 1)]
    return flipped(draw, octets) if chance(draw, 4) else octets


# Captures


def pcap_capture(draw, link, frames, times):
    """The libpcap format in either order and unit; the high half of the link's field isn't read."""
    order, nanoseconds = draw.choice("<>"), chance(draw, 50)
    magic = 0xA1B23C4D if nanoseconds else 0xA1B2C3D4
    link |= draw.choice([0, 0x10000])
    octets = [wire.pcap_head(link, order, magic)]
    for captured, time in zip(frames, times):
        fraction = time % SECOND // (1 if nanoseconds else 1000)
        octets.append(wire.pcap_record(captured, time // SECOND, fraction, order=order))
    return octets, order


def option(order, code, value):
    return struct.pack(order + "HH", code, len(value)) + value + bytes(-len(value) % 4)


def interface_block(draw, order, link):
    """With a unit of times by the option 9, or without one, and other options around it."""
    unit = bytes([draw.choice([6, 6, 9, 9, 3, 0, 12, 127, 0x80 | 20, 0x80 | 30, 0xFF, 0x80])])
    options = [(2, b"eth0:"), (9, unit), (9, b"\3\3"), (14, bytes(8))]
    chosen = [option(order, *each) for each in draw.sample(options, draw.randint(0, 3))] if chance(draw, 60) else []
    chosen += [option(order, 0, b"")] if chosen and chance(draw, 70) else []
    return wire.interface_block(link, order, draw.choice([0, 30, wire.SNAP]), b"".join(chosen))


def packet_block(draw, order, captured, time):
    """A simple packet, or an enhanced one of one of the two interfaces."""
    if chance(draw, 15):
        return wire.block(3, struct.pack(order + "I", len(captured)) + captured, order)
    units = draw.choice([time // 1000, time // 1000, time, time << 10, 2**64 - 1 if rarely(draw, 5) else time])
    return wire.packet_block(captured, units, draw.choice([0, 0, 0, 1]), order=order)


def section(draw, order, link, frames, times):
    """A section header, two interfaces, and packets with other blocks among them."""
    octets = [wire.section_block(order, draw.choice([0, 0, 2]), draw.choice([b"", option(order, 4, b"draws")]))]
    octets += [interface_block(draw, order, link), interface_block(draw, order, draw.choice([147, link]))]
    for captured, time in zip(frames, times):
        octets.append(packet_block(draw, order, captured, time))
        octets += [wire.block(draw.choice([4, 5, 0xBAD]), bytes(8), order)] * chance(draw, 5)
    return octets


def pcapng_capture(draw, link, frames, times):
    """One section, or two that may stand in both orders."""
    place = draw.choice([len(frames), len(frames) // 2])
    octets = section(draw, draw.choice("<>"), link, frames[:place], times)
    order = draw.choice("<>")
    if place < len(frames):
        octets += section(draw, order, draw.choice(LINKS), frames[place:], times[place:])
    return octets, order


def spoil_capture(draw, octets, order):
    """In one of twenty something is wrong: it is cut, a record is too long, or an octet is another one."""
    if not rarely(draw, 10):
        return b"".join(octets)
    if chance(draw, 20):
        octets.append(struct.pack(order + "IIII", 0, 0, 262145, 60) + bytes(60))
    if chance(draw, 40):
        octets[0] = flipped(draw, octets[0])
    elif chance(draw, 50):
        octets[-1] = flipped(draw, octets[-1])
    joined = b"".join(octets)
    return joined[:draw.randrange(len(joined))] if chance(draw, 50) else joined


def draw_capture(draw):
    link = draw.choice(LINKS)
    frames = [draw_frame(draw, link) for _ in range(draw.choice([0, 12, 20, 30]))]
    times = [draw.randrange(TAPE_SECONDS + 1) * SECOND + draw.choice([0, 0, 1000, 1500]) for _ in frames]
    if not chance(draw, 30):
        times.sort()
    if rarely(draw, 2):
        link = 147
    make = pcapng_capture if chance(draw, 15) else pcap_capture
    return spoil_capture(draw, *make(draw, link, frames, times))


def draw_inputs(seed, number):
    """The inputs of a draw, by the seed and its number alone."""
    draw = random.Random(f"{seed} {number}")
    draw.has_faults = chance(draw, 50)
    peers = draw_peers(draw)
    return Inputs(config_text(draw, peers), draw_tape(draw, peers), draw_capture(draw))
