"""What the scripts beside this one write: configurations, messages of BGP-4, records of tapes, packets and captures.

Nothing is read here: the plain readings, `plain*.py`, take nothing from it. Peer 1 speaks, of AS 65001, unless
something else is said.
"""

import struct

HEAD = 'local_as = 65000\nlocal_id = "192.0.2.254"\n'


def peer(number, asn, address=None):
    """A peer's table of a configuration."""
    return f'[[peer]]\nnumber = {number}\naddress = "{address or f"198.51.100.{number}"}"\nas = {asn}\n'


CONFIG = HEAD + peer(1, 65001)

# Messages (RFC 4271 section 4)

MARKER = b"\xff" * 16
ORIGIN = bytes.fromhex("40010100")
PATH = ORIGIN + bytes.fromhex("400206 02010000fde9")
HOP = bytes.fromhex("400304c6336401")
DROP = bytes.fromhex("c01008 8006fde900000000")    # a rate of no octets
V4_RULES, V6_RULES = b"\0\1\x85", b"\0\2\x85"      # AFI and SAFI


def message(kind, body=b""):
    return MARKER + struct.pack(">HB", 19 + len(body), kind) + body


KEEPALIVE = message(4)
OPEN = bytes.fromhex("04 fde9 00b4 c6336401 08 0206 41040000fde9")
OPENING = message(1, OPEN) + KEEPALIVE


def sized(octets):
    return struct.pack(">H", len(octets)) + octets


def update(withdrawn=b"", attributes=b"", announced=b""):
    return message(2, sized(withdrawn) + sized(attributes) + announced)


def attribute(kind, value, flags=0x80):
    """With a length of two octets where the flags say so, or where it needs them."""
    if len(value) > 255 or flags & 0x10:
        return bytes([flags | 0x10, kind]) + sized(value)
    return bytes([flags, kind, len(value)]) + value


def announce(prefixes):
    """Networks of IPv4 by the next hop 198.51.100.1."""
    return update(b"", PATH + HOP, prefixes)


def withdraw(prefixes):
    return update(prefixes)


def frame(value):
    """A rule's components with their length before them (RFC 8955 section 4.1)."""
    return (bytes([len(value)]) if len(value) < 240 else struct.pack(">H", 0xF000 + len(value))) + value


def reach(family, frames):
    """MP_REACH_NLRI without a next hop (RFC 4760 section 3)."""
    return attribute(14, family + b"\0\0" + frames)


def flow(value, actions=DROP, family=V4_RULES):
    """A rule that comes, and by default discards."""
    return update(b"", reach(family, frame(value)) + PATH + actions)


def no_flow(value):
    """A rule that goes."""
    return update(b"", attribute(15, V4_RULES + frame(value)))


def slash24(number):
    """The prefix of that number under 10.0.0.0/8, then 11.0.0.0/8, as NLRI."""
    return bytes([24, 10 + number // 65536, number // 256 % 256, number % 256])


# Tapes

UP, SAYS, LOST = 1, 2, 3
TAPE, TIMED_TAPE = b"FSTAPE1\n", b"FSTAPE2\n"


def record(kind, octets=b"", peer=1, moment=None):
    """A record of a tape, of version 2 where it has a moment, which is in nanoseconds."""
    told = b"" if moment is None else struct.pack(">Q", moment)
    return struct.pack(">BH", kind, peer) + told + struct.pack(">I", len(octets)) + octets


def up(peer=1, moment=None):
    """A peer comes up, and opens its session."""
    return record(UP, b"", peer, moment) + record(SAYS, OPENING, peer, moment)


def says(octets, peer=1, moment=None):
    return record(SAYS, octets, peer, moment)


# Packets


def ipv4(source, destination, protocol, source_port, port, length):
    """The first 40 octets of a packet, of TCP with SYN."""
    ip = struct.pack(">BBHIBBH", 0x45, 0, length, 0, 64, protocol, 0) + source + destination
    return ip + struct.pack(">HH", source_port, port) + bytes.fromhex("00000000 00000000 50022000 00000000")


def packet(destination, port):
    return ipv4(b"\xcb\x00\x71\x05", destination, 6, 50000, port, 40)


# Captures

ETHERNET, RAW = 1, 101
SNAP = 262144


def pcap_head(link=RAW, order="<", magic=0xA1B2C3D4):
    return struct.pack(order + "IHHIIII", magic, 2, 4, 0, 0, SNAP, link)


def pcap_record(octets, seconds=0, fraction=0, length=None, order="<"):
    """All of a packet, or the first octets of one that is so long on the wire."""
    return struct.pack(order + "IIII", seconds, fraction, len(octets), length or len(octets)) + octets


EMPTY_CAPTURE = pcap_head()


def capture_of(packets, link=RAW):
    return pcap_head(link) + b"".join(map(pcap_record, packets))


def write_capture(path, packets):
    """A packet each microsecond."""
    with open(path, "wb") as out:
        out.write(EMPTY_CAPTURE)
        for number, octets in enumerate(packets):
            out.write(pcap_record(octets, number // 1000000, number % 1000000))


def block(kind, body, order="<"):
    """A block of pcapng."""
    body += bytes(-len(body) % 4)
    total = struct.pack(order + "I", 12 + len(body))
    return struct.pack(order + "I", kind) + total + body + total


def section_block(order="<", minor=0, options=b""):
    return block(0x0A0D0D0A, struct.pack(order + "IHHq", 0x1A2B3C4D, 1, minor, -1) + options, order)


def interface_block(link=RAW, order="<", snap=SNAP, options=b""):
    return block(1, struct.pack(order + "HHI", link, 0, snap) + options, order)


def packet_block(octets, time, interface=0, length=None, order="<"):
    """An enhanced packet, at a time in the units of its interface."""
    head = struct.pack(order + "IIIII", interface, time >> 32, time & 0xFFFFFFFF, len(octets), length or len(octets))
    return block(6, head + octets, order)
