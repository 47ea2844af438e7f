"""Packets and captures: what rules see of a packet, and the packets of both formats.

A part of `plain.py`, which says what it is for.
"""

from typing import NamedTuple

from plain_rules import Octets

IS_DONT_FRAGMENT, IS_FRAGMENT, IS_FIRST, IS_LAST = 1, 2, 4, 8


# Packets


class Packet(NamedTuple):
    """What rules see of a packet; None is absent."""
    family: int
    destination: int
    source: int
    protocol: object
    length: int
    dscp: int
    fragment: int
    flow_label: object
    source_port: object = None
    destination_port: object = None
    icmp_type: object = None
    icmp_code: object = None
    tcp_flags: object = None


class Unread(Exception):
    """A packet that can't be read, with its number."""


FOREIGN, TOO_SHORT, WRONG_VERSION, WRONG_HEADER, WRONG_LENGTH = 1, 2, 3, 4, 5
ETHERNET, RAW, COOKED, COOKED_TWO, RAW_IPV4, RAW_IPV6 = 1, 101, 113, 276, 228, 229
LINK_TYPES = (ETHERNET, RAW, COOKED, COOKED_TWO, RAW_IPV4, RAW_IPV6)


def number_at(octets, place, count):
    if place + count > len(octets):
        raise Unread(TOO_SHORT)
    return int.from_bytes(octets[place:place + count], "big")


def ethernet_payload(frame):
    """IEEE 802.3 and 802.1Q: where the payload begins, behind at most two tags, and its EtherType."""
    place, ether_type = 14, number_at(frame, 12, 2)
    while ether_type in (0x8100, 0x88A8) and place < 22:
        ether_type, place = number_at(frame, place + 2, 2), place + 4
    return place, ether_type


def network_packet(link, frame):
    """The IP packet in a frame of the link type, and the version that the link tells, 0 where it tells none."""
    if link in (RAW, RAW_IPV4, RAW_IPV6):
        return frame, {RAW: 0, RAW_IPV4: 4, RAW_IPV6: 6}[link]
    if link == ETHERNET:
        place, ether_type = ethernet_payload(frame)
    else:
        place, at = (16, 14) if link == COOKED else (20, 0)
        number_at(frame, 0, place)
        ether_type = number_at(frame, at, 2)
    if ether_type not in (0x0800, 0x86DD):
        raise Unread(FOREIGN)
    return frame[place:], 4 if ether_type == 0x0800 else 6


def view(link, frame):
    """The packet in a frame, or the first reason why it can't be read."""
    if link not in LINK_TYPES:
        raise Unread(FOREIGN)
    packet, version = network_packet(link, frame)
    stands = number_at(packet, 0, 1) >> 4
    if stands not in ((4, 6) if version == 0 else (version,)):
        raise Unread(WRONG_VERSION)
    return view_ipv4(packet) if stands == 4 else view_ipv6(packet)


def fragment_bits(offset, more, dont=0):
    """RFC 8955 section 4.2.2.12."""
    if offset:
        return dont * IS_DONT_FRAGMENT | IS_FRAGMENT | (0 if more else IS_LAST)
    return dont * IS_DONT_FRAGMENT | (IS_FIRST if more else 0)


def view_ipv4(packet):
    """RFC 791 section 3.1."""
    header = (packet[0] & 0x0F) * 4
    if header < 20:
        raise Unread(WRONG_HEADER)
    number_at(packet, 0, header)
    length, fragment, protocol = number_at(packet, 2, 2), number_at(packet, 6, 2), packet[9]
    if length < header:
        raise Unread(WRONG_LENGTH)
    offset = fragment & 0x1FFF
    transport = packet[header:length] if offset == 0 else b""
    return Packet(4, number_at(packet, 16, 4), number_at(packet, 12, 4), protocol, length, packet[1] >> 2,
                  fragment_bits(offset, fragment >> 13 & 1, fragment >> 14 & 1), None,
                  **transport_fields(transport, protocol, 1))


def view_ipv6(packet):
    """RFC 8200 section 3."""
    number_at(packet, 0, 40)
    word, payload = number_at(packet, 0, 4), number_at(packet, 4, 2)
    if payload == 0 and packet[6] == 0:
        raise Unread(WRONG_LENGTH)
    protocol, offset, bits, transport = walk_headers(packet[6], packet[40:40 + payload])
    return Packet(6, number_at(packet, 24, 16), number_at(packet, 8, 16), protocol, 40 + payload, word >> 22 & 0x3F,
                  bits, word & 0xFFFFF, **transport_fields(b"" if offset else transport, protocol, 58))


HOP_BY_HOP, ROUTING, FRAGMENT_HEADER, AUTHENTICATION, DESTINATION_OPTIONS = 0, 43, 44, 51, 60
EXTENSIONS = (HOP_BY_HOP, ROUTING, FRAGMENT_HEADER, AUTHENTICATION, DESTINATION_OPTIONS)


def extension_length(kind, octet):
    """RFC 8200 sections 4.3 to 4.6, RFC 4302 section 2.2."""
    return {FRAGMENT_HEADER: 8, AUTHENTICATION: (octet + 2) * 4}.get(kind, (octet + 1) * 8)


def walk_headers(following, octets):
    """RFC 8200 section 4: the upper-layer protocol, the last fragment header's offset and bits, and what follows."""
    offset, bits = 0, 0
    while following in EXTENSIONS:
        size = extension_length(following, octets[1]) if len(octets) > 1 else 2
        if len(octets) < size:
            return None, offset, bits, b""
        was, following, header, octets = following, octets[0], octets[:size], octets[size:]
        if was == FRAGMENT_HEADER:
            offset, more = number_at(header, 2, 2) >> 3, header[3] & 1
            bits = fragment_bits(offset, more)
            if offset:
                return None if following in EXTENSIONS else following, offset, bits, b""
    return following, offset, bits, octets


def transport_fields(octets, protocol, icmp):
    """RFC 9293 section 3.1, RFC 768, RFC 792 and RFC 4443: those fields that stand there whole."""
    fields = {}
    if protocol in (6, 17) and len(octets) >= 4:
        fields = {"source_port": number_at(octets, 0, 2), "destination_port": number_at(octets, 2, 2)}
    if protocol == 6 and len(octets) >= 14:
        fields["tcp_flags"] = number_at(octets, 12, 2) & 0x0FFF
    if protocol == icmp:
        fields = {name: octets[place] for place, name in enumerate(("icmp_type", "icmp_code")) if place < len(octets)}
    return fields


# Captures


class CaptureFault(Exception):
    """The capture is cut or wrong here."""


LONGEST_RECORD = 262144
SECTION_HEADER = b"\x0a\x0d\x0d\x0a"


def faultless(condition):
    if not condition:
        raise CaptureFault()


class Captured(NamedTuple):
    link: int
    moment: int
    octets: bytes


class Ordered(Octets):
    """Octets whose numbers stand in one of both orders; too few of them are a fault of the capture."""

    order = "big"

    def take(self, count):
        faultless(self.place + count <= len(self.octets))
        return super().take(count)

    def number(self, count):
        return int.from_bytes(self.take(count), self.order)


def read_capture(content):
    """The packets of a capture of either format, up to a fault."""
    return read_pcapng(content) if content[:4] == SECTION_HEADER else read_pcap(content)


def read_pcap(content):
    """The libpcap file format, version 2.4."""
    octets, moment = Ordered(content), 0
    magic = octets.take(4)
    octets.order = "big" if magic[0] == 0xA1 else "little"
    unit = {0xA1B2C3D4: 1000, 0xA1B23C4D: 1}.get(int.from_bytes(magic, octets.order))
    faultless(unit)
    faultless((octets.number(2), octets.number(2)) == (2, 4))
    octets.take(12)
    link = octets.number(4) & 0xFFFF
    faultless(link in LINK_TYPES)
    while octets.are_left():
        moment = max(moment, octets.number(4) * 10**9 + octets.number(4) * unit)
        captured, _ = octets.number(4), octets.number(4)
        faultless(captured <= LONGEST_RECORD)
        yield Captured(link, moment, octets.take(captured))


class Interface(NamedTuple):
    link: int
    snap_length: int
    units: int          # in a second


INTERFACE, SIMPLE_PACKET, ENHANCED_PACKET = 1, 3, 6
SECTION = int.from_bytes(SECTION_HEADER, "big")


def read_block(octets):
    """draft-ietf-opsawg-pcapng section 3.1: a type, and a body between equal lengths; a section has its own order."""
    kind, length = octets.number(4), octets.take(4)
    if kind == SECTION:
        magic = octets.octets[octets.place:octets.place + 4]
        faultless(magic in (b"\x1a\x2b\x3c\x4d", b"\x4d\x3c\x2b\x1a"))
        octets.order = "big" if magic[0] == 0x1A else "little"
    total = int.from_bytes(length, octets.order)
    faultless(total >= 12 and total % 4 == 0)
    body = Ordered(octets.take(total - 12))
    body.order = octets.order
    faultless(octets.number(4) == total)
    return kind, body


def read_interface(body):
    """Section 4.2: the link type, the snap length, and by option 9 the unit of times, a millionth without it."""
    link, _, snap_length, units = body.number(2), body.number(2), body.number(4), 10**6
    while body.are_left():
        code, length = body.number(2), body.number(2)
        value = body.take(length + -length % 4)
        if (code, length) == (9, 1):
            units = 2**(value[0] & 0x7F) if value[0] & 0x80 else 10**value[0]
    return Interface(link, snap_length, units)


def read_packet(kind, body, interfaces):
    """Sections 4.3 and 4.4: the packet, with its own time, which is 0 where it tells none."""
    number = body.number(4) if kind == ENHANCED_PACKET else 0
    faultless(number < len(interfaces))
    link, snap_length, units = interfaces[number]
    time = (body.number(4) << 32 | body.number(4)) * 10**9 // units if kind == ENHANCED_PACKET else 0
    captured = body.number(4)
    if kind == ENHANCED_PACKET:
        body.take(4)
    elif snap_length:
        captured = min(captured, snap_length)
    faultless(captured <= LONGEST_RECORD)
    return Captured(link, min(time, 2**64 - 1), body.take(captured + -captured % 4)[:captured])


def read_pcapng(content):
    """Section 3: blocks; a section header takes back the interfaces, and of other blocks nothing is read."""
    octets, interfaces, moment = Ordered(content), [], 0
    while octets.are_left():
        kind, body = read_block(octets)
        if kind == SECTION:
            faultless((body.take(4), body.number(2))[1] == 1)
            body.take(10)
            interfaces = []
        elif kind == INTERFACE:
            interfaces.append(read_interface(body))
            faultless(len(interfaces) <= 256)
        elif kind in (SIMPLE_PACKET, ENHANCED_PACKET):
            packet = read_packet(kind, body, interfaces)
            moment = max(moment, packet.moment)
            yield packet._replace(moment=moment)
