"""Reads captures, pcap and pcapng, in a stream, for `verdicts.py`.

A packet of a capture is a tuple, since a million of them are made in seconds: its record as it stands in the file, the
captured octets, the link type, the length on the wire, and the time in nanoseconds since the start of 1970, which a
simple packet lacks. What stands between the packets and belongs to each part of the capture goes to `between`.
"""

import socket
import struct
from typing import NamedTuple

SECOND = 10**9
BUFFER = 1 << 20
LONGEST_PACKET = 262144
LONGEST_BLOCK = 1 << 24


class Fault(Exception):
    """What is wrong with an input, in words."""


LINK_ETHERNET = 1
IP_HEADER = {101: 0, 113: 16, 228: 0, 229: 0, 276: 20}  # where it begins, on links that have no tags
VLAN_TAGS = (b"\x81\x00", b"\x88\xa8")

# The order of the octets, and nanoseconds in a unit of the times.
PCAP = {
    b"\xa1\xb2\xc3\xd4": (">", 1000),
    b"\xd4\xc3\xb2\xa1": ("<", 1000),
    b"\xa1\xb2\x3c\x4d": (">", 1),
    b"\x4d\x3c\xb2\xa1": ("<", 1),
}

SECTION_HEADER = b"\x0a\x0d\x0d\x0a"
SECTION_ORDERS = {b"\x1a\x2b\x3c\x4d": ">", b"\x4d\x3c\x2b\x1a": "<"}
SECTION, INTERFACE, SIMPLE_PACKET, NAMES, ENHANCED_PACKET, SECRETS = 0x0A0D0D0A, 1, 3, 4, 6, 10
LEAST_BLOCK = {SECTION: 28, INTERFACE: 20, SIMPLE_PACKET: 16, ENHANCED_PACKET: 32}
KEPT_BLOCKS = (SECTION, INTERFACE, SIMPLE_PACKET, NAMES, ENHANCED_PACKET, SECRETS)
RESOLUTION_OPTION = 9
LAST_MOMENT = 2**64 - 1


CUT_OFF = "the capture is cut off"


def take(source, count):
    """So many octets of the capture."""
    octets = source.read(count)
    if len(octets) < count:
        raise Fault(CUT_OFF)
    return octets


def pcap_packets(source, magic, between):
    order, unit = PCAP[magic]
    header = magic + take(source, 20)
    link = struct.unpack(order + "I", header[20:])[0] & 0xFFFF
    if struct.unpack(order + "HH", header[4:8]) != (2, 4) or link not in (LINK_ETHERNET, *IP_HEADER):
        raise Fault("the capture has another version or link type than `enforce` reads")
    between(header)
    read, unpack = source.read, struct.Struct(order + "IIII").unpack
    while head := read(16):
        if len(head) < 16:
            raise Fault(CUT_OFF)
        seconds, fraction, captured, length = unpack(head)
        if captured > LONGEST_PACKET:
            raise Fault(f"the capture has a record of {captured} octets")
        octets = read(captured)
        if len(octets) < captured:
            raise Fault(CUT_OFF)
        yield head + octets, octets, link, length, seconds * SECOND + fraction * unit


class Interface(NamedTuple):
    link: int
    snap: int
    units: int  # of its times in a second


def units_of(order, options):
    """How many units of time an interface with these options has in a second."""
    while len(options) >= 4:
        code, size = struct.unpack(order + "HH", options[:4])
        if 4 + size > len(options):
            raise Fault("the capture has an option that overruns its block")
        if code == 0:
            break
        if code == RESOLUTION_OPTION and size == 1:
            exponent = options[4]
            return 2 ** (exponent & 0x7F) if exponent & 0x80 else 10**exponent
        options = options[4 + size + -size % 4:]
    return 10**6


def interface_of(order, body):
    link, _, snap = struct.unpack(order + "HHI", body[:8])
    return Interface(link, snap, units_of(order, body[8:]))


def last_of(source, count):
    """The last four of so many octets; the others are passed over in pieces."""
    while count > BUFFER:
        count -= len(take(source, min(BUFFER, count - 4)))
    return take(source, count)[-4:]


def next_block(source, order, first):
    """The order of the numbers, the kind and the octets of the next block, of which the first ones are given. Of a kind
    that isn't kept only the ends are."""
    head = first + take(source, 8 - len(first))
    if head[:4] == SECTION_HEADER:
        head += take(source, 4)
        order = SECTION_ORDERS.get(head[8:])
        if order is None:
            raise Fault("the capture has a section of an unknown magic")
    kind, total = struct.unpack(order + "II", head[:8])
    if total < LEAST_BLOCK.get(kind, 12) or total % 4:
        raise Fault(f"the capture has a block of {total} octets")
    if kind in KEPT_BLOCKS:
        if total > LONGEST_BLOCK:
            raise Fault(f"the capture has a block of {total} octets")
        block = head + take(source, total - len(head))
    else:
        block = head + last_of(source, total - len(head))
    if block[-4:] != head[4:8]:
        raise Fault("the capture has a block whose two lengths differ")
    return order, kind, block


def packet_of(order, kind, block, interfaces):
    """The packet of an enhanced or a simple block."""
    if kind == SIMPLE_PACKET:
        number, time, start = 0, None, 12
        length = struct.unpack(order + "I", block[8:12])[0]
    else:
        number, high, low, captured, length = struct.unpack(order + "IIIII", block[8:28])
        start = 28
    if number >= len(interfaces):
        raise Fault("the capture has a packet of an interface that it doesn't describe")
    interface = interfaces[number]
    if kind == SIMPLE_PACKET:
        captured = min(length, interface.snap or length)
    else:
        time = min((high << 32 | low) * SECOND // interface.units, LAST_MOMENT)
    if captured > min(LONGEST_PACKET, len(block) - 4 - start):
        raise Fault(f"the capture has a block with a packet of {captured} octets")
    return block, block[start:start + captured], interface.link, length, time


def pcapng_packets(source, magic, between):
    order, interfaces, first = "", [], magic
    while first:
        order, kind, block = next_block(source, order, first)
        if kind in (ENHANCED_PACKET, SIMPLE_PACKET):
            yield packet_of(order, kind, block, interfaces)
        elif kind == SECTION:
            interfaces = []
            unknown_length = b"\xff" * 8
            between(block[:16] + unknown_length + block[24:])
        elif kind == INTERFACE:
            interfaces.append(interface_of(order, block[8:-4]))
            between(block)
        elif kind in (NAMES, SECRETS):
            between(block)
        first = source.read(4)


def packets_of(source, between):
    """The packets of a capture, and the suffix of such a file."""
    magic = source.read(4)
    if magic == SECTION_HEADER:
        return pcapng_packets(source, magic, between), ".pcapng"
    if magic in PCAP:
        return pcap_packets(source, magic, between), ".pcap"
    raise Fault("the capture has an unknown magic")


def ip_header(octets, link):
    """Where the IP header of a packet begins that `enforce` could read."""
    if link != LINK_ETHERNET:
        return IP_HEADER[link]
    at = 12
    while at < 20 and octets[at:at + 2] in VLAN_TAGS:
        at += 4
    return at + 2


def is_ipv6(octets, link):
    return octets[ip_header(octets, link)] >> 4 == 6


def addresses(octets, link):
    """Source and destination of a packet that `enforce` could read."""
    at = ip_header(octets, link)
    family, first, size = (socket.AF_INET6, at + 8, 16) if is_ipv6(octets, link) else (socket.AF_INET, at + 12, 4)
    return [socket.inet_ntop(family, octets[start:start + size]) for start in (first, first + size)]
