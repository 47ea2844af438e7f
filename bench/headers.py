"""Draws frames of Ethernet for `kernel.py` and `follow.py`, which scapy writes: it knows headers independently of us.

The frames are as the kernel wants them: whole headers, a length that ends where the frame does, at most one tag and one
fragment header, no authentication header. Some transports are cut off.
"""

import ipaddress
import logging
import sys
from typing import NamedTuple

import draws
from draws import BITS, HOSTS, NUMBERS, chance

sys.path.append("/usr/lib/python3/dist-packages")     # of Debian's python3-scapy, for a Python of another kind too
logging.getLogger("scapy").setLevel(logging.ERROR)
try:
    from scapy.layers.inet import ICMP, IP, TCP, UDP, IPOption_NOP
    from scapy.layers.inet6 import (IPv6, IPv6ExtHdrDestOpt, IPv6ExtHdrFragment, IPv6ExtHdrHopByHop, IPv6ExtHdrRouting,
                                    PadN)
    from scapy.layers.l2 import Dot1AD, Dot1Q, Ether
    from scapy.packet import Raw
    is_missing = False
except ImportError:
    is_missing = True

TARGET = b"\2\1\0\0\0\0"       # the address to which they go, which is no device's
OTHER_TYPE = 0x88B5


class Frame(NamedTuple):
    octets: bytes
    family: object      # 4 or 6, and None where it is no frame of IP
    packet: object      # scapy's
    carried: bytes      # its octets

    def with_dscp(self, mark):
        """The packet's octets, and where a mark is given with this DSCP and the checksum that it makes."""
        if mark is None:
            return self.carried
        packet = self.packet.copy()
        if isinstance(packet, IP):
            packet.tos, packet.chksum = mark << 2 | packet.tos & 3, None
        else:
            packet.tc = mark << 2 | packet.tc & 3
        return bytes(packet)


def transport(draw, protocol):
    """What follows the headers of IP, in one of ten cut off."""
    ports = {"sport": draw.choice(NUMBERS[6]), "dport": draw.choice(NUMBERS[5])}
    if protocol == 6:
        made = TCP(**ports, flags=draw.choice(BITS[9]) & 0x1FF)
    elif protocol == 17:
        made = UDP(**ports) / Raw(bytes(draw.choice([0, 0, 32])))
    else:
        made = ICMP(type=draw.choice(NUMBERS[7]), code=draw.choice(NUMBERS[8]))
    octets = bytes(made)
    return Raw(octets[:draw.randint(0, len(octets))] if chance(draw, 10) else octets)


def fragment(draw):
    """Whether it may be fragmented, whether more fragments follow, and where it begins."""
    field = draws.fragment_field(draw)
    return field >> 14 & 1, field >> 13 & 1, field & 0x1FFF


def traffic_class(draw):
    return draw.choice(NUMBERS[11]) << 2 | draw.randrange(4)


def addresses(draw, family):
    return {name: str(ipaddress.ip_address(draw.choice(HOSTS[family]))) for name in ("src", "dst")}


def ipv4(draw):
    protocol = draw.choice([1, 6, 6, 17, 17, 58])
    stays, more, offset = fragment(draw)
    options = [IPOption_NOP()] * (4 * draw.choice([0, 0, 0, 1, 10]))
    return IP(**addresses(draw, 4), tos=traffic_class(draw), proto=protocol, flags=stays << 1 | more, frag=offset,
              options=options) / transport(draw, protocol)


def extension(draw, following):
    """A header of IPv6 before the following one (RFC 8200 section 4)."""
    padding = [PadN(optdata=bytes(8 * draw.choice([0, 0, 1, 2]) + 4))]
    kind = draw.choice([IPv6ExtHdrHopByHop, IPv6ExtHdrRouting, IPv6ExtHdrDestOpt])
    options = {"addresses": []} if kind is IPv6ExtHdrRouting else {"options": padding}
    return kind(nh=following, **options)


def ipv6(draw):
    following = draw.choice([58, 6, 6, 17, 17, 1])
    made = transport(draw, following)
    count = draw.choice([0, 0, 0, 1, 1, 2, 3])
    fragmented = draw.randrange(count) if count and chance(draw, 60) else None
    for place in range(count):
        if place == fragmented:
            _, more, offset = fragment(draw)
            made = IPv6ExtHdrFragment(nh=following, m=more, offset=offset, id=7) / made
        else:
            made = extension(draw, following) / made
        following = {IPv6ExtHdrHopByHop: 0, IPv6ExtHdrRouting: 43, IPv6ExtHdrFragment: 44, IPv6ExtHdrDestOpt: 60}[type(made)]
    return IPv6(**addresses(draw, 6), tc=traffic_class(draw), fl=draw.choice(NUMBERS[13]), nh=following) / made


def draw_frame(draw, number):
    """The source address holds the number, by which the frame is known when it comes."""
    family = draw.choice([4, 6])
    packet = ipv4(draw) if family == 4 else ipv6(draw)
    source = (0x020000000000 + number).to_bytes(6, "big").hex(":")
    kind = (0x0800 if family == 4 else 0x86DD) if chance(draw, 98) else OTHER_TYPE
    head, octets = Ether(dst=TARGET.hex(":"), src=source, type=kind), bytes(packet)
    if chance(draw, 15):
        tag = draw.choice([Dot1Q, Dot1AD])
        head = Ether(dst=TARGET.hex(":"), src=source, type=0x8100 if tag is Dot1Q else 0x88A8) / tag(vlan=5, type=kind)
    return Frame(bytes(head) + octets, None if kind == OTHER_TYPE else family, packet, octets)
