#!/usr/bin/env python3
"""Writes the peers.toml of who speaks in an MRT dump, to be edited: a peer for each address, by the order in which they
speak first.

    tools/peers.py DUMP > peers.toml

The local AS is the one that most records tell. The identifier is that of the last OPEN that the dump's own end sent, or
else the local IPv4 address of the records that tell this AS. An address under which two AS numbers speak is told with
the later one. Where the dump ends within a record, what stands before it counts. A configuration takes 1024 peers: of
more the first are written, and that there are more is told.
"""

import collections
import ipaddress
import struct
import sys

BGP4MP, BGP4MP_ET = 16, 17
MESSAGE, MESSAGE_AS4, MESSAGE_LOCAL, MESSAGE_AS4_LOCAL = 1, 4, 6, 7
STATE_CHANGE, STATE_CHANGE_AS4 = 0, 5
READ = (MESSAGE, MESSAGE_AS4, STATE_CHANGE, STATE_CHANGE_AS4, MESSAGE_LOCAL, MESSAGE_AS4_LOCAL)
LOCAL = (MESSAGE_LOCAL, MESSAGE_AS4_LOCAL)
WIDE = (MESSAGE_AS4, STATE_CHANGE_AS4, MESSAGE_AS4_LOCAL)
ADDRESS_OCTETS = {1: 4, 2: 16}
LONGEST_BODY = 1 << 24
MARKER, OPEN = b"\xff" * 16, 1
MOST_PEERS = 1024
AS_TRANS = 23456

NOTHING = "no record of the dump tells of a session: it is no dump of BGP4MP records (a table dump isn't read), or is empty"


def records(source):
    """The type, the subtype and the body of each whole record."""
    while len(header := source.read(12)) == 12:
        kind, subtype, length = struct.unpack(">HHI", header[4:])
        if length > LONGEST_BODY or len(body := source.read(length)) < length:
            return
        yield kind, subtype, body[4:] if kind == BGP4MP_ET else body


def session_of(subtype, body):
    """The AS numbers and the addresses of both ends, the peer's first, and the octets behind them; None where the body is
    cut off or has another family."""
    count = 8 if subtype in WIDE else 4
    if len(body) < count + 4:
        return None
    numbers = struct.unpack(">II" if count == 8 else ">HH", body[:count])
    size = ADDRESS_OCTETS.get(struct.unpack(">H", body[count + 2 : count + 4])[0])
    start = count + 4
    if size is None or len(body) < start + 2 * size:
        return None
    ends = [ipaddress.ip_address(body[at : at + size]) for at in (start, start + size)]
    return numbers, ends, body[start + 2 * size :]


def identifier_of(message):
    """The identifier of an OPEN, None of another message."""
    if len(message) < 29 or not message.startswith(MARKER) or message[18] != OPEN:
        return None
    return ipaddress.ip_address(message[24:28])


class Seen:
    """What the records of a dump tell of both ends."""

    def __init__(self):
        self.peers = {}
        self.has_more = False
        self.local_as = collections.Counter()
        self.addresses = {}
        self.identifiers = {}

    def take(self, subtype, body):
        found = session_of(subtype, body)
        if found is None:
            return
        (peer_as, local_as), (address, local), rest = found
        if int(address) and address not in self.peers and len(self.peers) == MOST_PEERS:
            self.has_more = True
            return
        if local_as not in self.local_as and len(self.local_as) == MOST_PEERS:
            return
        self.local_as[local_as] += 1
        if local.version == 4 and int(local):
            self.addresses[local_as] = local
        if subtype in LOCAL and (identifier := identifier_of(rest)):
            self.identifiers[local_as] = identifier
        if int(address):
            self.peers[address] = peer_as


def text_of(address):
    """An address as a configuration takes it: of IPv6 the form without dotted IPv4."""
    if address.version == 6 and address.ipv4_mapped:
        return address.exploded
    return str(address)


def lines_of(seen):
    local_as = seen.local_as.most_common(1)[0][0]
    identifier = seen.identifiers.get(local_as) or seen.addresses.get(local_as)
    yield f"local_as = {local_as}"
    if local_as == AS_TRANS:
        yield "# 23456 stands for an AS number of four octets: write yours"
    if identifier is None:
        yield "# the records tell no IPv4 address of this end: write the router's own identifier"
    yield f'local_id = "{identifier or "192.0.2.254"}"'
    if seen.has_more:
        yield f"# more addresses speak in the dump: these are the first {MOST_PEERS}"
    for number, (address, peer_as) in enumerate(seen.peers.items(), 1):
        yield ""
        yield "[[peer]]"
        yield f"number = {number}"
        yield f'address = "{text_of(address)}"'
        yield f"as = {peer_as}"


def main():
    if len(sys.argv) != 2 or sys.argv[1].startswith("-"):
        sys.exit(__doc__)
    seen = Seen()
    try:
        with open(sys.argv[1], "rb") as source:
            for kind, subtype, body in records(source):
                if kind in (BGP4MP, BGP4MP_ET) and subtype in READ:
                    seen.take(subtype, body)
    except OSError as error:
        sys.exit(f"{sys.argv[1]}: {error.strerror}")
    if not seen.peers:
        sys.exit(NOTHING)
    print("\n".join(lines_of(seen)))


if __name__ == "__main__":
    main()
