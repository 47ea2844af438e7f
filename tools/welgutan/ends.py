"""The ends of sessions in a dump, each under the peer whose session ends.

    tail -c +1 -F bird.mrt | welgutan-nft --with-ends CONFIG | ..

Where a peer ends its session, bird (2.0.12) writes the change of state with the peer's AS, but under the address 0.0.0.0 or
::. Who goes by addresses, as `convert` does, can't know whose session that was. It is that of the one peer with this AS and such
an address, of CONFIG or of the dump, that the dump doesn't tell to be down, and is put under its address. Where several are
left, and one of them is CONFIG's, the run ends with status 3. All else is handed on as it comes, record by record.
"""

import ipaddress
import os
import struct
import sys
import tomllib

RECORD = struct.Struct(">IHHI")     # RFC 6396 section 2: seconds, type, subtype, length
WITH_MICROSECONDS = {16: 0, 17: 4}  # of the types that have messages and states the octets before the peer
SHORT, LONG = struct.Struct(">HHHH"), struct.Struct(">IIHH")        # section 4.4: AS of both, interface, family
FORMS, MESSAGES = {0: SHORT, 1: SHORT, 4: LONG, 5: LONG}, (1, 4)    # by subtype; the others tell a change of state
STATES = struct.Struct(">HH")       # before and after it
ADDRESSES = {1: 4, 2: 16}           # octets by family
ESTABLISHED, UPDATE = 6, b"\2"
LONGEST = 1 << 24                   # octets of a record; what says more is no dump
PIECE = 1 << 20
ENDED, CANNOT, NOBODY_KNOWS = 0, 1, 3

UNTOLD = ("what peers said before this dump began isn't in it, and has to be said again; gobgpd's dumps don't tell that a "
          "session ended, so that a lost peer's rules act until the dump is begun anew")


class NobodyKnows(Exception):
    """The end of a session that may be one of several peers'."""


class NoPeers(Exception):
    """A CONFIG of which the peers can't be read."""


def read_peers(config):
    """By the octets of each peer's address its AS."""
    try:
        with open(config, "rb") as file:
            peers = tomllib.load(file)["peer"]
        peers.sort(key=lambda peer: -peer["number"])    # of several with one address the lowest number is meant
        return {ipaddress.ip_address(peer["address"]).packed: peer["as"] for peer in peers}
    except (OSError, ValueError, KeyError, TypeError, AttributeError) as error:
        raise NoPeers(f"{config}: {error}") from error


class Ends:
    """Hands a dump on; `seen` are all peers of which it told a session, `down` those whose last change of state ends it."""

    def __init__(self, peers):
        self.peers, self.seen, self.down = peers, dict(peers), set()
        self.part, self.is_dump = b"", True

    def take(self, octets):
        """The records that are whole now; of what is no dump all."""
        self.part += octets
        place, found = 0, []
        while self.is_dump and place + RECORD.size <= len(self.part):
            head = RECORD.unpack_from(self.part, place)
            self.is_dump = head[3] <= LONGEST
            end = place + RECORD.size + head[3]
            if not self.is_dump or end > len(self.part):
                break
            found.append(self.record(head, self.part[place:end]))
            place = end
        rest = self.part[place:]
        self.part = rest if self.is_dump else b""
        return b"".join(found) + (b"" if self.is_dump else rest)

    def record(self, head, octets):
        """The record as it is handed on."""
        begin = RECORD.size + WITH_MICROSECONDS.get(head[1], 0)
        form = FORMS.get(head[2])
        place = begin + form.size if form else 0
        if head[1] not in WITH_MICROSECONDS or form is None or len(octets) < place:
            return octets
        asn, _, _, family = form.unpack_from(octets, begin)
        size = ADDRESSES.get(family, 0)
        address, rest = octets[place:place + size], octets[place + 2 * size:]
        if head[2] in MESSAGES:
            if rest[18:19] == UPDATE:
                self.is_up(address, asn)
            return octets
        if not size or len(rest) != STATES.size:
            return octets
        before, after = STATES.unpack(rest)
        if before == ESTABLISHED and not any(address):
            address = self.whose(asn, size)
            octets = octets[:place] + address + octets[place + size:]
        if before == ESTABLISHED:
            self.down.add(address)
        elif after == ESTABLISHED:
            self.is_up(address, asn)
        return octets

    def is_up(self, address, asn):
        self.seen.setdefault(address, asn)
        self.down.discard(address)

    def whose(self, asn, size):
        """The address, of so many octets, of the only peer with the AS that may be up; none where that can't be CONFIG's."""
        found = [address for address, each in self.seen.items()
                 if each == asn and len(address) == size and address not in self.down]
        if not any(each in self.peers for each in found):
            return bytes(size)
        if len(found) > 1:
            peers = ", ".join(str(ipaddress.ip_address(each)) for each in found)
            raise NobodyKnows(f"a session with AS {asn} ended, and the dump doesn't tell whose: one of {peers}")
        return found[0]


def over_dump(config, work):
    """Tells what no dump tells, and answers the status of `work` over the ends of CONFIG's peers, or of what ends it."""
    try:
        ends = Ends(read_peers(config))
        print(UNTOLD, file=sys.stderr, flush=True)
        return work(ends)
    except (NoPeers, NobodyKnows) as error:
        print(error, file=sys.stderr)
        return CANNOT if isinstance(error, NoPeers) else NOBODY_KNOWS
    except BrokenPipeError:
        os.dup2(os.open(os.devnull, os.O_WRONLY), 1)    # what is left to be written goes nowhere
        return ENDED


def hand_on(ends):
    while octets := os.read(0, PIECE):
        sys.stdout.buffer.write(ends.take(octets))
        sys.stdout.buffer.flush()
    sys.stdout.buffer.write(ends.part)
    sys.stdout.buffer.flush()
    return ENDED


def main(config):
    """Hands the dump on until it ends; answers the status."""
    return over_dump(config, hand_on)
