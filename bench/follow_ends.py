"""Tries `tools/nft.py --with-ends`: the ends of sessions that a dump tells without an address.

A part of `follow.py`, which says what it is for.
"""

import random
import socket
import struct
import subprocess
import tempfile

from follow_command import COMMAND, want
from peer import KEEPALIVE, message

FIRST, SECOND, TWIN, SIXTH = "192.0.2.1", "192.0.2.2", "192.0.2.3", "2001:db8::6"
PEERS = {FIRST: 65001, SECOND: 65002, TWIN: 65002, SIXTH: 65002}
STRANGER, FELLOW = "192.0.2.8", "192.0.2.9"     # whom CONFIG doesn't have
ASES = PEERS | {STRANGER: 65008, FELLOW: 65001}
CONFIG = "".join(f'[[peer]]\nnumber = {number}\naddress = "{address}"\nas = {asn}\n'
                 for number, (address, asn) in enumerate(PEERS.items(), 1))
NOWHERE, NOWHERE6 = "0.0.0.0", "::"
UP, DOWN = struct.pack(">HH", 5, 6), struct.pack(">HH", 6, 1)
UPDATE = message(2, bytes(4))


def record(address, asn, content, kind=16):
    """A BGP4MP record, of four octets an AS, of a change of state or of a message."""
    is_six = ":" in address
    family = socket.AF_INET6 if is_six else socket.AF_INET
    body = bytes(4) * (kind == 17) + struct.pack(">IIHH", asn, 65000, 0, 2 if is_six else 1)
    body += socket.inet_pton(family, address) + bytes(16 if is_six else 4) + content
    return struct.pack(">IHHI", 7, kind, 5 if len(content) == 4 else 4, len(body)) + body


def handed_on(config, dump, pieces=()):
    """The status, and what is handed on of a dump that comes in such pieces."""
    with subprocess.Popen([*COMMAND, "--with-ends", config], stdin=subprocess.PIPE, stdout=subprocess.PIPE,
                          stderr=subprocess.PIPE) as running:
        for begin, end in zip((0, *pieces), (*pieces, len(dump))):
            running.stdin.write(dump[begin:end])
            running.stdin.flush()
        out, err = running.communicate()
    want(b"has to be said again" in err, f"it isn't told what a dump lacks: {err}")
    return running.returncode, out


ENDS = {    # records, and the address under which the last one, without an address, is handed on; None where nobody knows
    "the one peer of its AS": ([(FIRST, UP)], NOWHERE, 65001, FIRST),
    "a peer of which nothing came": ([], NOWHERE, 65001, FIRST),
    "the peer of its family": ([(SECOND, UP), (TWIN, UP)], NOWHERE6, 65002, SIXTH),
    "one of two, of which the other is down": ([(SECOND, UP), (TWIN, UP), (TWIN, DOWN)], NOWHERE, 65002, SECOND),
    "one of two that are up": ([(SECOND, UP), (TWIN, UP)], NOWHERE, 65002, None),
    "one of two that are up again": ([(TWIN, DOWN), (SECOND, UP), (TWIN, UP)], NOWHERE, 65002, None),
    "one of two of which one spoke on": ([(TWIN, DOWN), (TWIN, UPDATE)], NOWHERE, 65002, None),
    "one of two of which one knocks": ([(TWIN, DOWN), (TWIN, KEEPALIVE)], NOWHERE, 65002, SECOND),
    "nobody of that AS": ([(FIRST, UP)], NOWHERE, 65009, NOWHERE),
    "a stranger": ([(STRANGER, UP), (FIRST, UP)], NOWHERE, 65008, NOWHERE),
    "nobody, since the peer is down": ([(FIRST, UP), (FIRST, DOWN)], NOWHERE, 65001, NOWHERE),
    "a peer or a stranger of its AS": ([(FIRST, UP), (FELLOW, UP)], NOWHERE, 65001, None),
    "a peer, since the stranger of its AS is down": ([(FELLOW, UP), (FELLOW, DOWN)], NOWHERE, 65001, FIRST),
}


def try_ends(_):
    draw = random.Random("ends")
    with tempfile.NamedTemporaryFile("w") as config:
        config.write(CONFIG)
        config.flush()
        for name, (before, nowhere, asn, address) in ENDS.items():
            for kind in (16, 17):
                dump = b"".join(record(each, ASES[each], content, kind) for each, content in before)
                wanted = (0, dump + record(address, asn, DOWN, kind)) if address else (3, b"")
                found = handed_on(config.name, dump + record(nowhere, asn, DOWN, kind))
                want(found == wanted, f"the end of {name}: {found} and not {wanted}")
        dump = b"".join(record(FIRST, 65001, UPDATE) + record(NOWHERE, 65001, DOWN, 17) + record(SIXTH, 65002, UP)
                        for _ in range(20))
        wanted = 0, dump.replace(record(NOWHERE, 65001, DOWN, 17), record(FIRST, 65001, DOWN, 17))
        for _ in range(5):
            pieces = sorted(draw.sample(range(len(dump)), 20))
            want(handed_on(config.name, dump, pieces) == wanted, f"a dump in pieces {pieces}")
        for other in (dump[:-1], draw.randbytes(3000), b"FSTAPE1\n" + bytes(100), record(FIRST, 65001, b"\0")):
            want(handed_on(config.name, other)[1][:4] == other[:4] and len(handed_on(config.name, other)[1]) == len(other),
                 "what is cut, or no dump, isn't handed on")
    print(f"{len(ENDS)} ends of sessions without an address are those of their peers, or end the run", flush=True)
