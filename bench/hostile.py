#!/usr/bin/env python3
"""Times octets that are made to cost much, each shape at two sizes, and reports how its time grows.

    bench/hostile.py PROGRAM [--runs N] [--scale F] [--only NAME]

For each shape the processor seconds (user and system) of `enforce`, or of the command that the shape is for, over an
input of n and of 2n, less those over none, the least of some runs; and their ratio. Where the time is linear in the octets
the ratio is about 2; one above 2.3 is marked.
"""

import argparse
import pathlib
import struct
import tempfile

import wire
from enforce import attack_packets, attacked, draws, tape_of
from timing import best_of
from wire import (DROP, EMPTY_CAPTURE, HEAD, HOP, LOST, ORIGIN, PATH, TAPE, V4_RULES, attribute, capture_of, frame, packet,
                  pcap_record, reach, record, says, up)

LIMIT = 2.3


def lost(peer):
    return record(LOST, b"", peer)


def update(withdrawn, attributes, announced, peer=1):
    return says(wire.update(withdrawn, attributes, announced), peer)


def announce(prefix, peer=1):
    return says(wire.announce(prefix), peer)


def flow(value, peer=1):
    return says(wire.flow(value), peer)


def host(number):
    """A prefix of 32 bits under 10.0.0.0/8."""
    return bytes([32, 10, number // 65536 % 256, number // 256 % 256, number % 256])


def port(number):
    """The pair of one destination port."""
    return b"\x05\x91" + struct.pack(">H", number % 65536)


def drawn_order(count):
    """The numbers below count, in an order that is the same in each run."""
    drawn = draws()
    return [number for _, number in sorted((next(drawn), number) for number in range(count))]


def peers(count):
    tables = (wire.peer(number, 65001, f"198.51.{number // 256}.{number % 256}") for number in range(1, count + 1))
    return HEAD + "allow_no_destination = true\n" + "".join(tables)


def nested(count):
    """Rules for nested destinations, 16 deep, each under a route of its own."""
    parts = [up(1)]
    for number in range(count):
        length = 17 + number % 16
        bits = (number // 16 % 131072) << 15 | 1
        octets = struct.pack(">I", bits >> (32 - length) << (32 - length))[: (length + 7) // 8]
        parts += [announce(bytes([length]) + octets), flow(b"\x01" + bytes([length]) + octets)]
    return b"".join(parts), EMPTY_CAPTURE


def given_again(count):
    """A wide route that is given again and again, beside as many rules under it."""
    parts = [up(1)] + [flow(bytes([1]) + host(number)) for number in range(count)]
    parts += [announce(bytes([8, 10]))] * count
    return b"".join(parts), EMPTY_CAPTURE


def one_destination(count):
    parts = [up(1), announce(bytes([24, 192, 0, 2]))]
    parts += [flow(bytes([1, 24, 192, 0, 2]) + port(number) + b"\x06\x91" + struct.pack(">H", number // 65536))
              for number in drawn_order(count)]
    return b"".join(parts), EMPTY_CAPTURE


def no_destination(count):
    parts = [up(1)]
    parts += [flow(port(number) + b"\x06\x91" + struct.pack(">H", number // 65536)) for number in drawn_order(count)]
    return b"".join(parts), EMPTY_CAPTURE


def packets_to_one_destination(count):
    """Packets to a host under attack, for which as many rules are."""
    updates, matched = attacked(count)
    return tape_of(updates)[len(TAPE):], capture_of(attack_packets(100000, matched))


def packets_of_no_destination(count):
    """Packets, a quarter of them to a port for which one of as many rules without a destination is."""
    tape, _ = no_destination(count)
    drawn = draws()
    ports = (next(drawn) % (4 * count) for _ in range(100000))
    return tape, capture_of(packet(bytes([192, 0, 2, 1]), port % 65536) for port in ports)


def and_group(count):
    """One rule of one group, which packets fulfil up to its last pair."""
    pairs = b"".join(bytes([0x46, number % 200]) for number in range(count - 1))
    value = bytes([1, 24, 192, 0, 2]) + b"\x05" + b"\x06\xff" + pairs[2:] + bytes([0xC1, 7])
    octets = packet(bytes([192, 0, 2, 1]), 250)
    return b"".join([up(1), announce(bytes([24, 192, 0, 2])), flow(value)]), capture_of([octets] * 200000)


RAW_IPV6 = 229


def header_chains(count):
    """IPv6 packets of chains of destination options."""
    chain = b"\x3c\x00" + bytes(6)
    octets = b"\x60\x00\x00\x00" + struct.pack(">H", min(8 * count + 8, 65535)) + b"\x3c\x40" + bytes(32)
    octets += chain * (count - 1) + b"\x11\x00" + bytes(6) + bytes(8)
    return b"".join([up(1), flow(b"\x03\x81\x06")]), capture_of([octets] * 400, RAW_IPV6)


def never_held(count):
    """Rules that are withdrawn and were never announced, beside some that are held."""
    parts = [up(1)] + [flow(port(number)) for number in range(1000)]
    frames = b""
    for number in range(count):
        frames += frame(bytes([1]) + host(number) + port(number))
        if len(frames) > 3900 or number == count - 1:
            parts.append(update(b"", attribute(15, V4_RULES + frames), b""))
            frames = b""
    return b"".join(parts), EMPTY_CAPTURE


def prefixes_never_held(count):
    """Unicast prefixes that are withdrawn and were never announced, beside some that are held."""
    parts = [up(1)] + [announce(bytes([24, 11, number // 256, number % 256])) for number in range(1000)]
    prefixes = [host(number) for number in range(count)]
    for start in range(0, count, 800):
        parts.append(update(b"".join(prefixes[start : start + 800]), b"", b""))
    return b"".join(parts), EMPTY_CAPTURE


def up_and_lost(count):
    """A peer that comes up and is lost in turn, beside as many rules of another."""
    parts = [up(1)] + [flow(bytes([1]) + host(number)) for number in range(count)]
    parts += [up(2) + lost(2)] * count
    return b"".join(parts), EMPTY_CAPTURE


def peers_in_turn(count):
    """Peers that come up, give a network and a rule, and are lost, one after the other, beside as many rules of another."""
    parts = [up(1)] + [flow(bytes([1]) + host(number)) for number in range(count)]
    for number in range(count):
        peer = 2 + number % 1023
        network = bytes([24, 192, number // 256 % 256, number % 256])
        parts.append(up(peer) + announce(network, peer) + flow(bytes([1]) + network, peer) + lost(peer))
    return b"".join(parts), EMPTY_CAPTURE


def peers_beside_networks(count):
    """Peers that come up, give a network, and are lost, one after the other, beside as many networks of another."""
    parts = [up(1)] + [announce(host(number)) for number in range(count)]
    for number in range(count):
        peer = 2 + number % 1023
        network = bytes([24, 192, number // 256 % 256, number % 256])
        parts.append(up(peer) + announce(network, peer) + lost(peer))
    return b"".join(parts), EMPTY_CAPTURE


def down_and_lost(count):
    """A peer that is down is lost again and again, beside as many rules of another."""
    parts = [up(1)] + [flow(bytes([1]) + host(number)) for number in range(count)]
    parts += [lost(2)] * count
    return b"".join(parts), EMPTY_CAPTURE


def equal_rules(count):
    """The same hundred rules of many peers, all of which are then lost."""
    parts = []
    for peer in range(1, count + 1):
        parts.append(up(peer))
        parts += [flow(port(number), peer) for number in range(100)]
    parts += [lost(peer) for peer in range(1, count + 1)]
    return b"".join(parts), EMPTY_CAPTURE


def one_network(count):
    """Peers that all give one network and one rule for it."""
    parts = []
    for peer in range(1, count + 1):
        parts += [up(peer), announce(bytes([24, 192, 0, 2]), peer), flow(bytes([1, 24, 192, 0, 2]), peer)]
    return b"".join(parts), EMPTY_CAPTURE


def rules_for(network, count):
    """So many rules for one network."""
    to = bytes([1]) + network
    return [flow(to + port(number) + b"\x06\x91" + struct.pack(">H", number // 65536)) for number in range(count)]


def two_paths_in_turn(count):
    """Two paths of one network in turn, with an ORIGIN each, which no validity reads, beside as many rules for it."""
    network = bytes([24, 192, 0, 2])
    incomplete = update(b"", bytes.fromhex("40010102") + (PATH + HOP)[4:], network)
    parts = [up(1)] + rules_for(network, count) + [announce(network), incomplete] * (count // 2)
    return b"".join(parts), EMPTY_CAPTURE


def network_in_turn(count):
    """A network that comes and goes beside as many rules for it, each of which is valid and isn't in turn."""
    network = bytes([24, 192, 0, 2])
    turns = [announce(network), update(network, b"", b"")]
    return b"".join([up(1)] + rules_for(network, count) + turns * (count // 2)), EMPTY_CAPTURE


def routes_under_a_network(count):
    """As many routes under a network as there are rules for it."""
    network = bytes([8, 10])
    parts = [up(1), announce(network)] + rules_for(network, count)
    parts += [announce(host(number)) for number in range(count)]
    return b"".join(parts), EMPTY_CAPTURE


def rules_side_by_side(count):
    """Rules of one destination of which none contains another, each for a port."""
    network = bytes([24, 192, 0, 2])
    return b"".join([up(1), announce(network)] + rules_for(network, count)), EMPTY_CAPTURE


def ranges_side_by_side(count):
    """Rules of one destination of which none contains another, each for a range of ports."""
    network = bytes([24, 192, 0, 2])
    ranges = [struct.pack(">BBHBH", 5, 0x13, 2 * number, 0xD5, 2 * number + 1) for number in range(count)]
    return b"".join([up(1), announce(network)] + [flow(bytes([1]) + network + to) for to in ranges]), EMPTY_CAPTURE


def nothing(count):
    """UPDATEs of nothing beside a few rules."""
    parts = [up(1)] + [flow(port(number)) for number in range(100)]
    return b"".join(parts) + update(b"", b"", b"") * count, EMPTY_CAPTURE


def of_size(part, size):
    """The part again and again, up to the size."""
    return part * (size // len(part))


WELL_KNOWN = (1, 2, 3, 5, 6)
# The types that the program reads, and three that it doesn't.
LONG_TYPES = (1, 2, 3, 5, 8, 9, 14, 15, 16, 255)
# Types of which a long value can be well formed: with the longest one, and with what stands beside it.
LONG_VALUES = {
    2: (of_size(b"\x02\xff" + bytes.fromhex("0000fde9") * 255, 3900), ORIGIN + DROP),
    8: (bytes(3900), PATH + DROP),
    14: (V4_RULES + b"\0\0" + of_size(frame(b"\x03\x81\x06"), 3800), PATH + DROP),
    15: (V4_RULES + of_size(frame(b"\x03\x81\x06"), 3800), PATH + DROP),
    16: (of_size(bytes.fromhex("8006fde900000000"), 3896), PATH),
}


def long_attribute(kind):
    """An UPDATE of one rule with an attribute of this type of nearly 4096 octets."""
    value, beside = LONG_VALUES.get(kind, (bytes(3900), PATH + DROP))
    rule = b"" if kind == 14 else reach(V4_RULES, frame(b"\x03\x81\x06"))
    flags = 0x50 if kind in WELL_KNOWN else 0x90
    return update(b"", rule + beside + attribute(kind, value, flags), b"")


def long_attributes(count):
    """The same rule in UPDATEs with a long attribute each, of every type in turn."""
    return up(1) + b"".join(long_attribute(kind) for kind in range(256)) * (count // 256), EMPTY_CAPTURE


def long_attributes_of(kind):
    return lambda count: (up(1) + long_attribute(kind) * count, EMPTY_CAPTURE)


def long_lists(count):
    """Some hundred admitted rules, each with a list of so many pairs, which are compiled for no packet."""
    pairs = b"".join(bytes([0x01, number % 251]) for number in range(count - 1)) + b"\x81\xff"
    parts = [up(1), announce(bytes([8, 10]))]
    parts += [flow(bytes([1]) + host(number) + b"\x05" + pairs) for number in range(900)]
    return b"".join(parts), EMPTY_CAPTURE


def many_lists(count):
    """As many admitted rules, each with a list of 64 pairs that are no neighbours."""
    pairs = b"".join(b"\x11" + struct.pack(">H", 1000 * (number * 37 % 64)) for number in range(63)) + b"\x91\xff\xff"
    parts = [up(1), announce(bytes([8, 10]))]
    parts += [flow(bytes([1]) + host(number) + b"\x05" + pairs) for number in range(count)]
    return b"".join(parts), EMPTY_CAPTURE


def empty_records(count):
    """Records of a capture without octets."""
    return up(1), EMPTY_CAPTURE + pcap_record(b"", length=65535) * count


def longest_records(count):
    """Records of a capture of 262144 octets."""
    octets = packet(bytes([192, 0, 2, 1]), 25).ljust(262144, b"\0")
    return up(1), EMPTY_CAPTURE + pcap_record(octets) * count


SHAPES = [
    ("nested prefixes", nested, 20000),
    ("a wide route given again", given_again, 3000),
    ("one destination", one_destination, 30000),
    ("no destination", no_destination, 30000),
    ("packets to one destination", packets_to_one_destination, 8000),
    ("packets, rules without a destination", packets_of_no_destination, 8000),
    ("pairs in one group", and_group, 1000),
    ("headers in a chain", header_chains, 4000),
    ("rules withdrawn, never held", never_held, 50000),
    ("prefixes withdrawn, never held", prefixes_never_held, 100000),
    ("a peer up and lost", up_and_lost, 5000),
    ("peers up and lost in turn", peers_in_turn, 5000),
    ("peers in turn beside networks", peers_beside_networks, 10000),
    ("a peer down, lost again", down_and_lost, 5000),
    ("peers with equal rules", equal_rules, 512),
    ("peers with one network", one_network, 512),
    ("two paths of one network in turn", two_paths_in_turn, 4000),
    ("a network that comes and goes", network_in_turn, 4000),
    ("routes under a network", routes_under_a_network, 4000),
    ("pairs of rules in shadow", rules_side_by_side, 8000),
    ("pairs of ranges in shadow", ranges_side_by_side, 2000),
    ("UPDATEs of nothing", nothing, 400000),
    ("long attributes of every type", long_attributes, 5120),
    *((f"long attributes of type {kind}", long_attributes_of(kind), 5000) for kind in LONG_TYPES),
    ("lists of many pairs, compiled", long_lists, 1000),
    ("many lists of pairs, compiled", many_lists, 5000),
    ("records without octets", empty_records, 400000),
    ("the longest records", longest_records, 200),
]


# Shapes that are played by another command than `enforce`, which reads no capture.
COMMANDS = {"pairs of rules in shadow": "shadow", "pairs of ranges in shadow": "shadow"}

# Shapes whose twice the size is the largest that there is.
OF_ONE_SIZE = (
    "pairs in one group",
    "headers in a chain",
    "peers with equal rules",
    "peers with one network",
    "lists of many pairs, compiled",
)


def seconds_of(program, folder, made, runs, command="enforce"):
    tape, capture = made
    (folder / "tape").write_bytes(TAPE + tape)
    (folder / "capture").write_bytes(capture)
    names = ("config", "tape", "capture") if command == "enforce" else ("config", "tape")
    return best_of(runs, [program, command, *(folder / name for name in names)]).processor


def main():
    parser = argparse.ArgumentParser(description=__doc__.split("\n", 1)[0])
    parser.add_argument("program", type=pathlib.Path)
    parser.add_argument("--runs", type=int, default=3)
    parser.add_argument("--scale", type=float, default=1.0)
    parser.add_argument("--only", default="")
    options = parser.parse_args()
    program = str(options.program.resolve())
    with tempfile.TemporaryDirectory() as name:
        folder = pathlib.Path(name)
        (folder / "config").write_text(peers(1024))
        without = seconds_of(program, folder, (b"", EMPTY_CAPTURE), options.runs)
        for shape, make, size in SHAPES:
            if options.only not in shape:
                continue
            size = size if shape in OF_ONE_SIZE else max(int(size * options.scale), 2)
            command = COMMANDS.get(shape, "enforce")
            one, two = (
                max(seconds_of(program, folder, make(count), options.runs, command) - without, 1e-4)
                for count in (size, 2 * size)
            )
            mark = "" if two <= LIMIT * one else ", above the limit"
            print(f"{shape}: {one:.3f} s at {size}, {two:.3f} s at {2 * size}, ratio {two / one:.2f}{mark}", flush=True)


if __name__ == "__main__":
    main()
