#!/usr/bin/env python3
"""Times `enforce` on a made-up capture and reports packets per second and the peak of memory.

    bench/enforce.py PROGRAM [--mix ports|atk] [--packets N] [--rules N] [--runs N] [--keep DIR]
    bench/enforce.py PROGRAM --instructions [--packets N] [--rules N]

One peer announces 192.0.2.0/24 and flow rules under it, each for one destination port of TCP. Every other packet goes
to the prefix, to a port that is drawn from twice as many as there are rules; the rest go elsewhere. With `--mix atk` the
rules are for one host under attack: reflected UDP by source ports and length, SYN floods, ranges of ports, some by their
source too. Half of the packets are drawn from rules, a quarter miss them by their source, and a quarter go elsewhere. The
draw is the same in each run, so that results compare. With `--instructions` it tells what callgrind counts for a packet.
"""

import argparse
import os
import pathlib
import struct
import sys
import tempfile

from timing import best_of, instructions
from wire import CONFIG, TAPE, announce, flow, ipv4, packet, says, up, write_capture

FIRST_PORT = 1000
ATTACKED = bytes([192, 0, 2, 9])
# Ports from which servers reflect more than they are sent.
REFLECTORS = (17, 19, 53, 111, 123, 137, 161, 389, 520, 1434, 1900, 5353, 11211, 27015)
SERVICES = (22, 25, 53, 80, 443, 8080)


def flow_to(port):
    """Discards TCP to one port of 192.0.2.0/24."""
    return flow(bytes.fromhex("0118c00002 038106 0591") + struct.pack(">H", port))


def tape(rules):
    return tape_of(flow_to(FIRST_PORT + rule) for rule in range(rules))


def tape_of(updates):
    parts = [TAPE, up(), says(announce(bytes([24, 192, 0, 2])))]
    return b"".join(parts + [says(update) for update in updates])


def draws():
    """A linear congruential generator."""
    state = 1
    while True:
        state = (state * 6364136223846793005 + 1442695040888963407) % 2**64
        yield state >> 33


def operators(kind, *pairs):
    """A component of numbers of two octets, each with its operator."""
    codes = [operator | 0x10 for operator, _ in pairs]
    codes[-1] |= 0x80
    return bytes([kind]) + b"".join(struct.pack(">BH", code, number) for code, (_, number) in zip(codes, pairs))


def attack(drawn):
    """A rule for the host under attack; and of a packet that it matches the source, the protocol, the ports and the
    length."""
    low, high, number, port = (next(drawn) for _ in range(4))
    source, protocol, source_port, port = struct.pack(">I", high % 2**32), 17, 1024 + high % 60000, 1 + port % 60000
    length = 60 + low % 1300
    value = b"\x01\x20" + ATTACKED + (b"\x02\x10" + source[:2] if number % 5 < 2 else b"")
    if number % 20 < 9:
        ports = sorted({REFLECTORS[(low + step * high) % len(REFLECTORS)] for step in range(1 + number % 4)})
        source_port = ports[0]
        value += b"\x03\x81\x11" + operators(6, *((1, one) for one in ports)) + operators(10, (3, length))
    elif number % 20 < 15:
        protocol, port = 6, port if low % 2 else SERVICES[high % len(SERVICES)]
        value += b"\x03\x81\x06" + operators(5, (1, port)) + b"\x09\x81\x02"
    else:
        value += b"\x03\x81\x11" + operators(5, (3, port), (0x45, port + low % 4000))
    return value, (source, protocol, source_port, port, length)


def attack_packets(packets, matched):
    drawn = draws()
    for number in range(packets):
        source, *others = matched[next(drawn) % len(matched)]
        if number % 4 > 1:
            source = struct.pack(">I", next(drawn) % 2**32)
        yield ipv4(source, ATTACKED if number % 4 < 3 else source[::-1], *others)


def port_packets(packets, rules):
    drawn = draws()
    for number in range(packets):
        port = FIRST_PORT + next(drawn) % (2 * rules)
        prefix = b"\xc0\x00\x02" if number % 2 == 0 else b"\xcb\x00\x71"
        yield packet(prefix + bytes([next(drawn) % 256]), port)


def attacked(rules):
    """The UPDATEs of so many rules for the host under attack, and of each a packet that it matches."""
    drawn, matched = draws(), {}
    while len(matched) < rules:
        value, fields = attack(drawn)
        matched[value] = fields
    return [flow(value) for value in matched], list(matched.values())


def make(options, folder, packets):
    """Writes configuration, tape and capture, and answers the command over them."""
    (folder / "config").write_text(CONFIG)
    if options.mix == "atk":
        updates, matched = attacked(options.rules)
        (folder / "tape").write_bytes(tape_of(updates))
        write_capture(folder / "capture", attack_packets(packets, matched))
    else:
        (folder / "tape").write_bytes(tape(options.rules))
        write_capture(folder / "capture", port_packets(packets, options.rules))
    return [options.program.resolve(), "enforce", *(folder / name for name in ("config", "tape", "capture"))]


def main():
    parser = argparse.ArgumentParser(description=__doc__.split("\n", 1)[0])
    parser.add_argument("program", type=pathlib.Path)
    parser.add_argument("--mix", choices=("ports", "atk"), default="ports")
    parser.add_argument("--packets", type=int, default=1_000_000)
    parser.add_argument("--rules", type=int, default=100)
    parser.add_argument("--runs", type=int, default=3)
    parser.add_argument("--instructions", action="store_true")
    parser.add_argument("--keep", type=pathlib.Path, help="make the files here and leave them")
    options = parser.parse_args()
    if not 1 <= options.rules <= 64000:
        parser.error("--rules is from 1 to 64000")

    with tempfile.TemporaryDirectory() as name:
        folder = options.keep or pathlib.Path(name)
        folder.mkdir(parents=True, exist_ok=True)
        words = make(options, folder, options.packets)
        if options.instructions:
            many = instructions(words)
            few = instructions(make(options, folder, options.packets // 2))
            each = (many - few) / (options.packets - options.packets // 2)
            print(f"rules {options.rules}, mix {options.mix}: {each:,.0f} instructions a packet")
            return
        best, _, peak = best_of(options.runs, words, folder / "lines")
        text = (folder / "lines").read_bytes()
        size = os.path.getsize(folder / "capture")

    count = text.count(b"\n")
    discarded = text.count(b" discard")
    if count != options.packets:
        sys.exit(f"{count} lines for {options.packets} packets")
    print(f"packets {options.packets}, rules {options.rules}, discarded {discarded}")
    print(f"seconds {best:.3f} (best of {options.runs})")
    print(f"packets per second {options.packets / best:,.0f}, capture MB per second {size / best / 1e6:,.1f}")
    print(f"peak memory {peak / 1024:.1f} MB")


if __name__ == "__main__":
    main()
