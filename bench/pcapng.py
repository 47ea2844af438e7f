#!/usr/bin/env python3
"""Times `enforce` on the same packets as a libpcap and as a pcapng capture, and compares the lines.

    bench/pcapng.py PROGRAM [--packets N] [--rules N] [--runs N] [--keep DIR]

The rules are those of bench/enforce.py, and so are the packets, with up to 66 octets behind each, so that not all are
padded alike. Both captures are read in turn, in one run. Reported are packets per second of a processor, the peak of
memory of each, and the ratio.
"""

import argparse
import pathlib
import sys
import tempfile

from enforce import port_packets, tape
from timing import best_of
from wire import CONFIG, EMPTY_CAPTURE, interface_block, packet_block, pcap_record, section_block


def captures(folder, packets, rules):
    """The same packets, one millisecond apart, in both formats."""
    with open(folder / "pcap", "wb") as pcap, open(folder / "pcapng", "wb") as pcapng:
        pcap.write(EMPTY_CAPTURE)
        pcapng.write(section_block() + interface_block())
        for number, octets in enumerate(port_packets(packets, rules)):
            octets += bytes(number % 67)
            pcap.write(pcap_record(octets, number // 1000, number % 1000 * 1000))
            pcapng.write(packet_block(octets, number * 1000))


def main():
    parser = argparse.ArgumentParser(description=__doc__.split("\n", 1)[0])
    parser.add_argument("program", type=pathlib.Path)
    parser.add_argument("--packets", type=int, default=1_000_000)
    parser.add_argument("--rules", type=int, default=100)
    parser.add_argument("--runs", type=int, default=5)
    parser.add_argument("--keep", type=pathlib.Path, help="make the files here and leave them")
    options = parser.parse_args()
    if not 1 <= options.rules <= 64000:
        parser.error("--rules is from 1 to 64000")

    with tempfile.TemporaryDirectory() as made:
        folder = options.keep or pathlib.Path(made)
        folder.mkdir(parents=True, exist_ok=True)
        (folder / "config").write_text(CONFIG)
        (folder / "tape").write_bytes(tape(options.rules))
        captures(folder, options.packets, options.rules)
        best = {}
        for _ in range(options.runs):
            for form in ("pcap", "pcapng"):
                words = [options.program.resolve(), "enforce", *(folder / name for name in ("config", "tape", form))]
                told = best_of(1, words, folder / f"{form}.lines")
                best[form] = min(best.get(form, told), told, key=lambda taken: taken.processor)
        lines = [(folder / f"{form}.lines").read_bytes() for form in ("pcap", "pcapng")]

    if lines[0] != lines[1]:
        sys.exit("the lines differ")
    print(f"packets {options.packets}, rules {options.rules}, discarded {lines[0].count(b' discard')}")
    for form, (seconds, processor, peak) in best.items():
        print(
            f"{form}: seconds {seconds:.3f}, of a processor {processor:.3f} (best of {options.runs}), "
            f"packets per second {options.packets / processor:,.0f}, peak memory {peak / 1024:.1f} MB"
        )
    print(f"pcapng beside pcap: {best['pcap'].processor / best['pcapng'].processor:.2f}")


if __name__ == "__main__":
    main()
