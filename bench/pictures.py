#!/usr/bin/env python3
"""Draws the pictures of docs/: verdicts over time, packets a second by the number of rules, and the load of rules.

    bench/pictures.py PROGRAM [--only NAME] [--packets N] [--rules N,N,..] [--filters N,N,..] [--runs N]
                      [--into FOLDER]

`verdicts` is a capture of five minutes, drawn by a seed, under an attack that begins and ends, with a tape whose rules
come and go; tools/verdicts.py draws it. `speed` has packets per processor second of `enforce` and of tcpdump, on the
same packets, by rules that discard a destination each and by a filter that drops the same, without the time that a run
over no packet takes. `load` has the seconds and the memory of a tape with so many rules, each beside a unicast route.
Figures are printed as they are measured. A picture whose tool, gnuplot or tcpdump, is missing is skipped with a line.
"""

import argparse
import pathlib
import random
import shutil
import struct
import subprocess
import sys
import tempfile

import moments
from changes import START, with_rules
from load import spent
from timing import best_of
from wire import CONFIG, EMPTY_CAPTURE, TIMED_TAPE, announce, flow, no_flow, pcap_record, says, slash24, up

ROOT = pathlib.Path(__file__).resolve().parent.parent
DOCS = ROOT / "docs"

# The attack: seconds of the capture, and packets a second.
BEGIN = 1699999200  # 22:00 UTC
MINUTES = 5
ORDINARY = 300
FLOODS = {  # the first and the last second, and the packets of a second
    "reflection": (60, 230, 1500),
    "connections": (110, 250, 700),
}

# The rules: the second in which each comes and in which it goes, its NLRI, and the extended communities.
DESTINATION = bytes.fromhex("01 20 c000020a")  # 192.0.2.10/32
ALL_FROM_123 = DESTINATION + bytes.fromhex("03 81 11 06 81 7b")
LARGE_FROM_123 = ALL_FROM_123 + bytes.fromhex("0a 93 01d4")
OPENINGS = DESTINATION + bytes.fromhex("03 81 06 05 91 01bb 09 81 02")
RATE = bytes.fromhex("8006 fde9 46c35000")  # 25,000 octets a second
DROP = bytes.fromhex("8006 fde9 00000000")
RULES = [
    (80, 120, ALL_FROM_123, RATE),
    (120, 270, LARGE_FROM_123, DROP),
    (150, 270, OPENINGS, DROP),
]

STYLE = """set terminal svg size 900,400 dynamic background '#ffffff' font 'sans-serif,13'
set key top right
set tics out nomirror
set border 3
set logscale x
set format x '10^{%T}'
set xlabel 'rules'
"""


def draw(script, path):
    """Draws a picture, which is left as it was if gnuplot fails."""
    with tempfile.TemporaryDirectory() as made:
        file = pathlib.Path(made) / path.name
        subprocess.run(["gnuplot"], input=f"{STYLE}set output '{file}'\n{script}", text=True, check=True)
        shutil.copyfile(file, path)


# Verdicts over time


def udp(source, port, length):
    head = struct.pack(">BBHHHBBH", 0x45, 0, length, 0, 0, 60, 17, 0) + source + bytes([192, 0, 2, 10])
    return head + struct.pack(">HHHH", port, 40000, length - 20, 0)


def tcp(source, host, flags):
    head = struct.pack(">BBHHHBBH", 0x45, 0, 40, 0, 0, 60, 6, 0) + source + bytes([192, 0, 2, host])
    return head + struct.pack(">HHIIBBHHH", 40000, 443, 1, 1, 0x50, flags, 65535, 0, 0)


def second_of(number, drawn):
    """The packets of a second: what comes on any day, and what of the floods comes then."""
    counts = {"ordinary": drawn.randint(ORDINARY * 4 // 5, ORDINARY * 6 // 5)}
    for flood, (first, last, rate) in FLOODS.items():
        strength = max(0.0, min(1.0, (number - first) / 10, (last - number) / 10))
        counts[flood] = int(rate * strength * drawn.uniform(0.9, 1.1))
    makers = {
        "ordinary": lambda source: tcp(source, drawn.randint(1, 20), 0x10),
        "reflection": lambda source: udp(source, 123, 468),
        "connections": lambda source: tcp(source, 10, 0x02),
    }
    packets = [makers[kind](drawn.randbytes(4)) for kind, count in counts.items() for _ in range(count)]
    drawn.shuffle(packets)
    return packets


def write_attack(path, drawn):
    with open(path, "wb") as out:
        out.write(EMPTY_CAPTURE)
        for number in range(60 * MINUTES):
            packets = second_of(number, drawn)
            for place, octets in enumerate(packets):
                micros = place * 1000000 // len(packets)
                length = struct.unpack(">H", octets[2:4])[0]
                out.write(pcap_record(octets, BEGIN + number, micros, length))


def changes_of(rule):
    """The UPDATEs with which a rule comes and goes, each with its second."""
    comes, goes, value, community = rule
    yield comes, flow(value, bytes.fromhex("c010 08") + community)
    yield goes, no_flow(value)


def attack_tape():
    parts = [TIMED_TAPE, up(moment=0), says(announce(bytes([24, 192, 0, 2])), moment=0)]
    changes = [change for rule in RULES for change in changes_of(rule)]
    for second, update in sorted(changes, key=lambda change: change[0]):
        parts.append(says(update, moment=(BEGIN + second) * 10**9))
    return b"".join(parts)


def verdicts(options, folder):
    write_attack(folder / "capture", random.Random(1))
    (folder / "tape").write_bytes(attack_tape())
    words = [str(folder / name) for name in ("config", "tape", "capture")]
    with open(folder / "lines", "wb") as lines:
        subprocess.run([options.program, "enforce", *words], stdout=lines, check=True)
    told = subprocess.run(
        [ROOT / "tools" / "verdicts.py", folder / "capture", folder / "lines", "--plot", options.into / "verdicts.svg"],
        stdout=subprocess.PIPE, text=True, check=True).stdout
    print(told.split("\n\nrule")[0], flush=True)


# Speed beside tcpdump


def rate(words, options, folder):
    """Packets a second of a command whose word CAPTURE stands for the packets, and then for none."""
    with_packets, without = (
        best_of(options.runs, [folder / name if word == "CAPTURE" else word for word in words]).processor
        for name in ("capture", "empty"))
    return options.packets / max(with_packets - without, 1e-9)


def filter_of(rules):
    nets = (".".join(map(str, slash24(number)[1:])) for number in range(rules))
    return "not (" + " or ".join(f"dst net {net}.0/24" for net in nets) + ")"


def compare(enforce, tcpdump, packets, folder):
    """Whether tcpdump keeps what `enforce` doesn't discard. In the file each has 16 octets in front of 40."""
    words = [[str(folder / "capture") if word == "CAPTURE" else word for word in words] for words in (enforce, tcpdump)]
    lines = subprocess.run(words[0], stdout=subprocess.PIPE, check=True).stdout
    subprocess.run(words[1], stderr=subprocess.DEVNULL, check=True)
    kept = ((folder / "kept").stat().st_size - 24) // 56
    if lines.count(b" discard") + kept != packets:
        sys.exit(f"enforce discards {lines.count(b' discard')} of {packets} packets, and tcpdump keeps {kept}")


def speed(options, folder):
    (folder / "empty").write_bytes(EMPTY_CAPTURE)
    enforce = [options.program, "enforce", str(folder / "config"), str(folder / "tape"), "CAPTURE"]
    tcpdump = ["tcpdump", "-r", "CAPTURE", "-w", str(folder / "kept"), "-F", str(folder / "filter")]
    told = {"enforce": [], "tcpdump": []}
    for rules in options.rules:
        moments.capture(folder / "capture", options.packets, rules)
        (folder / "tape").write_bytes(with_rules(rules))
        told["enforce"].append((rules, rate(enforce, options, folder)))
        if rules in options.filters:
            (folder / "filter").write_text(filter_of(rules))
            told["tcpdump"].append((rules, rate(tcpdump, options, folder)))
            compare(enforce, tcpdump, options.packets, folder)
        figures = ", ".join(f"{name} {row[-1][1]:,.0f}" for name, row in told.items() if row[-1][0] == rules)
        print(f"{rules} rules, packets a second: {figures}", flush=True)
    draw_speed(told, options.into / "speed.svg")


def draw_speed(told, path):
    curves = ", ".join(f"$data index {number} using 1:($2/1e6) with linespoints lw 2 pt 7 title '{name}'"
                       for number, name in enumerate(told))
    data = "\n\n\n".join("\n".join(f"{rules} {packets}" for rules, packets in rows) for rows in told.values())
    draw(f"""$data << end
{data}
end
set logscale y
set format y '%g'
set ylabel 'million packets a second'
plot {curves}
""", path)


# Load


def load(options, folder):
    (folder / "capture").write_bytes(EMPTY_CAPTURE)
    seconds, octets = spent(options.program, folder, b"".join(START), options.runs)
    rows = []
    for rules in (size for size in options.rules if size >= 1000):
        found = spent(options.program, folder, with_rules(rules), options.runs)
        rows.append((rules, found[0] - seconds, found[1] - octets))
        print(f"{rules} rules: loaded in {rows[-1][1]:.3f} s, {rows[-1][2] / 1e6:.1f} MB", flush=True)
    data = "\n".join(f"{rules} {took} {memory / 1e6}" for rules, took, memory in rows)
    draw(f"""$data << end
{data}
end
set xrange [{rows[0][0]}:{rows[-1][0]}]
set logscale y
set y2tics out
set logscale y2
set format y '%g'
set format y2 '%g'
set border 11
set key top left
set ylabel 'seconds'
set y2label 'megabytes'
plot $data using 1:2 with linespoints lw 2 pt 7 title 'seconds', \\
     $data using 1:3 axes x1y2 with linespoints lw 2 pt 5 title 'megabytes'
""", options.into / "load.svg")


PICTURES = {"verdicts": (verdicts, ["gnuplot"]), "speed": (speed, ["gnuplot", "tcpdump"]), "load": (load, ["gnuplot"])}


def numbers(text):
    return [int(word) for word in text.split(",")]


def main():
    parser = argparse.ArgumentParser(description=__doc__.split("\n", 1)[0])
    parser.add_argument("program", type=pathlib.Path)
    parser.add_argument("--only", choices=PICTURES, action="append")
    parser.add_argument("--into", type=pathlib.Path, default=DOCS)
    parser.add_argument("--packets", type=int, default=1_000_000)
    parser.add_argument("--rules", type=numbers, default=[10**power for power in range(7)])
    parser.add_argument("--filters", type=numbers, default=[1, 10, 100, 1000])
    parser.add_argument("--runs", type=int, default=3)
    options = parser.parse_args()
    options.program = str(options.program.resolve())
    for name in options.only or PICTURES:
        picture, tools = PICTURES[name]
        missing = [tool for tool in tools if shutil.which(tool) is None]
        if missing:
            print(f"skipped, since {' and '.join(missing)} is missing: the picture of {name}")
            continue
        with tempfile.TemporaryDirectory() as made:
            folder = pathlib.Path(made)
            (folder / "config").write_text(CONFIG)
            picture(options, folder)


if __name__ == "__main__":
    main()
