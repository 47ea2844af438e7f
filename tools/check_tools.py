#!/usr/bin/env python3
"""Tries what stands around the program, on the example of the README: tools/verdicts.py, tools/peers.py, the manual
pages, the install.

    tools/check_tools.py [PROGRAM] [--flushes COMMAND,..]

The example's capture is read in each of the orders and formats that there are, counted, split, cut, joined and
drawn, and each wrong input is refused; so is a capture along which rules change. What is expected was read off the
README and off tshark, or is said by `bench/plain.py`. With PROGRAM, or the one that was built, the parts are also
judged anew: their lines are those of the whole; a table of 131,072 rules is judged by; and the commands whose lines
don't wait, or those of --flushes, get an input by a FIFO, piece by piece: what they write of a piece has to be there
before the next one is written. A trial whose tool is missing is skipped with a line. Ends with 1 at the first
difference.
"""

import argparse
import functools
import itertools
import json
import os
import pathlib
import re
import select
import shutil
import struct
import subprocess
import sys
import tempfile
import time
import xml.etree.ElementTree

ROOT = pathlib.Path(__file__).resolve().parent.parent
sys.path.append(str(ROOT / "bench"))

import convert
import moments
import plain
import wire
from wire import CONFIG, DROP, KEEPALIVE, TAPE, announce, capture_of, flow, packet, pcap_record, says, slash24, up

TOOL = ROOT / "tools" / "verdicts.py"
DATA = ROOT / "crates" / "welgutan" / "data"
CAPTURE = (DATA / "packets.pcap").read_bytes()
LINES = (ROOT / "crates" / "welgutan" / "stdout").read_text()
FIRST_SECOND = 1700000000  # the frames come a second apart
MICROS = 1001
FLUSHES = ["changes", "convert", "enforce"]  # the commands that write what they have before they wait for more of their input
PATIENCE = 60  # seconds until a line that isn't there is held to be kept back

# Of each frame: octets on the wire, verdict, rules, source and destination.
FRAMES = [
    (54, "marked", ["v4 1"], "198.51.100.77 192.0.2.10"),
    (54, "discarded", ["v4 1", "v4 2"], "198.51.100.77 192.0.2.10"),
    (54, "discarded", ["v4 2"], "198.51.100.77 192.0.2.20"),
    (54, "passed", [], "198.51.100.77 192.0.2.20"),
    (482, "limited", ["v4 3"], "198.51.100.77 192.0.2.20"),
    (90, "passed", [], "198.51.100.77 192.0.2.20"),
    (98, "discarded", ["v4 4"], "198.51.100.77 192.0.2.20"),
    (54, "redirected", ["v4 5"], "198.51.100.77 203.0.113.5"),
    (62, "limited", ["v6 1"], "2001:db8:2::1 2001:db8:1::5"),
    (42, "unread", ["1"], None),
    (26, "unread", ["2"], None),
]
VERDICTS = ["discarded", "limited", "marked", "passed", "redirected", "unread"]

LISTING = """v4 dst 192.0.2.10/32 proto =6 then control 1 mark 10
v4 dst 192.0.2.0/24 proto =6 dport =25 then bytes 65001:00000000
v4 dst 192.0.2.0/24 proto =17 sport =123 len >=468 then bytes 65001:49742400 control 2
v4 dst 192.0.2.0/24 frag =02 then bytes 65001:00000000
v4 dst 203.0.113.0/24 dport =80 then redirect as2:65002:100
v6 dst 2001:db8:1:0:0:0:0:0/48 proto =58 itype =128 then packets 65001:42c80000
"""
RATES = {"00000000": 0, "49742400": 1000000, "42c80000": 100}


def want(holds, said):
    if not holds:
        sys.exit(f"check_tools: {said}")


def run(*words, status=0):
    """What a tool writes. It has to end with that status."""
    done = subprocess.run([str(word) for word in words], capture_output=True, text=True, check=False)
    want(done.returncode == status, f"{words} ended with status {done.returncode}: {done.stderr}")
    return done.stderr if status else done.stdout


verdicts = functools.partial(run, TOOL)


def plainly(command, folder, *names):
    """What the plain reading says of files."""
    files = {str(folder / name): (folder / name).read_bytes() for name in names}
    status, octets = plain.answer([command, *files], files)
    want(status == 0, f"the plain reading ends {command} of {names} with status {status}")
    return octets.decode()


# The capture in other forms


def records():
    """Seconds, microseconds, captured octets and length on the wire of each record. Each has microseconds of its own,
    so that a wrong unit shows."""
    at = 24
    for number in itertools.count():
        if at == len(CAPTURE):
            return
        seconds, _, captured, length = struct.unpack_from("<IIII", CAPTURE, at)
        yield seconds, number * MICROS, CAPTURE[at + 16:at + 16 + captured], length
        at += 16 + captured


def pcap(order, magic, unit):
    """The capture as a libpcap file of that order, in which a microsecond has so many units."""
    parts = (pcap_record(octets, seconds, micros * unit, length, order) for seconds, micros, octets, length in records())
    return wire.pcap_head(wire.ETHERNET, order, magic) + b"".join(parts)


def pcapng(order):
    """The capture as pcapng, with times in nanoseconds, beside blocks that are no packets and a second interface."""
    nanoseconds = struct.pack(order + "HHB3xHH", 9, 1, 9, 0, 0)
    parts = [wire.section_block(order)]
    parts += [wire.interface_block(link, order, options=nanoseconds) for link in (wire.RAW, wire.ETHERNET)]
    parts += [wire.block(kind, octets, order) for kind, octets in ((4, bytes(4)), (5, bytes(12)), (0x0BAD, b"custom"))]
    parts += [wire.packet_block(octets, seconds * 10**9 + micros * 1000, 1, length, order)
              for seconds, micros, octets, length in records()]
    return b"".join(parts)


FORMS = {
    "micros.pcap": pcap("<", 0xA1B2C3D4, 1), "micros-turned.pcap": pcap(">", 0xA1B2C3D4, 1),
    "nanos.pcap": pcap("<", 0xA1B23C4D, 1000), "nanos-turned.pcap": pcap(">", 0xA1B23C4D, 1000),
    "blocks.pcapng": pcapng("<"), "blocks-turned.pcapng": pcapng(">"),
}


# Trials


def rows_of(keys):
    """The rows of a table: packets and octets of each key, of which a frame has any number."""
    counts = {}
    for (length, *_), found in zip(FRAMES, keys):
        for key in found:
            packets, octets = counts.get(key, (0, 0))
            counts[key] = packets + 1, octets + length
    return {key: [str(packets), str(octets)] for key, (packets, octets) in counts.items()}


def tables_of(report):
    """The tables of a report by their titles: of each key its packets and octets, and the words behind them."""
    tables = {}
    for text in report.split("\n\n")[1:]:
        title, *rows = text.split("\n")
        cells = [(row[:12].strip(), row[12:].split(maxsplit=2)) for row in rows if row]
        tables[title.split()[0]] = {key: found for key, found in cells}
    return tables


def in_decimal(text):
    """The text of a rule as reports have it."""
    return re.sub(r":([0-9a-f]{8})\b", lambda rate: f":{RATES[rate[1]]}/s", text)


def listed(listing):
    return "--list", listing, "--tape", DATA / "sessions.tape"


def counts(folder):
    (folder / "listing").write_text(LISTING)
    expected = {
        "verdict": {**{name: ["0", "0"] for name in VERDICTS}, **rows_of([verdict] for _, verdict, *_ in FRAMES)},
        "rule": rows_of([key for key in keys if " " in key] for _, _, keys, _ in FRAMES),
        "unread": rows_of([key for key in keys if " " not in key] for _, _, keys, _ in FRAMES),
        "second": rows_of([str(FIRST_SECOND + number)] for number in range(len(FRAMES))),
    }
    texts = [in_decimal(line).split(" ", 1)[1] for line in LISTING.splitlines()]
    for name in FORMS:
        tables = tables_of(verdicts(folder / name, folder / "lines", *listed(folder / "listing")))
        for title, rows in expected.items():
            told = {key: found[:2] for key, found in tables[title].items()}
            want(told == rows, f"{name}: the table of each {title} is {told} and not {rows}")
        words = [found[2] for _, found in sorted(tables["rule"].items())]
        want(words == texts, f"{name}: the rules have the words {words}")
    told = verdicts(folder / "micros.pcap", folder / "lines", *listed(folder / "listing"), "--hex")
    want("bytes 65001:1000000/s (49742400) control 2" in told, f"with --hex the rules are told so: {told}")


def line_of(told):
    """The line of `enforce` that a line of JSON was made of."""
    parts = [str(told["number"]), told["verdict"]]
    if told["verdict"] == "unread":
        return " ".join([*parts, str(told["reason"])])
    if told["rules"]:
        parts += ["rules", ",".join(map(str, told["rules"]))]
    for key in ("mark", "redirect"):
        parts += [key, str(told[key])] if key in told else []
    parts += ["sample"] if told.get("sample") else []
    for unit in ("bytes", "packets"):
        parts += itertools.chain.from_iterable((unit, rate) for rate in told.get(unit + "_hex", []))
    return " ".join(parts)


def as_json(folder):
    for name in FORMS:
        lines = verdicts(folder / name, folder / "lines", "--json", "--hex").splitlines()
        told = [json.loads(line, parse_float=str) for line in lines]
        rates = [told[at].get("bytes", told[at].get("packets")) for at in (4, 8)]
        want(rates == [[1000000], [100]], f"{name}: the rates are {rates}")
        want([line_of(packet) for packet in told] == LINES.splitlines(), f"{name}: lines of JSON say something else")
        for number, (packet, (length, _, _, ends)) in enumerate(zip(told, FRAMES)):
            time = f"{FIRST_SECOND + number}.{number * MICROS:06}000"
            want(packet["time"] == time, f"{name}: the time of packet {number + 1}")
            want(packet["octets"] == length, f"{name}: the octets of packet {number + 1}")
            found = f"{packet['source']} {packet['destination']}" if ends else packet.get("source")
            want(found == ends, f"{name}: the addresses of packet {number + 1}")


def enforce(program, capture):
    return run(program, "enforce", DATA / "peers.toml", DATA / "sessions.tape", capture)


def without_numbers(lines):
    return [line.split(" ", 1)[1] for line in lines.splitlines()]


def splits(folder, program):
    for name in FORMS:
        parts = folder / f"split-{name}"
        verdicts(folder / name, folder / "lines", "--split", parts)
        suffix = pathlib.Path(name).suffix
        want(sorted(part.name for part in parts.iterdir()) == [verdict + suffix for verdict in VERDICTS],
             f"{name}: the parts are {sorted(parts.iterdir())}")
        for verdict in VERDICTS if program else []:
            expected = [text for text, frame in zip(without_numbers(LINES), FRAMES) if frame[1] == verdict]
            told = without_numbers(enforce(program, parts / (verdict + suffix)))
            want(told == expected, f"{name}: the packets that are {verdict} have the lines {told}")


def joins(folder, program):
    """The capture cut in two at some places, and each packet by itself."""
    whole = list(records())
    cuts = [[whole[:place], whole[place:]] for place in (0, 1, 6, 11)] + [[[record] for record in whole]]
    lines = LINES.splitlines()
    for parts in cuts:
        names, captures, at = [], [], 0
        for number, part in enumerate(parts):
            names.append(folder / f"part-{number:02}.lines")
            captures.append(cut(folder / f"part-{number:02}.pcap", part))
            texts = [line.split(" ", 1)[1] for line in lines[at:at + len(part)]]
            names[-1].write_text("".join(f"{place} {text}\n" for place, text in enumerate(texts, 1)))
            at += len(part)
            if program:
                want(enforce(program, captures[-1]) == names[-1].read_text(), "the lines of a part")
        told = verdicts("--join", *(f"{name}={capture}" for name, capture in zip(names, captures)))
        want(told == LINES, f"the lines of {len(parts)} parts aren't those of the whole")
    counts_of_parts(folder, names, captures)


def counts_of_parts(folder, names, captures):
    """A part that has fewer lines is told by its name; and reports of parts add up to that of the whole."""
    parts = [f"{name}=1" for name in names]
    want(verdicts("--join", *parts) == LINES, "the lines of parts with counts aren't those of the whole")
    for name, text in ("empty", ""), ("longer", names[3].read_text() + "2 pass\n"):
        (folder / name).write_text(text)
        told = verdicts("--join", *parts[:3], f"{folder / name}={captures[3]}", status=1)
        want(f"{folder / name}: {len(text.splitlines())} lines, of 1 packets" in told, f"of a part it is said: {told}")
    turned = [f"{name}={capture}" for name, capture in zip(names, captures)][::-1]
    told = verdicts("--join", *turned, status=1)
    want(f"{names[-2]}: it begins before" in told, f"of parts in another order it is said: {told}")
    told = verdicts("--join", *names, status=2)
    want("wants of each part" in told, f"of parts without captures it is said: {told}")
    reports = []
    for name, capture in zip(names, captures):
        reports.append(folder / f"{name.stem}.report")
        reports[-1].write_text(verdicts(capture, name))
    whole = folder / "whole.report"
    whole.write_text(verdicts(folder / "example.pcap", folder / "lines"))
    want(verdicts("--sum", *reports) == whole.read_text(), "the sum of the parts' reports isn't the whole's")
    (folder / "wrong").write_text(whole.read_text()[:200])
    told = verdicts("--sum", *reports, folder / "wrong", status=1)
    want("report" in told, f"of a report that isn't whole it is said: {told}")


def cut(path, part):
    frames = (pcap_record(octets, *times, length) for *times, octets, length in part)
    path.write_bytes(CAPTURE[:24] + b"".join(frames))
    return path


def refuses(folder):
    """Wrong inputs, each with words of the sentence that tells of it. None leaves a file."""
    lines = LINES.splitlines(keepends=True)
    wrong = {
        "line 3 isn't a line of `enforce`": lines[:2] + ["3 drop\n"] + lines[3:],
        "line 4 isn't a line of `enforce`": lines[:3] + ["04 pass\n"] + lines[4:],
        "line 5 isn't a line of `enforce`": lines[:4] + lines[5:],
        "line 11 isn't a line of `enforce`": lines[:10] + ["11 unread 2"],
        "line 11 isn't there": lines[:10],
        "line 12 is one too many: the capture has 11 packets": lines + ["12 pass\n"],
    }
    out = folder / "none"
    for said, text in wrong.items():
        (folder / "wrong").write_text("".join(text))
        for name in ("micros.pcap", "blocks.pcapng"):
            found = verdicts(folder / name, folder / "wrong", "--split", out, "--plot", out / "p.svg", status=1)
            want(said in found, f"{name}: of a wrong line it is said: {found}")
            want(not out.exists(), f"{name}: a folder is left where {said}")
    for name, octets in FORMS.items():
        (folder / "cut").write_bytes(octets[:-3])
        found = verdicts(folder / "cut", folder / "lines", "--split", out, status=1)
        want("the capture is cut off" in found and not out.exists(), f"{name}: where it is cut off it is said: {found}")
    (folder / "listing").write_text(LISTING.replace("v6", "v4"))
    found = verdicts(folder / "micros.pcap", folder / "lines", *listed(folder / "listing"), "--split", out, status=1)
    want("has no rule v6 1" in found and not out.exists(), f"of a rule that isn't listed it is said: {found}")
    (folder / "wrong").write_text("".join(wrong["line 3 isn't a line of `enforce`"]))
    found = verdicts("--join", f"{folder / 'lines'}=11", f"{folder / 'wrong'}=11", status=1)
    want(f"{folder / 'wrong'}: line 3 isn't" in found, f"of a part it is said: {found}")


# Rules that change along a capture


MIDDLE, SOME_RATE = bytes([10, 0, 0]), bytes.fromhex("c01008 8006fde949742400")
DROPPED, SLOWED = (f"v4 dst 10.0.0.0/24 then bytes 65001:{rate}" for rate in RATES if rate != "42c80000")
FIRST, LAST = (f"v4 dst {network}/24 then bytes 65001:00000000" for network in ("9.0.0.0", "10.0.1.0"))


def changing(folder):
    """A tape whose rules change at each tenth of a second, and a capture with a packet to two destinations between."""
    other_rate = moments.rule_comes(0).replace(DROP, SOME_RATE)
    steps = [moments.rule_at(moments.before(0)), KEEPALIVE, moments.rule_goes(0), other_rate,
             moments.no_rule_at(moments.before(0)), moments.rule_comes(0)]
    (folder / "peers").write_text(CONFIG)
    parts = [moments.start(2), says(announce(moments.BEFORE), moment=0)]
    parts += [says(step, moment=number * 10**8) for number, step in enumerate(steps, 1)]
    (folder / "moving.tape").write_bytes(b"".join(parts))
    octets = [packet(to + b"\x07", 80) for to in (MIDDLE, bytes([10, 0, 1]))]
    caught = (pcap_record(one, 0, number * 100000 + 50000) for number in range(len(steps) + 1) for one in octets)
    (folder / "moving.pcap").write_bytes(wire.EMPTY_CAPTURE + b"".join(caught))
    (folder / "moving.changes").write_text(plainly("changes", folder, "peers", "moving.tape"))
    (folder / "moving.lines").write_text(plainly("enforce", folder, "peers", "moving.tape", "moving.pcap"))


def resolves(folder):
    """Each packet counts for the rule that had its number then, and --at tells the listing at each moment."""
    changing(folder)
    files = [folder / "moving.pcap", folder / "moving.lines", "--changes", folder / "moving.changes"]
    rows = [row.split(maxsplit=3) for row in verdicts(*files).split("\n\n")[2].splitlines()[1:]]
    told = [(f"{family} {text}", int(packets), int(octets)) for family, packets, octets, text in rows]
    due = [(in_decimal(text), packets, 40 * packets) for text, packets in ((LAST, 7), (DROPPED, 4), (SLOWED, 2))]
    want(told == due, f"along a capture whose rules change they are counted as {told}")
    texts = [json.loads(line)["texts"] for line in verdicts(*files, "--json").splitlines()]
    middle = [[DROPPED]] * 3 + [[]] + [[SLOWED]] * 2 + [[DROPPED]]
    want(texts[::2] == middle and texts[1::2] == [[LAST]] * 7, f"lines of JSON have the rules {texts}")
    first = [], [FIRST]
    lists = [([], [DROPPED, LAST]), (first[1], [DROPPED, LAST]), (first[1], [DROPPED, LAST]), (first[1], [LAST]),
             (first[1], [SLOWED, LAST]), ([], [SLOWED, LAST]), ([], [DROPPED, LAST])]
    for number, (before, rest) in enumerate(lists):
        for moment in (str(number * 10**8), f"0.{number}", str(number * 10**8 + 99999999)):
            told = verdicts("--at", moment, folder / "moving.changes").splitlines()
            want(told == before + rest, f"at {moment} the listing is {told}")


def refuses_changes(folder):
    """A listing beside a tape that goes on, and files of changes that aren't of such a tape."""
    capture, lines = folder / "moving.pcap", folder / "moving.lines"
    (folder / "listing").write_text(plainly("list", folder, "peers", "moving.tape"))
    told = verdicts(capture, lines, "--list", folder / "listing", "--tape", folder / "moving.tape", status=1)
    want("goes on after the first packet" in told, f"of a listing along which rules change it is said: {told}")
    told = verdicts(capture, lines, "--list", folder / "listing", status=2)
    want("--list and --tape go together" in told, f"of a listing without its tape it is said: {told}")
    text = (folder / "moving.changes").read_text()
    wrong = {"line 1 isn't a line of": "x" + text, "line 2 isn't a line of": f"5 + 1 {DROPPED}\n" + text,
             "line 2 doesn't go with": text.replace("0 + 2", "0 + 3"), "has no rule v4 2": text[:text.index("0 + 2")],
             "tells a fault of the tape": text + "tape Cut at 7\n",
             "doesn't go with those before it": text.replace("- 2", "- 1", 1)}
    for said, changes in wrong.items():
        (folder / "wrong").write_text(changes)
        told = verdicts(capture, lines, "--changes", folder / "wrong", "--split", folder / "none", status=1)
        want(said in told and not (folder / "none").exists(), f"where changes are wrong ({said}) it is said: {told}")


# Lines that don't wait


def has_command(program, command, folder):
    (folder / "empty.tape").write_bytes(TAPE)
    words = [folder / "peers", folder / "empty.tape"] + [folder / "micros.pcap"] * (command == "enforce")
    return subprocess.run([program, command, *words], capture_output=True, check=False).returncode != 2


def read_until(stream, octets, count):
    """Reads on until so many octets are there, but no longer than patience lasts."""
    end = time.monotonic() + PATIENCE
    while len(octets) < count and select.select([stream], [], [], max(0, end - time.monotonic()))[0]:
        more = os.read(stream.fileno(), 1 << 16)
        if not more:
            break
        octets += more
    return octets


def streams(folder, command, program, words, pieces, due):
    """Writes the pieces to the FIFO that a command reads, each in two halves; after each so many octets are due."""
    fifo, octets = folder / "fifo", bytearray()
    os.mkfifo(fifo)
    with subprocess.Popen([program, command, *words, fifo], stdout=subprocess.PIPE) as running:
        with open(os.open(fifo, os.O_RDWR), "wb", buffering=0) as out:  # so that it waits for nobody who reads
            for number, (piece, count) in enumerate(zip(pieces, due), 1):
                for half in (piece[:len(piece) // 2], piece[len(piece) // 2:]):
                    out.write(half)
                read_until(running.stdout, octets, count)
                if len(octets) < count:
                    running.kill()
                want(len(octets) >= count, f"{command}: after piece {number} {len(octets)} octets are there of {count}")
        octets += running.stdout.read()
    fifo.unlink()
    want(running.returncode == 0, f"{command} of a FIFO ended with status {running.returncode}")
    return bytes(octets)


def changes_stream(folder, program):
    tape = (folder / "moving.tape").read_bytes()
    ends = [8]
    while ends[-1] < len(tape):
        ends.append(ends[-1] + 15 + int.from_bytes(tape[ends[-1] + 11:ends[-1] + 15], "big"))
    due = []
    for end in ends:
        (folder / "front").write_bytes(tape[:end])
        due.append(len(plainly("changes", folder, "peers", "front")))
    pieces = [tape[begin:end] for begin, end in zip([0, *ends], ends)]
    told = streams(folder, "changes", program, [folder / "peers"], pieces, due)
    want(told == (folder / "moving.changes").read_bytes(), "changes of a FIFO writes something else than of a file")


def blocks_of(octets):
    """The blocks of a pcapng file in the least order of octets."""
    at = 0
    while at < len(octets):
        size = int.from_bytes(octets[at + 4:at + 8], "little")
        yield octets[at:at + size]
        at += size


def enforce_stream(folder, program):
    """Of each packet its line; blocks that are no packets come between."""
    blocks = list(blocks_of(FORMS["blocks.pcapng"]))
    frames = [pcap_record(octets, *times, length) for *times, octets, length in records()]
    lines = [0, *itertools.accumulate(len(line.encode()) for line in LINES.splitlines(keepends=True))]
    for pieces, first in ([CAPTURE[:24], *frames], 1), (blocks, [one[0] for one in blocks].index(6)):
        due = [lines[max(0, number + 1 - first)] for number in range(len(pieces))]
        told = streams(folder, "enforce", program, [DATA / "peers.toml", DATA / "sessions.tape"], pieces, due)
        want(told == LINES.encode(), "enforce of a FIFO writes something else than of a file")


def convert_stream(folder, program):
    """Of each record what `convert` writes of the dump up to it; records of no peer come between."""
    up, down = (struct.pack(">HH", *states) for states in ((5, 6), (6, 1)))
    dumped = [(4, 1, convert.said(0)), (4, 9, convert.said(1)), (5, 2, up), (4, 2, convert.said(2)), (5, 9, down),
              (4, 1, convert.said(3)), (5, 1, down), (4, 3, convert.said(4))]
    pieces = [convert.mrt(1700000000 + number, *record) for number, record in enumerate(dumped)]
    (folder / "dumped").write_text(convert.CONFIG)
    due, whole = [], ""
    for number in range(len(pieces)):
        (folder / "dump").write_bytes(b"".join(pieces[:number + 1]))
        words = [program, "convert", folder / "dumped", folder / "dump"]
        whole = subprocess.run(words, stdout=subprocess.PIPE, check=True).stdout
        due.append(len(whole))
    told = streams(folder, "convert", program, [folder / "dumped"], pieces, due)
    want(told == whole, "convert of a FIFO writes something else than of a file")


def dont_wait(folder, program, commands):
    trials = {"changes": changes_stream, "enforce": enforce_stream, "convert": convert_stream}
    for command in commands:
        if has_command(program, command, folder):
            trials[command](folder, program)
        else:
            print(f"skipped, since the program has no such command: {command}")


# What else is around it


def first_configuration(folder):
    """tools/peers.py writes the configuration by which a dump was made."""
    (folder / "dump").write_bytes(convert.block(FIRST_SECOND))
    told = run(ROOT / "tools" / "peers.py", folder / "dump")
    want(told.replace("\n\n", "\n") == convert.CONFIG, f"tools/peers.py says of a dump: {told}")
    (folder / "dump").write_bytes(b"")
    told = run(ROOT / "tools" / "peers.py", folder / "dump", status=1)
    want(told.startswith("no record of the dump tells of a session"), f"tools/peers.py says of no octets: {told}")


def picture(folder):
    verdicts(folder / "micros.pcap", folder / "lines", "--plot", folder / "picture.svg")
    drawn = xml.etree.ElementTree.parse(folder / "picture.svg").getroot()
    text = "".join(drawn.itertext())
    want(all(name in text for name in VERDICTS), "the picture lacks a verdict")


PAGES = ("welgutan", "welgutan-nft", "welgutan-verdicts")
# Of a page that isn't installed, and of one that tells its version, mandoc has these to say.
UNMINDED = ("referenced manual not found", "operating system explicitly specified")


def manual(folder):
    (folder / "pages").mkdir()
    run(ROOT / "tools" / "man.py", folder / "pages")
    want(sorted(page.stem for page in (folder / "pages").iterdir()) == list(PAGES), "other pages were made")
    for name in PAGES:
        page = folder / "pages" / f"{name}.1"
        done = subprocess.run(["mandoc", "-T", "lint", page], capture_output=True, text=True, check=False)
        told = [line for line in done.stdout.splitlines() if not any(words in line for words in UNMINDED)]
        want(told == [], f"mandoc finds: {told}")
        shown = run("mandoc", "-T", "utf8", page)
        want("tools/" not in shown, f"the page of {name} names a tool by its source")


def make(folder, target, program):
    words = ["make", "-s", "-C", ROOT, target, f"DESTDIR={folder}/dest", "PREFIX=/usr", f"PROGRAM={program}"]
    return subprocess.run([str(word) for word in words], capture_output=True, text=True, check=False)


def files_below(folder):
    return sorted(str(path.relative_to(folder)) for path in folder.rglob("*") if not path.is_dir() or path.is_symlink())


def installed_names():
    """What `make install` puts below its PREFIX."""
    tools = ["captures.py", "nft.py", "verdicts.py"]
    tools += [f"welgutan/{path.name}" for path in (ROOT / "tools" / "welgutan").glob("*.py")]
    docs = ["README.md", "CHANGELOG.md", "SECURITY.md"]
    docs += [f"docs/{path.name}" for path in (ROOT / "docs").iterdir() if path.suffix in (".md", ".svg")]
    return sorted([f"bin/{name}" for name in PAGES] + [f"share/man/man1/{name}.1" for name in PAGES]
                  + [f"share/welgutan/tools/{name}" for name in tools]
                  + [f"share/welgutan/units/{path.name}" for path in (ROOT / "tools" / "units").iterdir()]
                  + ["share/welgutan/grafana/welgutan.json"]
                  + [f"share/doc/welgutan/{name}" for name in docs])


def install(folder):
    program, dest = folder / "program", folder / "dest" / "usr"
    done = make(folder, "install", program)
    want(done.returncode and "run make first" in done.stderr.splitlines()[0] and not dest.exists(),
         f"make install without a program leaves {files_below(folder / 'dest')} and says {done.stderr}")
    program.write_text("#!/bin/sh\n")
    program.chmod(0o755)
    done = make(folder, "install", program)
    want(done.returncode == 0, f"make install ends with {done.returncode}: {done.stderr}")
    found = files_below(dest)
    want(found == installed_names(), f"make install left {found}")
    (folder / "none").write_bytes(b"")
    want(run(dest / "bin" / "welgutan-verdicts", "--at", "0", folder / "none") == "", "the installed welgutan-verdicts")
    words = [dest / "bin" / "welgutan-nft", "eth0"]
    done = subprocess.run(words, input="peer 1 down\n", capture_output=True, text=True, check=False)
    want("table netdev welgutan" in done.stdout, f"the installed welgutan-nft says {done.stderr}")
    make(folder, "uninstall", program)
    want(files_below(dest) == [], f"make uninstall leaves {files_below(dest)}")


def judges_many(folder, program):
    """A table of 131,072 rules isn't too large: a packet meets the last of them."""
    rules = 1 << 17
    parts = [TAPE, up(), says(announce(b"\x07\x0a")), *(says(flow(b"\1" + slash24(number))) for number in range(rules))]
    (folder / "config").write_text(CONFIG)
    (folder / "tape").write_bytes(b"".join(parts))
    (folder / "capture").write_bytes(capture_of([packet(bytes([11, 255, 255, 1]), 80)]))
    lines = run(program, "enforce", *(folder / name for name in ("config", "tape", "capture")))
    want(lines == f"1 discard rules {rules}\n", f"of a packet under {rules} rules it is said: {lines}")


def main():
    built = ROOT / "crates" / "welgutan" / "out" / "welgutan"
    parser = argparse.ArgumentParser(description=__doc__, formatter_class=argparse.RawDescriptionHelpFormatter)
    parser.add_argument("program", type=pathlib.Path, nargs="?", default=built if built.exists() else None)
    parser.add_argument("--flushes", type=lambda text: text.split(","), default=FLUSHES)
    options = parser.parse_args()
    program = options.program and options.program.resolve()
    with tempfile.TemporaryDirectory() as name:
        folder = pathlib.Path(name)
        (folder / "lines").write_text(LINES)
        (folder / "example.pcap").write_bytes(CAPTURE)
        for form, octets in FORMS.items():
            (folder / form).write_bytes(octets)
        for trial in counts, as_json, refuses, resolves, refuses_changes, first_configuration:
            trial(folder)
        splits(folder, program)
        joins(folder, program)
        if program:
            judges_many(folder, program)
            dont_wait(folder, program, options.flushes)
        for tool, trial in (("gnuplot", picture), ("mandoc", manual), ("make", install)):
            if shutil.which(tool):
                trial(folder)
            else:
                print(f"skipped, since {tool} is missing: {trial.__name__}")
    print("the tools say what is expected" + ("" if program else "; the parts weren't judged anew, without a program"))


if __name__ == "__main__":
    main()
