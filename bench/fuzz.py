#!/usr/bin/env python3
"""Gives the tools wrong captures, lines, listings, tapes, changes, reports and dumps, and looks how they end.

    bench/fuzz.py [--seconds N] [--seed N] [--only K]

First come inputs that are known to be hard: a block that claims two gigabytes, a line that doesn't end, a number of
5,000 digits, a block of a kind that isn't read. Then files of `tools/check_tools.py` are drawn and changed in a few
places each. A tool has to end by itself, with one of its statuses and without a traceback, and take at most 300 MB and,
but for the hard ones, five seconds of the processor. The first other end is told with its number, which --only repeats,
and its files are left; the status is 1 then.
"""

import argparse
import os
import pathlib
import random
import shutil
import struct
import subprocess
import sys
import tempfile
import time

ROOT = pathlib.Path(__file__).resolve().parent.parent
sys.path.append(str(ROOT / "tools"))

import check_tools
import convert

VERDICTS, NFT, PEERS = (str(ROOT / "tools" / name) for name in ("verdicts.py", "nft.py", "peers.py"))
MOST_MEMORY, MOST_SECONDS, PATIENCE = 300_000, 5, 120      # kilobytes, processor seconds, seconds
STATUSES = (0, 1, 2, 3)

# The words of each tool, and of them the files that may be wrong.
WAYS = [
    [VERDICTS, "CAPTURE", "LINES"],
    [VERDICTS, "CAPTURE", "LINES", "--json", "--hex"],
    [VERDICTS, "CAPTURE", "LINES", "--split", "FOLDER"],
    [VERDICTS, "CAPTURE", "LINES", "--list", "LISTING", "--tape", "TAPE"],
    [VERDICTS, "MOVING", "MOVED", "--changes", "CHANGES"],
    [VERDICTS, "MOVING", "MOVED", "--changes", "CHANGES", "--json"],
    [VERDICTS, "--at", "300000000", "CHANGES"],
    [VERDICTS, "--join", "LINES=CAPTURE", "LINES=CAPTURE"],
    [VERDICTS, "--sum", "REPORT", "REPORT"],
    [NFT, "eth0", "--check", "<RULES"],
    [NFT, "--with-ends", "CONFIG", "<DUMP"],
    [PEERS, "DUMP"],
]


def seeds(folder):
    """The right files by their names, of which a capture has several forms."""
    (folder / "lines").write_text(check_tools.LINES)
    check_tools.changing(folder)
    moved = [folder / f"moving.{name}" for name in ("pcap", "lines", "changes")]
    report = check_tools.verdicts(*moved[:2], "--changes", moved[2])
    rules = "peer 1 established\nv4 1 0801c00002038106 peer 1 actions 8006fde900000000\n"
    rules += "v4 invalid 03058150 peer 1 LeftAs\n"
    read = {name: (folder / f"moving.{name}").read_bytes() for name in ("pcap", "lines", "changes")}
    dump = b"".join(convert.mrt(1, *told) for each in (1, 2)
                    for told in ((4, each, convert.said(each)), (5, each, b"\0\6\0\1")))
    return {"CAPTURE": list(check_tools.FORMS.values()), "LINES": [check_tools.LINES.encode()],
            "LISTING": [check_tools.LISTING.encode()], "TAPE": [(check_tools.DATA / "sessions.tape").read_bytes()],
            "MOVING": [read["pcap"]], "MOVED": [read["lines"]], "CHANGES": [read["changes"]],
            "REPORT": [report.encode()], "RULES": [rules.encode()], "DUMP": [dump],
            "CONFIG": [convert.CONFIG.encode()]}


def wrong(draw, octets):
    """The octets with some of them changed, left out, doubled, or in the place of others that are no such thing."""
    for _ in range(draw.choice([0, 1, 1, 1, 2, 4])):
        at = draw.randrange(len(octets) + 1)
        size = draw.choice([0, 1, 1, 2, 4, 4, 60])
        number = struct.pack("<I", draw.choice([2**31 - 4, 2**32 - 4, 12, 0]))
        new = draw.choice([b"", octets[at:at + size] * draw.choice([2, 3, 200]), bytes(size), b"\xff" * size, b"\n",
                           b"9" * 5000, draw.randbytes(size), b" " * size, number])
        octets = octets[:at] + new + octets[at + size:]
    return octets[:draw.randrange(len(octets) + 1)] if draw.random() < 0.1 else octets


def block(kind, total):
    """The head of a pcapng block that claims so many octets, after a section and two interfaces; zeros follow."""
    front = b"".join(list(check_tools.blocks_of(check_tools.FORMS["blocks.pcapng"]))[:3])
    return front + struct.pack("<II", kind, total), len(front) + total


def hard_ones():
    """Hard files by a name for each: what stands in the place of which file of which way."""
    rest = check_tools.LINES.encode().split(b"\n", 1)[1]
    yield "a number of 5,000 digits", 0, {"LINES": b"1 pass rules " + b"9" * 5000 + b"\n" + rest}
    yield "a mark of 5,000 digits", 0, {"LINES": b"1 pass mark " + b"9" * 5000 + b"\n" + rest}
    yield "a line that doesn't end", 0, {"LINES": "/dev/zero"}
    yield "a listing's line that doesn't end", 3, {"LISTING": "/dev/zero"}
    yield "a change's line that doesn't end", 6, {"CHANGES": "/dev/zero"}
    yield "a change at 5,000 digits", 6, {"CHANGES": b"9" * 5000 + b" + 1 v4 x\n"}
    yield "a report's line that doesn't end", 8, {"REPORT": "/dev/zero"}
    yield "a capture that doesn't end", 0, {"CAPTURE": "/dev/zero"}
    for kind in (1, 4, 6, 3, 0x0BAD):
        yield f"a block of kind {kind} that claims two gigabytes", 0, {"CAPTURE": block(kind, 2**31 - 4)}
    yield "a tape that doesn't end", 3, {"TAPE": "/dev/zero"}
    endless = struct.pack(">IHHI", 1, 16, 4, 2**32 - 1) + bytes(100)
    for way in 10, 11:
        yield "a record that claims four gigabytes", way, {"DUMP": endless}
    yield "a number of 5,000 digits in a configuration", 10, {"CONFIG": b"peer = [{ number = " + b"9" * 5000 + b" }]\n"}


def run(folder, words):
    """The status, what is said, the kilobytes and the processor seconds of a run."""
    (folder / "FOLDER").mkdir(exist_ok=True)
    given = [word for word in words if word[0] != "<"]
    source = next((folder / word[1:] for word in words if word[0] == "<"), os.devnull)
    with open(source, "rb") as standard, open(folder / "said", "w+b") as said:
        child = subprocess.Popen([sys.executable, *given], cwd=folder, stdin=standard, stdout=subprocess.DEVNULL,
                                 stderr=said)
        end = time.monotonic() + PATIENCE
        while (found := os.wait4(child.pid, os.WNOHANG))[0] == 0:
            if time.monotonic() > end:
                child.kill()
            time.sleep(0.002)
        child.returncode = os.waitstatus_to_exitcode(found[1])
        said.seek(0)
        text = said.read(1 << 20).decode(errors="replace")
    shutil.rmtree(folder / "FOLDER")
    return child.returncode, text, found[2].ru_maxrss, found[2].ru_utime + found[2].ru_stime


def ends_wrongly(ended, is_hard):
    status, said, memory, seconds = ended
    if status not in STATUSES or "Traceback" in said:
        return f"status {status}: {said[-600:]}"
    if memory > MOST_MEMORY or seconds > (PATIENCE if is_hard else MOST_SECONDS):
        return f"{memory} kilobytes and {seconds:.1f} seconds"
    return None


def put(folder, name, octets):
    path = folder / name
    path.unlink(missing_ok=True)
    if isinstance(octets, str):
        path.symlink_to(octets)
    elif isinstance(octets, tuple):     # what it begins with, and its size
        path.write_bytes(octets[0])
        os.truncate(path, octets[1])
    else:
        path.write_bytes(octets)


def failed(folder, number, words, told):
    left = pathlib.Path(tempfile.mkdtemp(prefix="fuzz-"))
    shutil.copytree(folder, left, symlinks=True, dirs_exist_ok=True)
    sys.exit(f"fuzz: {number}: {' '.join(words[1:])}: {told}\nthe files are in {left}")


def try_hard_ones(folder, right):
    for name, way, files in hard_ones():
        for each in right:
            put(folder, each, files.get(each, right[each][0]))
        told = ends_wrongly(run(folder, WAYS[way]), True)
        if told:
            failed(folder, name, WAYS[way], told)


def try_drawn(folder, right, options):
    """The number of draws, up to the first that ends otherwise than it may."""
    end, number = time.monotonic() + options.seconds, options.only or 0
    while time.monotonic() < end:
        draw = random.Random(f"{options.seed} {number}")
        words = draw.choice(WAYS)
        for name, forms in right.items():
            put(folder, name, wrong(draw, draw.choice(forms)) if name in " ".join(words) else b"")
        told = ends_wrongly(run(folder, words), False)
        if told:
            failed(folder, f"--seed {options.seed} --only {number}", words, told)
        number += 1
        if options.only is not None:
            break
    return number


def main():
    parser = argparse.ArgumentParser(description=__doc__, formatter_class=argparse.RawDescriptionHelpFormatter)
    parser.add_argument("--seconds", type=float, default=60)
    parser.add_argument("--seed", type=int, default=1)
    parser.add_argument("--only", type=int)
    options = parser.parse_args()
    with tempfile.TemporaryDirectory() as made, tempfile.TemporaryDirectory() as name:
        right, folder = seeds(pathlib.Path(made)), pathlib.Path(name)
        if options.only is None:
            try_hard_ones(folder, right)
        number = try_drawn(folder, right, options)
    print(f"{number} wrong inputs and the hard ones: each tool ends as it should")


if __name__ == "__main__":
    main()
