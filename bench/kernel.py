#!/usr/bin/env python3
"""Compares what the Linux kernel does by a ruleset of `tools/nft.py` with what `enforce` says, over drawn rules.

    bench/kernel.py PROGRAM [--seeds N] [--seed S] [--seconds S] [--rules N] [--frames N]
    bench/kernel.py PROGRAM --measure CONFIG TAPE CAPTURE

Each seed draws rules of both families and all types, and frames, which are sent through a veth into its other end.
With `--check` each rule's counter has to be the number of lines that walk the rule. Without it a bridge carries what is
left to a second veth, and those frames have to come that no line discards, with the DSCP that their lines tell. After
the first seed mistakes are planted in `tools/welgutan`, one after the other, and each has to be told. With `--measure` it
tells instead what the rules that a tape leaves take a frame of a capture, beside no rules.

All happens in a network namespace of this process alone, which goes with it. Where there is no root, `ip`, `nft`, scapy
(Debian's python3-scapy, which writes the frames: `headers.py`) or such a namespace it is skipped. No rate is so low that it
limits the frames.
"""

import argparse
import collections
import ctypes
import os
import pathlib
import random
import re
import shutil
import socket
import struct
import subprocess
import sys
import tempfile
import time
from typing import NamedTuple
from unittest import mock

ROOT = pathlib.Path(__file__).resolve().parent.parent
sys.path.append(str(ROOT / "tools"))

import draws
import headers
import wire
from headers import TARGET
from plain_packets import read_capture, view
from plain_rules import Malformed, Octets, Short, matches, read_frame
from welgutan import flowspec, parts, ruleset
from welgutan.parts import Options

CONFIG = "allow_no_destination = true\n" + wire.CONFIG
TABLE = "welgutan"


class Inputs(NamedTuple):
    config: bytes
    tape: bytes
    frames: list

    def files(self, folder):
        """The paths of files with the configuration, the tape and a capture of the frames."""
        capture = wire.capture_of([each.octets for each in self.frames], wire.ETHERNET)
        contents = {"config": self.config, "tape": self.tape, "capture": capture}
        for name, octets in contents.items():
            (folder / name).write_bytes(octets)
        return [str(folder / name) for name in contents]


# Rules and the tape that announces them

DISCARD, TERMINAL, SAMPLE = "8006000000000000", "8007000000000001", "8007000000000002"
FURTHER = ["800600004e6e6b28", "800c00004e6e6b28", "8006000080000001", "8008fdea00000064", SAMPLE]
MARKS = [f"80090000000000{value:02x}" for value in (0, 10, 46)]


def draw_actions(draw):
    """Mostly the terminal bit, so that walks are long; a few rules discard, and many mark."""
    actions = [TERMINAL] * draws.chance(draw, 85) + [DISCARD] * draws.chance(draw, 4)
    actions += [draw.choice(MARKS)] * draws.chance(draw, 45) + [draw.choice(FURTHER)] * draws.chance(draw, 15)
    return bytes.fromhex("".join(actions))


def rule_of(frame, family):
    """The rule, or None where the frame isn't one, or wouldn't fit a message."""
    try:
        return read_frame(Octets(frame), family) if len(frame) < 3000 else None
    except (Malformed, Short):
        return None


def draw_rules(draw, count):
    """The frames and actions of so many rules, of both families, no two of which are the same rule."""
    rules = {}
    while len(rules) < count:
        family = 4 if 2 * len(rules) < count else 6
        for frame in draws.rule_frames(draw, family):
            rule = rule_of(frame, family)
            if rule is not None and len(rules) < count:
                rules[rule] = frame, draw_actions(draw)
    return rules


def tape_of(rules):
    """One peer that originates all addresses, so that all of its rules are admitted."""
    v6_route = wire.attribute(14, b"\0\2\1\x10" + bytes(17) + b"\0")
    parts = [wire.announce(b"\0"), wire.update(b"", v6_route + wire.PATH)]
    for rule, (frame, actions) in rules.items():
        reach = wire.reach(wire.V4_RULES if rule.family == 4 else wire.V6_RULES, frame)
        parts.append(wire.update(b"", reach + wire.PATH + (wire.attribute(16, actions, 0xC0) if actions else b"")))
    return wire.TAPE + wire.up() + b"".join(map(wire.says, parts))


def draw_inputs(seed, rules, frames):
    draw = random.Random(f"kernel {seed}")
    draw.has_faults = False
    tape = tape_of(draw_rules(draw, rules))
    return Inputs(CONFIG.encode(), tape, [headers.draw_frame(draw, number) for number in range(frames)])


# What the program says


class Line(NamedTuple):
    discards: bool
    rules: list         # numbers in the frame's family
    mark: object        # a DSCP, or None


def run(*words, text=""):
    """What a command writes that is given the text."""
    done = subprocess.run(words, input=text, capture_output=True, text=True, check=False)
    if done.returncode:
        raise RuntimeError(f"{' '.join(words)} ended with status {done.returncode}: {done.stderr[:2000]}")
    return done.stdout


LINE = re.compile(r"[0-9]+ (?:(pass|discard)|unread [0-9])(?: rules ([0-9,]+))?(?: mark ([0-9]+))?(?: .*)?")


def read_line(text):
    verdict, rules, mark = LINE.fullmatch(text).groups()
    numbers = [int(number) for number in rules.split(",")] if rules else []
    return Line(verdict == "discard", numbers, None if mark is None else int(mark))


class Said(NamedTuple):
    """What the program says: the admitted rules, each in words, and a line for each frame."""
    rules: list
    words: list
    lines: list


def said(program, files):
    rules = ruleset.read_listing(run(program, "rules", *files[:2]))
    words = run(program, "list", *files[:2]).splitlines()
    lines = [read_line(text) for text in run(program, "enforce", *files).splitlines()]
    return Said(rules, words, lines)


# The kernel

FIRST, HOOKED, CARRIED, LAST = "try0", "try1", "try2", "try3"
CLONE_NEWNET = 0x40000000
ALL_PROTOCOLS = 3
BATCH = 200


def enter_namespace():
    """A network namespace of this process and its children."""
    library = ctypes.CDLL(None, use_errno=True)
    if library.unshare(CLONE_NEWNET):
        raise OSError(ctypes.get_errno(), "no network namespace")


def keep_quiet():
    """The devices of the namespace say nothing of their own, and its bridge hands frames on as they are."""
    pathlib.Path("/proc/sys/net/ipv6/conf/default/disable_ipv6").write_text("1")
    for setting in pathlib.Path("/proc/sys/net/bridge").glob("bridge-nf-call-*"):
        setting.write_text("0")


def make_pair(first, last):
    run("ip", "link", "add", first, "up", "type", "veth", "peer", "name", last)
    run("ip", "link", "set", last, "up")


def make_links():
    """Frames go from the first device to the one with the hook, over a bridge, and to the last one."""
    keep_quiet()
    run("ip", "link", "add", "trybridge", "up", "type", "bridge")
    make_pair(FIRST, HOOKED)
    make_pair(CARRIED, LAST)
    for device in (HOOKED, CARRIED):
        run("ip", "link", "set", device, "master", "trybridge")


def packet_socket(device):
    made = socket.socket(socket.AF_PACKET, socket.SOCK_RAW, socket.htons(ALL_PROTOCOLS))
    made.bind((device, 0))
    made.setsockopt(socket.SOL_SOCKET, getattr(socket, "SO_RCVBUFFORCE", 33), 1 << 28)
    made.setblocking(False)
    return made


def received(last):
    """The frames that wait at a socket, by their numbers; a bridge also says something of its own."""
    frames = {}
    while True:
        try:
            octets = last.recv(65536)
        except BlockingIOError:
            return frames
        if octets.startswith(TARGET):
            frames[struct.unpack_from(">I", octets, 8)[0]] = octets


def load(text):
    """The ruleset in the place of all that was loaded, and before it a count of what comes to the device."""
    count = f'chain first {{ type filter hook ingress device "{HOOKED}" priority -1;\ncounter\n }}\n'
    run("nft", "-f", "-", text=f"flush ruleset\ntable netdev try_count {{\n{count} }}\n{text}")


def send_all(first, last, frames):
    """Sends the frames, and answers what came at the other end; at most so many are under way at a time."""
    came = {}
    for begin in range(0, len(frames), BATCH):
        for frame in frames[begin:begin + BATCH]:
            first.send(frame.octets)
        came |= received(last)
    deadline = time.monotonic() + 60
    while frames_counted() < len(frames) and time.monotonic() < deadline:
        time.sleep(0.05)
    time.sleep(0.05)
    if frames_counted() != len(frames):
        raise RuntimeError(f"{frames_counted()} of {len(frames)} frames came to the hook")
    return came | received(last)


def frames_counted():
    return int(re.search(r"counter packets ([0-9]+)", run("nft", "list", "table", "netdev", "try_count"))[1])


COUNTER = re.compile(r'counter packets ([0-9]+) .*comment "v([46]) ([0-9]+) ')


def counters():
    """How many frames each rule counted, by family and number."""
    text = run("nft", "list", "table", "netdev", TABLE)
    return {(int(family), int(number)): int(packets) for packets, family, number in COUNTER.findall(text)}


# The comparison


class Kernel:
    """The two ends through which frames go."""

    def __init__(self):
        self.first, self.last = packet_socket(FIRST), packet_socket(LAST)

    def counts(self, rules, frames):
        """Each rule's counter where nothing else is done."""
        load(ruleset.ruleset(rules, Options(HOOKED, TABLE, True, None)))
        send_all(self.first, self.last, frames)
        return counters()

    def left(self, rules, frames):
        """The frames that are left, by their numbers."""
        load(ruleset.ruleset(rules, Options(HOOKED, TABLE, False, None)))
        return send_all(self.first, self.last, frames)


def count_differences(told, frames, counts):
    """In words: each rule whose counter isn't the number of lines that walk it."""
    walked = collections.Counter((frame.family, number)
                                 for frame, line in zip(frames, told.lines) for number in line.rules)
    for each, words in zip(told.rules, told.words):
        key = each.family, each.number
        if counts.get(key, 0) != walked[key]:
            yield f"rule {each.number} '{words}': the kernel counts {counts.get(key)}, {walked[key]} lines walk it"


def frame_differences(told, frames, left):
    """In words: each frame that is left and shouldn't be, or isn't and should, or carries anything but the DSCP that its
    line tells in what it carried."""
    for number, (frame, line) in enumerate(zip(frames, told.lines)):
        if line.discards == (number in left):
            yield f"{described(told, number, frame)} {'passes' if line.discards else 'is dropped'}"
        elif number in left and frame.family and not left[number].endswith(frame.with_dscp(line.mark)):
            yield f"{described(told, number, frame)} is {left[number].hex()} and has not DSCP {line.mark} alone"


def described(told, number, frame):
    words = {(each.family, each.number): words for each, words in zip(told.rules, told.words)}
    walked = "; ".join(f"'{words[frame.family, rule]}'" for rule in told.lines[number].rules)
    return f"frame {number + 1} {frame.octets.hex()}, which walks {walked or 'no rule'},"


def differences(kernel, told, frames):
    yield from count_differences(told, frames, kernel.counts(told.rules, frames))
    yield from frame_differences(told, frames, kernel.left(told.rules, frames))


# Mistakes that are planted: of a function of `tools/welgutan` the right one makes the wrong one that stands in its place


def plain_rule(each):
    """The rule as the plain reading has it."""
    return read_frame(Octets(flowspec.rule_octets(each.rule)), each.family)


def pair_to_turn(rules, told, frames):
    """Places of two rules of one destination, of which the first ends the walk of a frame that the other matches."""
    places = {(each.family, each.number): place for place, each in enumerate(rules)}
    for frame, line in zip(frames, told.lines):
        first = places[frame.family, line.rules[-1]] if line.rules else len(rules)
        for other in range(first + 1, len(rules)):
            if rules[first].rule.destination() != rules[other].rule.destination():
                break
            if not flowspec.goes_on(rules[first].actions) and matches(plain_rule(rules[other]), view(1, frame.octets)):
                return first, other
    raise RuntimeError("no frame tells two rules apart")


def two_turned_round(right, told, frames):
    def wrong(rules, options):
        first, other = pair_to_turn(rules, told, frames)
        rules = list(rules)
        rules[first], rules[other] = rules[other], rules[first]
        return right(rules, options)
    return wrong


def set_at_once(actions):
    marks = flowspec.those_of(actions, (flowspec.MARK,))[:1]
    return [parts.Part(f"{header} dscp set {mark[7]}", ()) for header in ("ip", "ip6") for mark in marks]


def wherever(right, *_):
    """Without the first test, which is that the packet is no later fragment."""
    return lambda family, kind: right(family, kind)[1:]


MISTAKES = {
    "two rules are turned round": (ruleset, "ruleset", two_turned_round),
    "the terminal bit ends the walk": (parts, "goes_on", lambda right, *_: lambda actions: not right(actions)),
    "a later fragment has ports": (parts, "presence", wherever),
    "a mark is set at once": (parts, "mark_notes", lambda *_: set_at_once),
}


def tells(kernel, name, told, frames):
    """The first difference that the mistake makes, or None."""
    module, function, make_wrong = MISTAKES[name]
    with mock.patch.object(module, function, make_wrong(getattr(module, function), told, frames)):
        return next(differences(kernel, told, frames), None)


def try_mistakes(kernel, told, frames):
    counts = collections.Counter()
    for name in MISTAKES:
        difference = tells(kernel, name, told, frames)
        print(f"planted, and {f'told: {name}' if difference else f'NOT told: {name}'}", flush=True)
        counts["passed" if difference else "failed"] += 1
    return counts


# What rules take

ROUNDS = 12
BARE_FIRST, BARE = "try4", "try5"


def drop_all(device):
    """Behind the rules nothing else happens to a frame."""
    chain = f'type filter hook ingress device "{device}" priority 2; policy drop;'
    return f"table netdev drop_{device} {{\nchain last {{ {chain}\n}}\n}}\n"


def nanoseconds(sender, frames):
    """Processor time; the frames go all their way while they are sent."""
    begin = time.thread_time_ns()
    for frame in frames:
        sender.send(frame)
    return time.thread_time_ns() - begin


def least_of_rounds(senders, frames):
    """A frame's time by each sender: of each batch the least of some rounds, in which the senders take turns."""
    sums = dict.fromkeys(senders, 0)
    batches = [frames[begin:begin + BATCH] for begin in range(0, len(frames), BATCH)]
    rounds = [[{name: nanoseconds(sender, batch) for name, sender in senders.items()} for batch in batches]
              for _ in range(ROUNDS)]
    for of_batch in zip(*rounds):
        for name in senders:
            sums[name] += min(times[name] for times in of_batch)
    return {name: total / len(frames) for name, total in sums.items()}


def measure(program, files):
    rules = ruleset.read_listing(run(program, "rules", *files[:2]))
    frames = [each.octets for each in read_capture(pathlib.Path(files[2]).read_bytes())]
    make_pair(BARE_FIRST, BARE)
    text = ruleset.ruleset(rules, Options(HOOKED, TABLE, False, None))
    begin = time.perf_counter()
    run("nft", "-f", "-", text=text)
    seconds = time.perf_counter() - begin
    run("nft", "-f", "-", text=drop_all(HOOKED) + drop_all(BARE))
    least = least_of_rounds({"bare": packet_socket(BARE_FIRST), "ruled": packet_socket(FIRST)}, frames)
    print(f"{len(rules)} rules, loaded in {seconds:.2f} s; {len(frames)} frames, which walk "
          f"{sum(counters().values()) / len(frames) / ROUNDS:.2f} rules each")
    print(f"without rules {least['bare']:.0f} ns a frame, with them {least['ruled']:.0f}: "
          f"{least['ruled'] - least['bare']:.0f} more")


# The run


def arguments():
    parser = argparse.ArgumentParser(description=__doc__, formatter_class=argparse.RawDescriptionHelpFormatter)
    parser.add_argument("program", nargs="?", default=str(ROOT / "crates/welgutan/out/welgutan"))
    parser.add_argument("--seeds", type=int, default=20)
    parser.add_argument("--seed", type=int, default=1, help="the first one")
    parser.add_argument("--seconds", type=float, default=600, help="no seed is begun after so many")
    parser.add_argument("--rules", type=int, default=400)
    parser.add_argument("--frames", type=int, default=5000)
    parser.add_argument("--measure", nargs=3, metavar=("CONFIG", "TAPE", "CAPTURE"))
    return parser.parse_args()


def missing():
    """What isn't there that is needed, or None."""
    if os.geteuid() != 0:
        return "root"
    return next((tool for tool in ("ip", "nft") if not shutil.which(tool)), None)


def lacking():
    """Makes the namespace and its links; why that can't be, or None."""
    if missing():
        return f"{missing()} is missing"
    try:
        enter_namespace()
        make_links()
        load("")
    except (OSError, RuntimeError) as error:
        return f"the kernel doesn't offer what is needed ({error})"
    return None


def compare_seed(kernel, options, seed, folder):
    """What the program says of a seed's draws and its frames, and how often the kernel does otherwise."""
    inputs = draw_inputs(seed, options.rules, options.frames)
    told = said(options.program, inputs.files(folder))
    if len(told.rules) != options.rules or len(told.lines) != options.frames:
        raise RuntimeError(f"{len(told.rules)} rules are admitted, and {len(told.lines)} lines written")
    found = list(differences(kernel, told, inputs.frames))
    for words in found[:5]:
        print(f"seed {seed}: {words}", flush=True)
    print(f"seed {seed}: {summary(told.lines)}; {len(found)} differences", flush=True)
    return told, inputs.frames, found


def summary(lines):
    walking, walked = sum(bool(line.rules) for line in lines), sum(len(line.rules) for line in lines)
    discarded, marked = sum(line.discards for line in lines), sum(line.mark is not None for line in lines)
    return f"{walking} frames walk {walked} rules, {discarded} are discarded, {marked} marked"


def compare(kernel, options, folder):
    counts, end = collections.Counter(), time.monotonic() + options.seconds
    for seed in range(options.seed, options.seed + options.seeds):
        if seed > options.seed and time.monotonic() > end:
            break
        told, frames, found = compare_seed(kernel, options, seed, folder)
        counts["failed" if found else "passed"] += 1
        if seed == options.seed and not found:
            counts += try_mistakes(kernel, told, frames)
    print(f"{counts['passed']} passed, {counts['failed']} failed")
    return 1 if counts["failed"] else 0


def main():
    options = arguments()
    if not os.access(options.program, os.X_OK):
        print(f"the program isn't there: {options.program}")
        return 2
    if lacks := lacking() or headers.is_missing and "python3-scapy is missing":
        print(f"skipped, since {lacks}: bench/kernel.py")
        return 0
    if options.measure:
        return measure(options.program, options.measure)
    with tempfile.TemporaryDirectory() as folder:
        return compare(Kernel(), options, pathlib.Path(folder))


if __name__ == "__main__":
    sys.exit(main())
