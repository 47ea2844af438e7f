#!/usr/bin/env python3
"""Compares the built program with `bench/plain.py` over drawn configurations, tapes and captures.

    bench/compare.py [--program PATH] [--draws N] [--seed S] [--seconds S] [--only K] [--keep DIR] [--skip-missing]
                     [--commands NAME,..]

Each draw is made from the seed and its number, and `rules`, `list`, `shadow`, `changes` and `enforce` run on it, or
those of --commands: the status and each octet that is written have to be equal. Each rule that `list` words has to be
read back by `check text` as the octets and actions that `rules` tells of it. Whoever applies the lines of `changes` to
empty lists has to hold the rules of the plain reading behind each item of the tape, and no line may say what is so
already. Then `plain.py` is given wrong readings, one after the other, and each has
to differ from the program in some draw, which shows that these draws would tell such a fault of the program. What the
draws reached is counted. A difference is told in a line; `--only K` repeats its draw, and with `--keep` writes the
files. The last line is `N passed, M failed`, of draws and wrong readings together.
"""

import argparse
import collections
import pathlib
import re
import subprocess
import sys
import tempfile
import textwrap
import time
from unittest import mock

import plain
import plain_packets
import plain_rules
import plain_sessions
from draws import draw_inputs

NAMES = ("config", "tape", "capture")
COMMANDS = {"rules": 2, "list": 2, "shadow": 2, "changes": 2, "enforce": 3}
KEPT = 400      # draws whose answers are kept for the wrong readings
LEAST = 50      # draws that are done however long they take: they tell each wrong reading


# Running both


def program_answer(program, folder, command):
    """The status and what is written; nothing may be written to standard error, so that counts too."""
    words = [str(folder / name) for name in NAMES[:COMMANDS[command]]]
    try:
        run = subprocess.run([program, command, *words], stdin=subprocess.DEVNULL, capture_output=True, timeout=120)
    except subprocess.TimeoutExpired:
        return "none in 120 seconds", b""
    return run.returncode, run.stdout + run.stderr


def program_answers(program, folder, inputs, commands):
    for name, octets in zip(NAMES, inputs):
        (folder / name).write_bytes(octets)
    return {command: program_answer(program, folder, command) for command in commands}


def program_reads(program, text):
    run = subprocess.run([program, "check", "text", text], stdin=subprocess.DEVNULL, capture_output=True, timeout=120)
    return run.returncode, run.stdout + run.stderr


def first_text_difference(program, inputs):
    """The first worded rule that isn't read back as the rule that it words; None where all are."""
    (status, texts), (_, rules) = plain_answer("list", inputs), plain_answer("rules", inputs)
    octets = re.findall(r"^v[46] \d+ (\w+) peer \d+ (actions \S+)$", rules.decode(), re.M)
    for text, words in zip(texts.decode().splitlines() if status == 0 else [], octets):
        due = 0, f"1 {' '.join(words)}\n".encode()
        came = program_reads(program, text)
        if came != due:
            return f"check text '{text}': program {came}, due {due}"
    return None


CHANGE = re.compile(r"(\d+) ([+-]) ([1-9]\d*) (v[46]) ?(.*)")


class Lists:
    """The rules that act, as who applies the lines of `changes` holds them: the texts of each family."""

    def __init__(self):
        self.texts, self.gone = {"v4": [], "v6": []}, None

    def apply(self, line, moment):
        """What is wrong with the line of an item of that moment, or None; then the lists are as it says."""
        found = CHANGE.fullmatch(line)
        if found is None or int(found[1]) != moment:
            return f"'{line}' is no line of an item of {moment}"
        _, sign, place, family, text = found.groups()
        rules, at = self.texts[family], int(place) - 1
        if sign == "-" and rules[at:at + 1] != [text]:
            return f"'{line}' where that rule doesn't act"
        if sign == "+" and (at > len(rules) or self.gone == (family, at, text)):
            return f"'{line}' where there is no such place, or where that rule went just before"
        rules[at:at + (sign == "-")] = [text] if sign == "+" else []
        self.gone = (family, at, text) if sign == "-" else None
        return None


def plain_fronts(inputs):
    """The moment of each item up to a fault, and the texts of the rules that act behind it."""
    config = plain.load_config(inputs.config)
    try:
        for moment, rules in plain.fronts(config, plain.tape_items(inputs.tape, config.peers)):
            yield moment, {f"v{family}": [plain.rule_text(each).partition(" ")[2] for each in rules[family]] for family in rules}
    except plain.Refusal:
        return


def first_front_difference(answers, inputs):
    """Where the lines of `changes`, applied, first leave other rules than the plain reading's; None where nowhere."""
    status, octets = answers.get("changes", (3, b""))
    if status == 3:
        return None
    lines, lists = octets.decode().splitlines(), Lists()
    lines = lines[:len(lines) - (status == 4)]
    for number, (moment, due) in enumerate(plain_fronts(inputs), 1):
        while lists.texts != due:
            wrong = lists.apply(lines.pop(0), moment) if lines else "no line is left"
            if wrong:
                return f"changes, behind item {number}: {wrong}, and {due} is to act"
        lists.gone = None
    return f"changes: behind the last item still '{lines[0]}'" if lines else None


def plain_answer(command, inputs):
    return plain.answer([command, *NAMES[:COMMANDS[command]]], dict(zip(NAMES, inputs)))


def first_difference(answers, inputs):
    """The first command with another answer, and how it differs; None where all are equal."""
    for command, (status, octets) in answers.items():
        try:
            plain_status, plain_octets = plain_answer(command, inputs)
        except Exception as error:      # a fault of the plain reading is a difference
            plain_status, plain_octets = repr(error), b""
        if (status, octets) != (plain_status, plain_octets):
            return (f"{command}: program {told(status, octets, plain_octets)}, "
                    f"plain {told(plain_status, plain_octets, octets)}")
    return None


def told(status, octets, others):
    """The status and the first line that the others don't have there."""
    lines, other_lines = octets.decode("latin-1").split("\n"), others.decode("latin-1").split("\n")
    place = next((at for at, line in enumerate(lines) if other_lines[at:at + 1] != [line]), len(lines))
    return f"status {status} line {place + 1} '{''.join(lines[place:place + 1])}'"


# Wrong readings: of a function of the plain reading the right one makes the wrong one that stands in its place


def less_specific_first(right):
    def wrong(first, second):
        common = min(first.length, second.length)
        nested = first.offset == second.offset and \
            first.bits >> first.length - common == second.bits >> second.length - common
        return -right(first, second) if nested else right(first, second)
    return wrong


def judged_once(right):
    verdicts = {}

    def wrong(config, held, flow):
        return verdicts.setdefault((flow.peer.number, flow.subject), right(config, held, flow))
    return wrong


def destination_required(right):
    def wrong(config, held, flow):
        return right(config, held, flow) if plain.destination_of(flow.subject) else "NoDestination"
    return wrong


def lowest_peer_first(_):
    return lambda route: route.peer.number


def all_of_a_set_counted(_):
    return lambda segments: sum(len(numbers) for form, numbers in segments if form in (1, 2))


def address_alone(_):
    return lambda route: route.peer.address


def place_of_the_old_list(right):
    def wrong(old, new):
        places = {route.subject: place for place, route in enumerate(old, 1)}
        for sign, place, route in right(old, new):
            yield sign, places[route.subject] if sign == "-" else place, route
    return wrong


def lost_peer_kept(right):
    return lambda items, number: right([item for item in items if item.kind != plain_sessions.LOST], number)


def malformed_attribute_ignored(right):
    def wrong(held, peer, update):
        right(held, peer, update._replace(announced=[]) if update.path is None else update)
    return wrong


def withdrawn_last(right):
    def wrong(held, peer, update):
        right(held, peer, update)
        for subject in update.withdrawn:
            held.pop(subject, None)
    return wrong


def limit_ignored(right):
    return lambda held, peer, update: right(held, peer._replace(max_routes=None), update)


def from_left_to_right(_):
    def wrong(kind, pairs, datum):
        test = plain_rules.bits_hold if kind in (9, 12) else plain_rules.number_holds
        holds = False
        for pair in pairs:
            true = test(pair, datum)
            holds = holds and true if pair.operator & plain_rules.AND else holds or true
        return holds
    return wrong


def destination_port_alone(right):
    return lambda packet, kind: right(packet, 5 if kind == 4 else kind)


def whole_tape_for_each(right):
    return lambda content: (captured._replace(moment=2**64) for captured in right(content))


def same_type_alone(right):
    return lambda inner, outer: inner.kind == outer.kind and right(inner, outer)


WRONG = {
    "the less specific prefix comes first": (plain_rules, "compare_patterns", less_specific_first),
    "the terminal bit ends the walk": (plain, "goes_on", lambda right: lambda actions: not right(actions)),
    "a flow route is judged once": (plain, "validity", judged_once),
    "rules without destination are dropped": (plain, "validity", destination_required),
    "more specific routes aren't looked at": (plain, "has_other_under", lambda _: lambda *_: False),
    "the leftmost AS isn't looked at": (plain, "shares_leftmost_as", lambda _: lambda *_: True),
    "ORIGINATOR_ID isn't looked at": (plain, "originator", address_alone),
    "the lowest peer is preferred": (plain, "preference", lowest_peer_first),
    "an AS_SET counts all its numbers": (plain, "path_length", all_of_a_set_counted),
    "negative rates are reported": (plain, "discards", lambda _: lambda rate: rate[4:] == bytes(4)),
    "each packet meets what the whole tape leaves": (plain, "read_capture", whole_tape_for_each),
    "a rule that does something else is left unsaid": (plain, "has_changed", lambda right: lambda before, after:
                                                       (before is None) != (after is None)),
    "a rule goes from its place in the old list": (plain, "differences", place_of_the_old_list),
    "a lost peer keeps its routes": (plain_sessions, "life", lost_peer_kept),
    "a malformed attribute changes nothing": (plain_sessions, "apply_update", malformed_attribute_ignored),
    "withdrawals act last": (plain_sessions, "apply_update", withdrawn_last),
    "no peer has a limit": (plain_sessions, "apply_update", limit_ignored),
    "lists are taken from left to right": (plain_rules, "list_holds", from_left_to_right),
    "each pair of a list stands alone": (plain_rules, "groups", lambda _: lambda pairs: [[pair] for pair in pairs]),
    "a port is the destination's": (plain_rules, "data_of", destination_port_alone),
    "a port contains no other port": (plain_rules, "component_lies_in", same_type_alone),
    "a fragment has no bits": (plain_packets, "fragment_bits", lambda _: lambda *_: 0),
    "IPv6 headers are no chain": (plain_packets, "walk_headers", lambda _: lambda kind, octets: (kind, 0, 0, octets)),
}


def tells(name, kept):
    """The number of the first kept draw in which the wrong reading answers otherwise than the program, or None.
    `changes` is asked last, since it plays each front of a tape."""
    module, function, make_wrong = WRONG[name]
    right = getattr(module, function)
    for last in (False, True):
        for number, answers, inputs in kept:
            with mock.patch.object(module, function, make_wrong(right)):
                if any(plain_answer(command, inputs) != answer for command, answer in answers.items()
                       if (command == "changes") == last):
                    return number
    return None


# What the draws reach

REACHED = {
    "rules": [r"^(peer) \d+ (down|wait-open|wait-keepalive|established|notified|closed \d/\d+)",
              r"^(v[46]) \d+ ", r"^(v[46] invalid) .* (\w+)$", r"^(tape \w+)"],
    "shadow": [r"^(v[46]) \d+ (covered)"],
    "changes": [r"^\d+ ([+-]) \d+ (v[46]) ", r"^(tape \w+)",
                r"(?P<other_actions>^(\d+) - (\d+) (v[46] .*?)(?: then .*)?\n\2 \+ \3 \4(?: then .*)?$)"],
    "enforce": [r"^\d+ (discard|pass)( rules)?", r"^\d+ (unread \d)", r"^\d+ .* (mark)", r"^\d+ .* (sample)",
                r"^\d+ .* (redirect \w+)", r"(?P<several_rules> rules \d+,)", r" (bytes)", r" (packets)"],
}


def count_reached(reached, answers):
    for command, (status, octets) in answers.items():
        reached[command][f"status {status}"] += 1
        for pattern in REACHED.get(command, []):
            for found in re.finditer(pattern, octets.decode("latin-1"), re.M):
                words = found.lastgroup or " ".join(part.strip() for part in found.groups() if part)
                reached[command][words] += 1


def report_reached(reached):
    for command, counts in reached.items():
        words = ", ".join(f"{name} {count}" for name, count in sorted(counts.items()))
        print(textwrap.fill(f"{command}: {words}", 118, subsequent_indent="    "))


# The run


def arguments():
    parser = argparse.ArgumentParser(description=__doc__, formatter_class=argparse.RawDescriptionHelpFormatter)
    root = pathlib.Path(__file__).resolve().parent.parent
    parser.add_argument("--program", type=pathlib.Path, default=root / "crates/welgutan/out/welgutan")
    parser.add_argument("--draws", type=int, default=300)
    parser.add_argument("--seed", type=int, default=1)
    parser.add_argument("--seconds", type=float, default=300, help="no draw is begun after so many, but the first ones")
    parser.add_argument("--only", type=int, help="this draw alone, and no wrong reading")
    parser.add_argument("--keep", type=pathlib.Path, help="a folder for the files of the last draw")
    parser.add_argument("--commands", type=lambda text: text.split(","), default=list(COMMANDS))
    parser.add_argument("--skip-missing", action="store_true", help="end with 0 where the program isn't there")
    return parser.parse_args()


def compare_draws(options, folder):
    """The count of equal draws and of others, what was reached, and the draws that are kept."""
    counts, reached, kept = collections.Counter(), {command: collections.Counter() for command in COMMANDS}, []
    end = time.monotonic() + options.seconds
    for number in range(options.draws) if options.only is None else [options.only]:
        if time.monotonic() > end and number >= LEAST:
            print(f"after {options.seconds:g} seconds: {number} draws of {options.draws}")
            break
        inputs = draw_inputs(options.seed, number)
        answers = program_answers(options.program.resolve(), folder, inputs, options.commands)
        difference = first_difference(answers, inputs) or first_front_difference(answers, inputs)
        if difference is None and "list" in answers:
            difference = first_text_difference(options.program.resolve(), inputs)
        if difference is not None:
            print(f"draw {number} differs (--seed {options.seed} --only {number}): {difference}", flush=True)
        counts["failed" if difference else "passed"] += 1
        count_reached(reached, answers)
        if number < KEPT and difference is None:
            kept.append((number, answers, inputs))
    return counts, reached, kept


def try_wrong_readings(kept):
    counts = collections.Counter()
    for name in WRONG:
        number = tells(name, kept)
        if number is None:
            print(f"wrong on purpose, and not told by {len(kept)} draws: {name}")
        else:
            print(f"wrong on purpose, told by draw {number}: {name}")
        counts["failed" if number is None else "passed"] += 1
    return counts


def main():
    options = arguments()
    if not options.program.is_file():
        print(f"the program isn't there: {options.program}")
        return 0 if options.skip_missing else 2
    if options.keep:
        options.keep.mkdir(parents=True, exist_ok=True)
    with tempfile.TemporaryDirectory() as folder:
        counts, reached, kept = compare_draws(options, options.keep or pathlib.Path(folder))
    report_reached(reached)
    if options.only is None:
        counts += try_wrong_readings(kept)
    print(f"{counts['passed']} passed, {counts['failed']} failed")
    return 1 if counts["failed"] else 0


if __name__ == "__main__":
    sys.exit(main())
