#!/usr/bin/env python3
"""A second reading of the standards, in plain Python, beside which the proved program is compared.

    bench/plain.py rules|list|shadow|changes CONFIG TAPE
    bench/plain.py enforce CONFIG TAPE CAPTURE

It answers these five commands as `docs/FORMATS.md` says, and was written from the RFCs and the documents of this
repository, not from the program. Everything is done the plain way: a peer's session is read from all octets of its
life, held routes are one list, each flow route is validated over the whole list, rules are ordered by comparing pairs,
and packets meet each rule in turn. Only what stands at one moment is remembered, for the packets of that moment.
Captures of both formats are read. The other commands, and inputs of 2^40 octets, aren't answered.

Rules as octets stand in `plain_rules.py`, what a tape leaves in `plain_sessions.py`, packets and captures in
`plain_packets.py`; here routes are validated, rules act, and lines are written.
"""

import functools
import pathlib
import struct
import sys
import tomllib

from plain_packets import CaptureFault, Unread, read_capture, view
from plain_rules import (FRAGMENT, TCP_FLAGS, WIDTHS, Malformed, Pattern, Rule, compare_rules, contains, covers,
                         destination_of, groups, matches, rule_octets)
from plain_sessions import (AS_SEQUENCE, AS_SET, CONFEDERATION_SEQUENCE, CONFEDERATION_SET, Refusal, play, read_config,
                            read_tape, tape_items)


# Preference and validation


def path_length(segments):
    """RFC 4271 section 9.1.2.2 (a) and RFC 5065 section 5.3: a set counts one, confederation segments nothing."""
    return sum({AS_SEQUENCE: len(numbers), AS_SET: 1}.get(form, 0) for form, numbers in segments)


def preference(route):
    """RFC 4271 section 9.1: the least of these is the most preferred route."""
    path = route.path
    return -path.local_pref, path_length(path.segments), path.origin, not route.peer.external, route.peer.number


def first_as(path):
    """The first number of a leading sequence, confederation segments skipped; None where there is none."""
    for form, numbers in path.segments:
        if form in (AS_SET, AS_SEQUENCE):
            return numbers[0] if form == AS_SEQUENCE else None
    return None


def neighbouring_as(path, local_as):
    """RFC 8955 section 6 c: whom the route was received from; the local AS for a path of no other AS, 0 for a set."""
    if all(form in (CONFEDERATION_SEQUENCE, CONFEDERATION_SET) for form, _ in path.segments):
        return local_as
    return first_as(path) or 0


def originator(route):
    """RFC 8955 section 6: ORIGINATOR_ID, else the peer's address."""
    return route.peer.address if route.path.originator is None else (4, route.path.originator)


def unicast_routes(held):
    return [route for route in held if isinstance(route.subject, Pattern)]


def flow_routes(held, family):
    return [route for route in held if isinstance(route.subject, Rule) and route.subject.family == family]


def best_match(held, destination):
    """RFC 8955 section 6 b: the most preferred route of the longest prefix that covers the destination, or None."""
    covering = [route for route in unicast_routes(held) if covers(route.subject, destination)]
    return min(covering, key=lambda route: (-route.subject.length, preference(route)), default=None)


def originates(config, flow, best):
    """RFC 9117 section 4.1: the originators are equal, or the path is empty or of confederation sequences only."""
    if best is not None and originator(flow) == originator(best):
        return True
    return config.empty_path_valid and all(form == CONFEDERATION_SEQUENCE for form, _ in flow.path.segments)


def has_other_under(config, held, destination, best):
    """RFC 8955 section 6 c: a more specific unicast route of another neighbouring AS."""
    under = [route for route in unicast_routes(held)
             if route.subject != destination and covers(destination, route.subject)]
    if best is None:
        return bool(under)
    own = neighbouring_as(best.path, config.local_as)
    return any(neighbouring_as(route.path, config.local_as) != own for route in under)


def shares_leftmost_as(flow, best):
    """RFC 9117 section 4.2: the leftmost AS of both paths is there, and the same."""
    return best is not None and first_as(flow.path) is not None and first_as(flow.path) == first_as(best.path)


def validity(config, held, flow):
    """RFC 8955 section 6 and RFC 9117 section 4: the first rule that the flow route fails, or None."""
    destination = destination_of(flow.subject)
    if destination is None:
        return None if config.allow_no_destination else "NoDestination"
    best = best_match(held, destination)
    if not originates(config, flow, best):
        return "Originator"
    if has_other_under(config, held, destination, best):
        return "MoreSpecific"
    if flow.peer.external and not shares_leftmost_as(flow, best):
        return "LeftAs"
    return None


def admitted(config, held, family):
    """Of each rule its most preferred valid route, in the order of rules."""
    best = {}
    for route in flow_routes(held, family):
        if validity(config, held, route) is None:
            rivals = [route, best.get(route.subject, route)]
            best[route.subject] = min(rivals, key=preference)
    return sorted(best.values(), key=functools.cmp_to_key(lambda a, b: compare_rules(a.subject, b.subject)))


# What rules do to packets


def those_of(actions, *heads):
    return [action for action in actions if action[:2].hex() in heads]


def goes_on(actions):
    """RFC 8955 section 7.3: with the terminal bit later rules are evaluated too; without the action they aren't."""
    return any(action[7] & 1 for action in those_of(actions, "8007"))


def samples(actions):
    """RFC 8955 section 7.3."""
    return any(action[7] & 2 for action in those_of(actions, "8007"))


def discards(rate):
    """RFC 8955 sections 7.1 and 7.2: a rate of zero, or a negative one."""
    return rate[4:] == bytes(4) or rate[4] >= 0x80


def redirect_target(action):
    """RFC 8955 section 7.4: a route target in one of three forms."""
    kind, rest = action[0], action[2:]
    if kind == 0x80:
        return "as2:%d:%d" % struct.unpack(">HI", rest)
    if kind == 0x81:
        return "ip4:%d.%d.%d.%d:%d" % struct.unpack(">BBBBH", rest)
    return "as4:%d:%d" % struct.unpack(">IH", rest)


def walk(rules, packet):
    """RFC 8955 sections 5.1 and 7.3: numbers and actions of the rules that act."""
    walked = []
    for number, route in enumerate(rules, 1):
        if matches(route.subject, packet):
            walked.append((number, route.actions))
            if not goes_on(route.actions):
                break
    return walked


def packet_line(walked):
    """The words behind a packet's number."""
    actions = [action for _, each in walked for action in each]
    rates = those_of(actions, "8006", "800c")
    words = ["discard" if any(map(discards, rates)) else "pass"]
    if walked:
        words += ["rules", ",".join(str(number) for number, _ in walked)]
    words += ["mark %d" % action[7] for action in those_of(actions, "8009")[:1]]
    words += ["redirect " + redirect_target(action) for action in those_of(actions, "8008", "8108", "8208")[:1]]
    words += ["sample"] if samples(actions) else []
    words += [("bytes " if rate[1] == 6 else "packets ") + rate[4:].hex() for rate in rates if not discards(rate)]
    return " ".join(words)


# What the commands write


def family_word(family):
    return f"v{family}"


def shadow_lines(config, standing, family):
    rules = admitted(config, standing.held, family)
    for number, route in enumerate(rules):
        for earlier in range(number):
            if not goes_on(rules[earlier].actions) and contains(rules[earlier].subject, route.subject):
                yield f"{family_word(family)} {number + 1} covered by {earlier + 1}"
                break


def listing_lines(config, standing, family):
    """The admitted rules, and then the flow routes that aren't valid, by rule and then by peer."""
    for number, route in enumerate(admitted(config, standing.held, family), 1):
        actions = b"".join(route.actions).hex() or "-"
        yield (f"{family_word(family)} {number} {rule_octets(route.subject).hex()} peer {route.peer.number} "
               f"actions {actions}")
    flows = sorted(flow_routes(standing.held, family), key=lambda route: route.peer.number)
    flows.sort(key=functools.cmp_to_key(lambda a, b: compare_rules(a.subject, b.subject)))
    for route in flows:
        reason = validity(config, standing.held, route)
        if reason is not None:
            yield (f"{family_word(family)} invalid {rule_octets(route.subject).hex()} peer {route.peer.number} "
                   f"{reason}")


NAMES = {1: "dst", 2: "src", 3: "proto", 4: "port", 5: "dport", 6: "sport", 7: "itype", 8: "icode", 9: "tcp",
         10: "len", 11: "dscp", 12: "frag", 13: "label"}
NUMBER_SIGNS = ["!", "=", ">", ">=", "<", "<=", "!=", "*"]
BIT_SIGNS = ["~", "=", "!~", "!="]


def pattern_text(pattern):
    octets = (pattern.bits << WIDTHS[pattern.family] - pattern.length).to_bytes(WIDTHS[pattern.family] // 8, "big")
    if pattern.family == 4:
        return ".".join(map(str, octets)) + f"/{pattern.length}"
    address = ":".join(f"{group:x}" for group in struct.unpack(">8H", octets))
    return f"{address}/{pattern.length}" + (f"-{pattern.offset}" if pattern.offset else "")


def pair_text(kind, pair):
    if kind in (TCP_FLAGS, FRAGMENT):
        return BIT_SIGNS[pair.operator & 3] + pair.value.to_bytes(pair.width, "big").hex()
    least = next(width for width in (1, 2, 4, 8) if pair.value < 256**width)
    return NUMBER_SIGNS[pair.operator & 7] + str(pair.value) + (f":{pair.width}" if pair.width != least else "")


def component_text(component):
    if isinstance(component.value, Pattern):
        return f"{NAMES[component.kind]} {pattern_text(component.value)}"
    alternatives = ["&".join(pair_text(component.kind, pair) for pair in group) for group in groups(component.value)]
    return f"{NAMES[component.kind]} {','.join(alternatives)}"


def action_text(action):
    head = action[:2].hex()
    if head in ("8006", "800c"):
        name = "bytes" if head == "8006" else "packets"
        return f"{name} {int.from_bytes(action[2:4], 'big')}:{action[4:].hex()}"
    if head in ("8007", "8009"):
        return f"{'control' if head == '8007' else 'mark'} {action[7]}"
    return "redirect " + redirect_target(action)


def rule_text(route):
    words = [family_word(route.subject.family)] + [component_text(each) for each in route.subject.components]
    if route.actions:
        words += ["then"] + [action_text(action) for action in route.actions]
    return " ".join(words)


def lines_of(command, config, standing):
    """The lines of `rules`, `list` or `shadow`, the peers aside."""
    for family in (4, 6):
        if command == "list":
            yield from map(rule_text, admitted(config, standing.held, family))
        else:
            yield from (listing_lines if command == "rules" else shadow_lines)(config, standing, family)


def survey(command, config, items):
    standing = play(config, items)
    lines = [f"peer {number} {state}" for number, state in standing.states.items()] if command == "rules" else []
    return "".join(line + "\n" for line in lines + list(lines_of(command, config, standing)))


def has_changed(before, after):
    """Whether what a rule does isn't what it did; None is a rule that isn't admitted."""
    return before is None or after is None or before.actions != after.actions


def differences(old, new):
    """What makes the new list of the old one, by the order of rules: a sign, a place in the list as it then stands,
    and the route of the rule that goes or comes."""
    was, now = ({route.subject: route for route in routes} for routes in (old, new))
    place = 1
    for rule in sorted({*was, *now}, key=functools.cmp_to_key(compare_rules)):
        before, after = was.get(rule), now.get(rule)
        if has_changed(before, after):
            yield from [("-", place, before)] if before else []
            yield from [("+", place, after)] if after else []
        place += after is not None


def fronts(config, items):
    """The admitted rules of each family behind each item, with its moment."""
    seen = []
    for item in items:
        seen.append(item)
        held = play(config, seen).held
        yield item.moment, {family: admitted(config, held, family) for family in (4, 6)}


def follow(config, items):
    """What each item changes of the admitted rules, as lines; a fault of the tape ends them with its own line."""
    lines, old = [], {4: [], 6: []}
    try:
        for moment, new in fronts(config, items):
            for family in (4, 6):
                lines += [f"{moment} {sign} {place} {rule_text(route)}\n"
                          for sign, place, route in differences(old[family], new[family])]
            old = new
    except Refusal as refusal:
        return refusal.status, "".join(lines) + refusal.line
    return 0, "".join(lines)


def judge(config, items, content):
    """The line of each packet, by the rules that stand at its moment; a fault ends the lines."""
    lines, last, rules = [], None, {}
    try:
        for number, captured in enumerate(read_capture(content), 1):
            until = [item for item in items if item.moment <= captured.moment]
            if len(until) != last:
                held = play(config, until).held
                last, rules = len(until), {family: admitted(config, held, family) for family in (4, 6)}
            lines.append(f"{number} {judged(rules, captured)}\n")
    except CaptureFault:
        return 5, "".join(lines)
    return 0, "".join(lines)


def judged(rules, captured):
    try:
        packet = view(captured.link, captured.octets)
    except Unread as reason:
        return f"unread {reason}"
    return packet_line(walk(rules[packet.family], packet))


def content_of(files, name):
    if name not in files:
        raise Refusal(1)
    return files[name]


def load_config(octets):
    try:
        return read_config(octets)
    except (Malformed, UnicodeDecodeError, tomllib.TOMLDecodeError):
        raise Refusal(3)


def is_command(words):
    counts = {"rules": 3, "list": 3, "shadow": 3, "changes": 3, "enforce": 4}
    return bool(words) and counts.get(words[0]) == len(words) and not any(w[:1] in ("", "-") for w in words)


def answered(words, files):
    config = load_config(content_of(files, words[1]))
    tape = content_of(files, words[2])
    if words[0] == "changes":
        return follow(config, tape_items(tape, config.peers))
    items = read_tape(tape, config.peers)
    if words[0] == "enforce":
        return judge(config, items, content_of(files, words[3]))
    return 0, survey(words[0], config, items)


def answer(words, files):
    """The status, and the octets that are written, of a command over files that are told by their names."""
    try:
        if not is_command(words):
            raise Refusal(2)
        status, text = answered(words, files)
    except Refusal as refusal:
        status, text = refusal.status, refusal.line if words[:1] != ["enforce"] else ""
    return status, text.encode()


def main():
    words = sys.argv[1:]
    files = {word: pathlib.Path(word).read_bytes() for word in words[1:] if pathlib.Path(word).is_file()}
    status, octets = answer(words, files)
    sys.stdout.buffer.write(octets)
    return status


if __name__ == "__main__":
    sys.exit(main())
