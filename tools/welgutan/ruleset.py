"""The text for `nft -f` of the rules of a listing: a table whose chains keep the rules' order."""

import re
from typing import NamedTuple

from . import parts
from .flowspec import MARK, NoRule, read_actions, read_octets, rule_octets, those_of


class Admitted(NamedTuple):
    family: int
    number: int         # in its family, from 1
    rule: object
    actions: tuple

    def name(self):
        """What the listing's line begins with."""
        return f"v{self.family} {self.number}"


class NoListing(Exception):
    """A line that no listing has, with its number."""


ADMITTED = re.compile(r"v([46]) ([1-9][0-9]*) ([0-9a-f]+) peer [0-9]+ actions (-|[0-9a-f]+)")
PASSED_OVER = re.compile(r"peer [0-9]+ (down|wait-open|wait-keepalive|established|(closed|notified) [0-9]+/[0-9]+)"
                         r"|v[46] invalid [0-9a-f]+ peer [0-9]+ (NoDestination|Originator|MoreSpecific|LeftAs)")
LONGEST_NUMBER = 18     # in digits


def read_admitted(line):
    found = ADMITTED.fullmatch(line)
    if not found or len(found[2]) > LONGEST_NUMBER:
        raise NoRule(line)
    family = int(found[1])
    actions = read_actions(bytes.fromhex(found[4])) if found[4] != "-" else ()
    return Admitted(family, int(found[2]), read_octets(bytes.fromhex(found[3]), family), actions)


def read_listing(text):
    """The admitted rules; they are numbered in each family by itself."""
    lines, rules, following = text.split("\n"), [], {4: 1, 6: 1}
    for place, line in enumerate(lines[:-1], 1):
        if PASSED_OVER.fullmatch(line):
            continue
        try:
            rules.append(read_admitted(line))
        except ValueError as error:
            raise NoListing(place) from error
        if rules[-1].number != following[rules[-1].family]:
            raise NoListing(place)
        following[rules[-1].family] += 1
    if lines[-1] or len(lines) == 1:
        raise NoListing(len(lines))
    return rules


def line_text(line):
    comment = [f'comment "{line.comment}"'] if line.comment else []
    return " ".join([part.text for part in line.parts] + comment)


def destination_chain(family, prefix):
    return f"v{family}_to_{prefix.bits:x}_{prefix.length}"


def look_up(family, prefixes):
    """The line that jumps to the chain of a packet's destination, of those with one length."""
    first = prefixes[0]
    if not first.length:
        return f"jump {destination_chain(family, first)}"
    elements = [f"{parts.masked_address(family, True, each)[1]} : jump {destination_chain(family, each)}"
                for each in prefixes]
    return f"{parts.masked_address(family, True, first)[0]} vmap {{ {', '.join(elements)} }}"


def texts_of_rule(each, options):
    """A rule's first line, and its chains."""
    comment = f"{each.name()} {rule_octets(each.rule).hex()}"[:128]
    line, chains = parts.rule_lines(each.rule, each.actions, f"v{each.family}_{each.number}", comment, options)
    return line_text(line), {name: [line_text(line) for line in lines] for name, lines in chains.items()}


def family_chains(family, rules, options):
    """Of the destinations that cover a packet the longer one precedes, and those without one, or with an offset, come
    after them (RFC 8955 section 5.1, RFC 8956 section 4): so chains of destinations, the longest first, keep the
    order."""
    by_destination, others, chains = {}, [], {}
    for each in rules:
        line, own = texts_of_rule(each, options)
        chains |= own
        destination = each.rule.destination()
        (others if destination is None else by_destination.setdefault(destination, [])).append(line)
    chains |= {destination_chain(family, destination): lines for destination, lines in by_destination.items()}
    lengths = sorted({destination.length for destination in by_destination}, reverse=True)
    lines = [look_up(family, [each for each in by_destination if each.length == length]) for length in lengths]
    begin = [parts.LATER_NOTE.text] if family == 6 else []
    return chains | {f"v{family}": [*begin, *lines, *others, parts.MARKED_TO_END.text]}


def end_chains(rules):
    values = sorted({action[7] for each in rules for action in those_of(each.actions, (MARK,))})
    chains = {f"dscp_{value}": [f"{header} dscp set {value}" for header in ("ip", "ip6")] for value in values}
    return chains | {"end": parts.end_lines(values)}


def all_chains(rules, options):
    chains = end_chains([] if options.check else rules)
    for family in (4, 6):
        chains |= family_chains(family, [each for each in rules if each.family == family], options)
    hook = f'type filter hook ingress device "{options.device}" priority 0; policy accept;'
    begin = ["meta mark != 0 meta mark set 0", "meta protocol ip goto v4", "meta protocol ip6 goto v6"]
    return chains | {"walk": [hook, *begin]}


SHARED = re.compile(r"(th [sd]port|meta l4proto) \{ ([0-9, -]+) \}")


def set_text(name, field, values):
    kind = "inet_service" if field == "th" else "inet_proto"
    flags = "flags interval; " if "-" in values else ""
    return f"  set {name} {{\n    type {kind}; {flags}elements = {{ {values} }}\n  }}\n"


def with_shared_sets(text):
    """The ruleset's lines with one set for all equal lists of ports or protocols, and these sets: very many load
    slowly."""
    names = {}

    def named(found):
        key = found[1].split(" ")[0], found[2]
        return f"{found[1]} @{names.setdefault(key, f'values_{len(names)}')}"
    text = SHARED.sub(named, text)
    return "".join(set_text(name, *key) for key, name in names.items()) + text


def matchable(rules):
    return [each for each in rules if parts.never_matches(each.rule) is None]


def untold(each, options):
    """In words: what of a rule isn't done, or that it isn't there and why."""
    reason = parts.never_matches(each.rule)
    if reason is not None:
        yield f"{each.name()}: left out, since no packet matches: {reason}"
        return
    for words in parts.untold(each.rule, each.actions, options):
        yield f"{each.name()}: {words}"


def ruleset(rules, options):
    """The text that puts the table in the place of the last one at once."""
    table = f"table netdev {options.table}"
    lines = []
    for name, body in all_chains(matchable(rules), options).items():
        lines += [f"  chain {name} {{", *(f"    {line}" for line in body), "  }"]
    return f"add {table}\ndelete {table}\n{table} {{\n" + with_shared_sets("\n".join(lines)) + "\n}\n"
