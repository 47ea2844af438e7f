"""What the operator lets rules do: a rule that may not is left out, and told."""

import functools
import ipaddress
from typing import NamedTuple

from . import parts
from .flowspec import DESTINATION, MARK, RATES, REDIRECTS, discards, goes_on, samples, those_of

DROP, RATE, MARKING, SAMPLE, REDIRECT, PASS = KINDS = ("drop", "rate", "mark", "sample", "redirect", "pass")


class Policy(NamedTuple):
    allow: frozenset    # of KINDS
    shortest: dict      # of each family the least length of a destination
    most: int           # rules that act
    most_each: int      # of one destination, where they can't be looked up at once


@functools.lru_cache(1 << 10)
def kinds_of(actions):
    """What a rule does to packets, in the policy's words; one that only counts and goes on does nothing."""
    rates = those_of(actions, RATES)
    found = {DROP if discards(rate) else RATE for rate in rates}
    found |= {MARKING} if those_of(actions, (MARK,)) else set()
    found |= {SAMPLE} if samples(actions) else set()
    found |= {REDIRECT} if those_of(actions, REDIRECTS) else set()
    return found or (set() if goes_on(actions) else {PASS})


def why_left_out(policy, held):
    """Why the policy leaves a rule out, whatever else acts; None where it doesn't."""
    rule = held.rule
    never = parts.never_matches(rule) if held.plain is None else None
    if never is not None:
        return f"no packet matches: {never}"
    refused = kinds_of(held.actions) - policy.allow
    if refused:
        return f"{' and '.join(kind for kind in KINDS if kind in refused)} not allowed"
    shortest = policy.shortest[rule.family]
    destination = rule.destination()
    if shortest and (destination is None or destination.length < shortest):
        return f"destination shorter than /{shortest}" if rule.value(DESTINATION) else "no destination"
    return None


def read_networks(text):
    """Of each family the ranges of the networks that are never touched, as octets; ValueError with the wrong line."""
    networks = {4: [], 6: []}
    for line in text.splitlines():
        words = line.partition("#")[0].strip()
        if words:
            network = ipaddress.ip_network(words)
            networks[network.version].append(network)
    return {family: joined_ranges(found) for family, found in networks.items()}


def joined_ranges(networks):
    """The networks' first and last addresses, where they touch as one range."""
    joined = []
    for network in sorted(networks):
        first, last = int(network.network_address), int(network.broadcast_address)
        if joined and first <= joined[-1][1] + 1:
            first, last = joined[-1][0], max(last, joined.pop()[1])
        joined.append((first, last))
    octets = networks[0].max_prefixlen // 8 if networks else 0
    return [(first.to_bytes(octets, "big"), last.to_bytes(octets, "big")) for first, last in joined]
