"""The words of `welgutan-nft`, and what it does with a listing."""

import argparse
import os
import pathlib
import re
import sys
from typing import NamedTuple

from . import policy, ruleset
from .follower import CANNOT, Follower
from .parts import Options


def device_name(text):
    if not re.fullmatch(r'[^\s/"\\]{1,15}', text):
        raise argparse.ArgumentTypeError("no name of a device")
    return text


WORDS_OF_NFT = ("table", "netdev", "ingress")


def table_name(text):
    if not re.fullmatch(r"[A-Za-z][A-Za-z0-9_]{0,30}", text) or text in WORDS_OF_NFT:
        raise argparse.ArgumentTypeError("no name of a table")
    return text


def number_up_to(most):
    def number(text):
        if not (text.isascii() and text.isdecimal() and int(text) <= most):
            raise argparse.ArgumentTypeError(f"no number from 0 to {most}")
        return int(text)
    return number


group_number = number_up_to(65535)


def seconds(text):
    if not re.fullmatch(r"[0-9]{1,6}(\.[0-9]{1,6})?", text):
        raise argparse.ArgumentTypeError("no number of seconds")
    return float(text)


def kinds(text):
    found = frozenset(text.split(",")) if text else frozenset()
    if found - set(policy.KINDS):
        raise argparse.ArgumentTypeError(f"not all of {','.join(policy.KINDS)}")
    return found


def networks(path):
    try:
        return policy.read_networks(pathlib.Path(path).read_text(encoding="utf-8"))
    except (OSError, ValueError) as error:
        raise argparse.ArgumentTypeError(f"{path}: {error}") from error


class Settings(NamedTuple):
    """How a stream is followed; times in seconds."""
    at_end: str
    never: dict
    counters: object
    each: float
    window: float
    settle: float
    grace: float
    has_owner: bool


def add_bounds(follow):
    """What the rules may do that act."""
    follow.add_argument("--most", type=number_up_to(10**9), default=1000, metavar="N",
                        help="at most N rules act: first come, first served (1,000)")
    follow.add_argument("--most-each", type=number_up_to(10**9), default=256, metavar="N",
                        help="at most N rules of one destination are tried one by one (256)")
    follow.add_argument("--allow", type=kinds, default=frozenset(policy.KINDS), metavar="KINDS",
                        help="a rule acts only if all that it does is in KINDS: some of "
                        f"{','.join(policy.KINDS)}, where pass ends the walk and lets the packet pass (all)")
    follow.add_argument("--shortest4", type=number_up_to(32), default=0, metavar="LENGTH",
                        help="leave out IPv4 rules with a shorter destination, or none (0)")
    follow.add_argument("--shortest6", type=number_up_to(128), default=0, metavar="LENGTH",
                        help="leave out IPv6 rules with a shorter destination, or none (0)")
    follow.add_argument("--never", type=networks, default={4: [], 6: []}, metavar="FILE",
                        help="networks, one in a line (# begins a remark): no rule sees what comes from them or goes"
                        " to them")


def add_following(parser):
    follow = parser.add_argument_group("with --follow")
    follow.add_argument("--follow", action="store_true",
                        help="read lines of `changes`, and let the rules act as they come")
    add_bounds(follow)
    follow.add_argument("--at-end", choices=("remove", "keep"), default="remove",
                        help="what becomes of the table at the input's end, and at SIGTERM, SIGINT, SIGHUP and SIGKILL"
                        " (remove)")
    follow.add_argument("--counters", metavar="FILE",
                        help="write FILE.txt, FILE.json and FILE.prom (for node_exporter) again and again")
    follow.add_argument("--each", type=seconds, default=5, metavar="SECONDS", help="between two of these (5)")
    follow.add_argument("--window", type=seconds, default=0.01, metavar="SECONDS",
                        help="the longest time for which lines are gathered into one transaction (0.01)")
    follow.add_argument("--settle", type=seconds, default=0.5, metavar="SECONDS",
                        help="a table of that name that is there at the start acts until lines have come and then none"
                        " for so long (0.5); then the new one takes its place at once, with its counts")
    follow.add_argument("--grace", type=seconds, default=120, metavar="SECONDS",
                        help="the same where no line comes at all (120)")
    follow.add_argument("--without-owner", action="store_true", help="as with a kernel whose tables have no owner")


def parser_of(description):
    parser = argparse.ArgumentParser(description=description, formatter_class=argparse.RawDescriptionHelpFormatter)
    parser.add_argument("device", type=device_name)
    parser.add_argument("--table", type=table_name, default="welgutan", metavar="NAME",
                        help="the table's name (welgutan)")
    parser.add_argument("--check", action="store_true", help="rules only count")
    parser.add_argument("--sample", type=group_number, metavar="GROUP", help="log what rules sample to this group")
    add_following(parser)
    return parser


def arguments(description, words=None):
    return parser_of(description).parse_args(words)


def write_ruleset(options):
    try:
        rules = ruleset.read_listing(sys.stdin.buffer.read().decode("latin-1"))
    except ruleset.NoListing as error:
        print(f"line {error}: no line of a listing", file=sys.stderr)
        return 1
    for each in rules:
        for line in ruleset.untold(each, options):
            print(line, file=sys.stderr)
    sys.stdout.write(ruleset.ruleset(rules, options))
    return 0


def follow(options, words):
    if sys.platform != "linux" or os.geteuid():
        print("root on Linux is missing", file=sys.stderr)
        return CANNOT
    bounds = policy.Policy(words.allow, {4: words.shortest4, 6: words.shortest6}, words.most, words.most_each)
    settings = Settings(words.at_end, words.never, words.counters, words.each, words.window, words.settle,
                        words.grace, not words.without_owner)
    try:
        return Follower(options, settings, bounds).run()
    except Exception as error:      # of the table's lock or socket, before there is a run
        print(f"{options.table}: {error}", file=sys.stderr)
        return CANNOT


def main(description):
    words = arguments(description)
    options = Options(words.device, words.table, words.check, words.sample)
    return follow(options, words) if words.follow else write_ruleset(options)
