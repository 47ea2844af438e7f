#!/usr/bin/env python3
"""Times the load of flow rules and of unicast routes, and reports routes per second and octets of memory for each.

    bench/load.py PROGRAM [--sizes N,N,..] [--group N,N,..] [--changes N] [--runs N]
    bench/load.py PROGRAM --dense

A tape holds the routes of one peer, one in each UPDATE. What is reported is the user and system time and the peak of
memory of `enforce` over an empty capture, less those with a tape without these routes: for unicast routes;
for rules to a destination each, beside a unicast route for each destination; for rules to one destination, and rules
without a destination, that come in no order; and for unicast routes that come and go beside the rules. With
`--sizes 1000000` it tells whether the rate is the same at a million. The peak is
what GNU time (Debian's package `time`) tells: the one that a script sees of its child begins with the script's own size.

With `--dense` it tells how many octets of memory an octet of tape takes at most: each UPDATE holds as many of the
shortest routes of a kind as a message can.

What a rule takes compiled is the peak with rules that are all admitted, by one unicast route that covers them, less
the peak without this route: then none is admitted, so none is compiled, and the table is the same. Beside the matcher
stands the list of admitted rules, whose entries are two references and a peer's number each: what is left without it is
told as the matcher's own, with what its vectors have touched of their growth. At most 100 octets are wanted for a rule of
IPv4 whose tests are four ranges.
"""

import argparse
import pathlib
import tempfile

from changes import START, changes_of, with_rules
from timing import best_of
from wire import (CONFIG, EMPTY_CAPTURE, HOP, ORIGIN, PATH, V4_RULES, V6_RULES, announce, attribute, flow, frame, reach, says,
                  slash24, update)

PORTS = 65536
LISTED = 24  # octets of an entry in the list of admitted rules
ODD = 40503  # multiplied by it, the ports come once each and in no order


def with_prefixes(routes):
    return b"".join(START + [says(announce(slash24(number))) for number in range(routes)])


def port_of(number):
    """A destination port of that number, as a component of NLRI."""
    return b"\x05\x91" + (number * ODD % PORTS).to_bytes(2, "big")


def to_one(rules):
    parts = START + [says(announce(slash24(0)))]
    parts += [says(flow(b"\x01" + slash24(0) + port_of(number))) for number in range(rules)]
    return b"".join(parts)


def to_none(rules):
    return b"".join(START + [says(flow(port_of(number))) for number in range(rules)])


def in_messages(parts, most):
    """The parts joined, as many at a time as the octets of a message hold."""
    joined = b""
    for part in parts:
        if len(joined) + len(part) > most:
            yield joined
            joined = b""
        joined += part
    yield joined


def dense_rules(values, path=PATH, most=4000):
    return [update(b"", reach(V4_RULES, octets) + path) for octets in in_messages(map(frame, values), most)]


def dense_routes(count, path=PATH, most=4000):
    return [update(b"", path + HOP, octets) for octets in in_messages(map(slash24, range(count)), most)]


def to_each(count):
    return (b"\1" + slash24(number) for number in range(count))


LONG_PATH = ORIGIN + attribute(2, (b"\2\xfa" + bytes.fromhex("0000fde9") * 250) * 2, 0x40)
DENSE = [
    ("unicast routes of four octets", dense_routes(200000)),
    ("rules to a destination each, six octets", dense_rules(to_each(200000))),
    ("rules without a destination, five octets", dense_rules(map(port_of, range(PORTS)))),
    ("unicast routes behind a path of 500 numbers", dense_routes(20000, LONG_PATH, 1900)),
    ("rules behind a path of 500 numbers", dense_rules(to_each(20000), LONG_PATH, 1900)),
]


def v4_rule(number):
    return flow(b"\1" + slash24(number))


def full_rule(number):
    """With a protocol, a destination port and a length beside the destination: four ranges."""
    return flow(b"\1" + slash24(number) + bytes.fromhex("03 81 06 05 91 0019 0a 91 0028"))


def listing_rule(number):
    """With ports that are no single range, behind the destination."""
    return flow(b"\1" + slash24(number) + bytes.fromhex("04 01 50 81 bb"))


def v6_rule(number):
    return flow(bytes.fromhex("01 40 00 20010db8") + number.to_bytes(4, "big"), b"", V6_RULES)


V4_ROUTE = announce(bytes([3, 0]))  # up to 31.255.255.255
V6_ROUTE = update(b"", PATH + attribute(14, bytes.fromhex("0002 01 10 20010db8000000000000000000000001 00 20 20010db8")))
COMPILED = [
    ("IPv4 rules", V4_ROUTE, v4_rule),
    ("IPv4 rules of four ranges", V4_ROUTE, full_rule),
    ("IPv4 rules with a list", V4_ROUTE, listing_rule),
    ("IPv6 rules", V6_ROUTE, v6_rule),
]


def spent(program, folder, tape, runs):
    """The least seconds of some runs, and the peak of memory in octets."""
    (folder / "tape").write_bytes(tape)
    taken = best_of(runs, [program, "enforce", *(folder / name for name in ("config", "tape", "capture"))])
    return taken.processor, taken.peak * 1024


def report(name, count, with_them, without):
    seconds = max(with_them[0] - without[0], 1e-9)
    octets = (with_them[1] - without[1]) / count
    print(f"{name} {count}: {count / seconds:,.0f} per second, {octets:,.0f} octets each", flush=True)


def main():
    parser = argparse.ArgumentParser(description=__doc__.split("\n", 1)[0])
    parser.add_argument("program", type=pathlib.Path)
    parser.add_argument("--sizes", default="10000,100000")
    parser.add_argument("--group", default="15000,30000,60000")
    parser.add_argument("--changes", type=int, default=200000)
    parser.add_argument("--runs", type=int, default=3)
    parser.add_argument("--dense", action="store_true")
    options = parser.parse_args()
    program = str(options.program.resolve())
    sizes = [int(size) for size in options.sizes.split(",")]
    groups = [int(size) for size in options.group.split(",")]
    if max(groups) > PORTS:
        parser.error(f"a group has at most {PORTS} rules")
    with tempfile.TemporaryDirectory() as made:
        folder = pathlib.Path(made)
        (folder / "config").write_text("allow_no_destination = true\n" * options.dense + CONFIG)
        (folder / "capture").write_bytes(EMPTY_CAPTURE)

        def measure(tape):
            return spent(program, folder, tape, options.runs)

        nothing = measure(b"".join(START))
        for name, updates in DENSE if options.dense else []:
            tape = b"".join(START + list(map(says, updates)))
            octets = measure(tape)[1] - nothing[1]
            print(f"{name}: {octets / len(tape):.1f} octets of memory an octet of tape, {octets >> 20} MiB in all", flush=True)
        if options.dense:
            return
        for size in sizes:
            routes = measure(with_prefixes(size))
            report("unicast routes", size, routes, nothing)
            rules = measure(with_rules(size))
            report("rules to a destination each", size, rules, routes)
            changed = measure(with_rules(size) + changes_of(options.changes))
            seconds = max(changed[0] - rules[0], 1e-9)
            print(f"beside these: {options.changes / seconds:,.0f} unicast changes per second", flush=True)
        for size in sizes:
            for name, route, rule in COMPILED:
                rules = b"".join(says(rule(number)) for number in range(size))
                admitted, none = measure(b"".join(START) + says(route) + rules), measure(b"".join(START) + rules)
                octets = (admitted[1] - none[1]) / size
                print(f"{name} {size}: {octets:,.0f} octets compiled, {octets - LISTED:,.0f} in the matcher", flush=True)
        for size in groups:
            report("rules to one destination", size, measure(to_one(size)), nothing)
            report("rules without a destination", size, measure(to_none(size)), nothing)


if __name__ == "__main__":
    main()
