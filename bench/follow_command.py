"""Tries the command `tools/nft.py --follow` by itself, while frames go through its device.

A part of `follow.py`, which says what it is for.
"""

import json
import pathlib
import re
import signal
import socket
import struct
import subprocess
import sys
import threading
import time

import kernel
from welgutan import flowspec

ROOT = pathlib.Path(__file__).resolve().parent.parent
COMMAND = [sys.executable, str(ROOT / "tools/nft.py")]
PATIENCE = 60           # seconds until a step is given up
EVERY = 0.005           # seconds between two frames
LATE = 0.5              # seconds that a frame may take
TARGET, OTHER, PORT = "192.0.2.10", "203.0.113.9", 53
RULE = f"v4 dst {TARGET}/32 proto =17 dport ={PORT} then bytes 65001:00000000"
LINED = f"v4 dst {TARGET}/32 proto =17 dport ={PORT},=54 then bytes 65001:00000000"
BESIDE = "v4 dst 198.51.0.0/16 then control 1"


class Wrong(Exception):
    pass


def want(holds, what):
    if not holds:
        raise Wrong(what)


def wait(holds, what):
    """What `holds` answers once it does; else `what` is wrong."""
    end = time.monotonic() + PATIENCE
    while not (found := holds()):
        want(time.monotonic() < end, what)
        time.sleep(0.01)
    return found


def frame(number, address, port):
    """UDP to the port of an address; the frame's number stands in the Ethernet source."""
    header = struct.pack(">BBHHHBBH4s4s", 0x45, 0, 28, 0, 0, 64, 17, 0, b"\xc6\x33\x64\7", socket.inet_aton(address))
    return kernel.TARGET + struct.pack(">HIH", 0x200, number, 0x800) + header + struct.pack(">HHHH", 40000, port, 8, 0)


class Stream(threading.Thread):
    """A frame each 5 ms, and of each whether it came."""

    def __init__(self):
        super().__init__(daemon=True)
        self.to, self.sent, self.came = (TARGET, PORT), [], set()
        self.first, self.last = kernel.packet_socket(kernel.FIRST), kernel.packet_socket(kernel.LAST)

    def run(self):
        while True:
            to, number = self.to, len(self.sent)
            self.sent.append((time.monotonic(), to))
            try:
                self.first.send(frame(number, *to))
            except OSError:         # the other end is down
                self.sent.pop()
            time.sleep(EVERY)
            self.came |= kernel.received(self.last).keys()

    def since(self, begin):
        """Of the frames that left for the present address from then on, and long enough ago, whether each came."""
        until = time.monotonic() - LATE
        found = []
        for number in range(len(self.sent) - 1, -1, -1):
            moment, to = self.sent[number]
            if moment < begin or to != self.to:
                break
            if moment < until or number in self.came:
                found.append(number in self.came)
        return found

    def all_dropped(self, begin, what):
        """Whether none came that left from then on; waits until some have left now."""
        now = time.monotonic()
        wait(lambda: len(self.since(now)) >= 5, "frames don't leave")
        came = sum(self.since(begin))
        want(not came, f"{what}: {came} frames of {len(self.since(begin))} came")

    def drops(self, what):
        """Waits until frames are dropped."""
        begin = time.monotonic()
        wait(lambda: len(found := self.since(begin)) >= 5 and not any(found[:5]), f"{what}: frames come")
        return time.monotonic()

    def passes(self, what):
        begin = time.monotonic()
        wait(lambda: len(found := self.since(begin)) >= 5 and all(found[:5]), f"{what}: frames don't come")


class Running:
    """The command, with lines by a pipe."""

    def __init__(self, folder, *words, device=kernel.HOOKED, reads=True, environment=None):
        self.path = folder / "told"
        self.path.write_text("")
        out = self.path.open("ab") if reads else subprocess.PIPE
        self.process = subprocess.Popen([*COMMAND, device, "--follow", *map(str, words)], stdin=subprocess.PIPE,
                                        stdout=out, stderr=out if reads else subprocess.STDOUT, env=environment)

    def say(self, *lines):
        self.process.stdin.write("".join(line + "\n" for line in lines).encode())
        self.process.stdin.flush()

    def told(self, pattern):
        return wait(lambda: re.search(pattern, self.path.read_text(), re.MULTILINE),
                    f"it isn't told: {pattern}, but {self.path.read_text()[-1500:]}")

    def end(self, how=None):
        """The status, after a signal or the input's end."""
        if how is None:
            self.process.stdin.close()
        else:
            self.process.send_signal(how)
        return self.process.wait(PATIENCE)


def nft(*words, text=""):
    return subprocess.run(["nft", *words], input=text, capture_output=True, text=True, check=False)


def is_there():
    return nft("list", "table", "netdev", kernel.TABLE).returncode == 0


def begun(folder, stream, *words, line=RULE):
    """The command with a rule that drops the stream's frames."""
    running = Running(folder, *words)
    running.say(f"1 + 1 {line}")
    running.told(r"\+ v4 dst 192|the old table is replaced")
    stream.drops("a rule comes")
    return running


def foreign_commands(folder):
    ruleset = subprocess.run([*COMMAND, kernel.HOOKED], input="peer 1 down\n", capture_output=True, text=True,
                             check=True)
    (folder / "rules.nft").write_text(ruleset.stdout)
    table = ["netdev", kernel.TABLE]
    return {"delete table": ["delete", "table", *table], "flush table": ["flush", "table", *table],
            "add rule": ["add", "rule", *table, "walk", "accept"],
            "a load of tools/nft.py": ["-f", folder / "rules.nft"]}


def others(folder, stream, running, at_end):
    """What others do to the table that this process owns changes nothing."""
    since = time.monotonic()
    second = subprocess.run([*COMMAND, kernel.HOOKED, "--follow"], capture_output=True, text=True, check=False,
                            stdin=subprocess.DEVNULL)
    want(second.returncode == 1 and "Operation not permitted" in second.stderr, f"a second instance: {second}")
    stream.all_dropped(since, "a second instance")
    for name, words, text in (("flush ruleset", ["flush", "ruleset"], ""),
                              ("a reload", ["-f", "-"], "flush ruleset\ntable inet filter {\n}\n")):
        want(not nft(*words, text=text).returncode, f"{name} ends with a status")
        stream.all_dropped(since, name)
    for name, words in foreign_commands(folder).items():
        done = nft(*words)
        want(done.returncode and "Operation not permitted" in done.stderr, f"{name}: {done}")
        stream.all_dropped(since, name)
    running.say(f"2 + 2 {BESIDE}")
    running.told(r"\+ v4 dst 198\.51")
    stream.all_dropped(since, "another rule comes")
    print(f"--at-end {at_end}: a second instance, flush ruleset, a reload and four commands change nothing", flush=True)


def removes(folder, stream):
    running = begun(folder, stream)
    others(folder, stream, running, "remove")
    want(running.end() == 0 and not is_there(), "the input's end leaves the table")
    stream.passes("the input's end")
    for how, status in ((signal.SIGTERM, 0), (signal.SIGHUP, 0), (signal.SIGKILL, -9)):
        running = begun(folder, stream)
        want(running.end(how) == status, f"{how.name}: another status")
        wait(lambda: not is_there(), f"{how.name} leaves the table")
        stream.passes(how.name)
    print("--at-end remove: the input's end, SIGTERM, SIGHUP and SIGKILL take the table out", flush=True)


def keeps(folder, stream):
    words = "--at-end", "keep"
    running = begun(folder, stream, *words)
    others(folder, stream, running, "keep")
    since = stream.drops("--at-end keep")
    for how in (None, signal.SIGTERM, signal.SIGKILL, signal.SIGKILL):
        running.end(how)
        stream.all_dropped(since, f"--at-end keep after {how}")
        counted = counts_told(folder)
        running = Running(folder, *words, "--counters", folder / "counts", "--each", "0.1")
        running.told("which acts until the lines that come are quiet")
        want_second_refused()
        running.say(f"1 + 1 {RULE if how is None else LINED}", f"1 + 2 {BESIDE}")
        running.told("the old table is replaced")
        stream.all_dropped(since, f"a successor after {how}")
        if how is None:
            wait(lambda: counts_told(folder) > counted, "the successor doesn't carry counts")
    want(running.end(signal.SIGTERM) == 0 and is_there(), "--at-end keep keeps nothing")
    want(not nft("delete", "table", "netdev", kernel.TABLE).returncode, "an orphan can't be deleted")
    stream.passes("the orphan is deleted")
    print("--at-end keep: at each end and for each successor the rules act without a gap; an orphan can be deleted",
          flush=True)


def waits_for_all(folder, stream):
    """More lines than one transaction has: the old table acts until a successor has all of them."""
    lines = [f"1 + {place} v4 dst 192.0.2.10/32 src 10.0.{place >> 8}.{place & 255}/32 then control 1"
             for place in range(1, 6001)]
    words = "--at-end", "keep", "--most", "7000"
    begun(folder, stream, *words).end(signal.SIGKILL)
    running = Running(folder, *words)
    running.say(*lines, f"1 + 6001 {RULE}")
    running.told("the old table is replaced: 6001 rules act")
    stream.drops("a successor has all lines")
    want(running.end() == 0, "a successor: another status")
    nft("delete", "table", "netdev", kernel.TABLE)
    print("a successor takes the table over once it has all of 6,001 lines", flush=True)


def counts_told(folder):
    try:
        rules = json.loads((folder / "counts.json").read_text())["rules"]
        return rules[0]["packets"] if rules else 0
    except (OSError, ValueError):
        return 0


def want_second_refused():
    second = subprocess.run([*COMMAND, kernel.HOOKED, "--follow", "--at-end", "keep"], capture_output=True, text=True,
                            check=False, stdin=subprocess.DEVNULL)
    want(second.returncode == 1, f"a second instance while an old table acts: {second}")


def without_owner(folder, stream):
    running = begun(folder, stream, "--without-owner", "--counters", folder / "counts", "--each", "0.1", line=LINED)
    second = subprocess.run([*COMMAND, kernel.HOOKED, "--follow", "--without-owner"], capture_output=True, text=True,
                            check=False, stdin=subprocess.DEVNULL)
    want(second.returncode == 1 and "another instance" in second.stderr, f"a second instance: {second}")
    for words in (["flush", "ruleset"], ["flush", "table", "netdev", kernel.TABLE],
                  ["flush", "chain", "netdev", kernel.TABLE, "v4"]):
        running.path.write_text("")
        time.sleep(1.2)         # a look at the lines that were made
        counted = counts_told(folder)
        nft(*words)
        running.told("is made anew")
        stream.drops(" ".join(words))
        wait(lambda: counts_told(folder) > counted, "counts aren't carried")
        want(counts_told(folder) >= counted, f"counts fall from {counted}")
    want(running.end(signal.SIGTERM) == 0 and not is_there(), "SIGTERM leaves the table")
    print("without an owner: a second instance is refused, and what others flush is made anew", flush=True)


def devices(folder, stream):
    """A device that isn't there, is renamed, is there again."""
    running = begun(folder, stream)
    for old, new in ((kernel.HOOKED, "away"), ("away", kernel.HOOKED)):
        kernel.run("ip", "link", "set", old, "down")
        kernel.run("ip", "link", "set", old, "name", new)
        kernel.run("ip", "link", "set", new, "up")
        running.told("isn't there: no rule acts" if new == "away" else "is there again")
    stream.drops("the device has its name again")
    running.end()
    running = Running(folder, device="later")
    running.told("later isn't there")
    running.say(f"1 + 1 {RULE}")
    running.told(r"\+ v4 dst")
    kernel.run("ip", "link", "add", "later", "type", "veth", "peer", "name", "later2")
    running.told("later is there again")
    want('device "later"' in nft("list", "table", "netdev", kernel.TABLE).stdout, "the table is for another device")
    kernel.run("ip", "link", "delete", "later")
    running.told("later isn't there(.|\n)*later isn't there")
    want(running.end() == 0, "the end without a device")
    print("a device that is missing, renamed or removed is told, and its rules act once it is there", flush=True)


WRONG = {
    "no place 3": f"1 + 3 {RULE}",
    "no rule at place 5": f"1 - 5 {RULE}",
    "at place 1 stands": f"1 - 1 {BESIDE}",
    "not in the order": "1 + 1 v4 dst 192.0.3.0/24 then control 1",
    "no rule in words": "1 + 2 v4 dst 192.0.3.1/24 then control 1",
    "no line of changes": f"1 * 1 {RULE}",
    r"\(cut\)": None,
}


def wrong_lines(folder, stream):
    for words, line in WRONG.items():
        running = begun(folder, stream)
        if line is None:
            running.process.stdin.write(b"1 - 1 v4 dst")
            want(running.end() == 3, "a line that is cut: another status")
        else:
            running.say(line, f"1 + 2 {BESIDE}")
            want(running.process.wait(PATIENCE) == 3, f"{line}: another status")
        running.told(f"a line doesn't fit, and nothing after it is done: .*{words}")
        want(f"+ {BESIDE}" not in running.path.read_text(), f"what follows is done: {line}")
        wait(lambda: not is_there(), "a wrong line leaves the table")
    running = begun(folder, stream, "--at-end", "keep")
    since = time.monotonic()
    running.say(f"1 - 2 {BESIDE}")
    want(running.process.wait(PATIENCE) == 3, "a wrong line under keep: another status")
    stream.all_dropped(since, "a wrong line under keep")
    nft("delete", "table", "netdev", kernel.TABLE)
    print(f"{len(WRONG)} lines that don't fit end the run with status 3, and the table where it isn't to be kept", flush=True)


def unread(folder, stream):
    """Nobody reads what is told; rules come and go all the same."""
    running = Running(folder, reads=False)
    for _ in range(40):
        running.say(*(line for _ in range(100) for line in (f"1 + 1 {BESIDE}", f"1 - 1 {BESIDE}")))
    running.say(f"1 + 1 {RULE}")
    stream.drops("nobody reads what is told")
    running.say(f"1 - 1 {RULE}")
    stream.passes("nobody reads what is told")
    want(running.end() == 0, "unread output: another status")
    running.process.stdout.close()
    print("8,000 changes whose lines nobody reads are done", flush=True)


def tells_manager(folder, stream):
    with socket.socket(socket.AF_UNIX, socket.SOCK_DGRAM) as end:
        end.bind(str(folder / "notify"))
        end.settimeout(PATIENCE)
        running = Running(folder, environment={"NOTIFY_SOCKET": str(folder / "notify"), "PATH": "/usr/sbin:/usr/bin"})
        want(end.recv(100) == b"WATCHDOG=1", "it is ready without a line")
        running.say(f"1 + 1 {RULE}")
        said = {b"WATCHDOG=1"}
        while b"READY=1" not in said:
            said.add(end.recv(100))
        since = stream.drops("READY")
        try_stopped(running, end)
        stream.all_dropped(since, "a process that was stopped")
        running.end()
    print("a service manager is told WATCHDOG while the kernel answers, and READY once the first lines act; of a process "
          "that is stopped nothing, and its rules act", flush=True)


def try_stopped(running, end):
    """A process that hangs says nothing."""
    running.process.send_signal(signal.SIGSTOP)
    end.settimeout(2)
    said = 0
    try:
        while said < 4:     # what was on its way
            end.recv(100)
            said += 1
    except TimeoutError:
        pass
    want(said < 4, "a process that is stopped says WATCHDOG")
    running.process.send_signal(signal.SIGCONT)
    want(end.recv(100) == b"WATCHDOG=1", "a process that goes on doesn't say WATCHDOG")


LABEL = r'\w+="[^"\\]*"'
SERIES = re.compile(rf'(# (HELP|TYPE) (welgutan_\w+) .+|welgutan_\w+\{{{LABEL}(, {LABEL})?\}} [0-9.]+)')
DASHBOARD = ROOT / "tools/grafana/welgutan.json"
BESIDE_OURS = {"node_textfile_mtime_seconds"}       # what node_exporter itself says of the file


def try_dashboard(named):
    """It asks for all that the follower writes, and for nothing that isn't there; its panels don't lie on each other."""
    dashboard = json.loads(DASHBOARD.read_text())
    places = [panel["gridPos"] for panel in dashboard["panels"]]
    taken = [(place["x"] + x, place["y"] + y) for place in places for x in range(place["w"]) for y in range(place["h"])]
    want(len(set(taken)) == len(taken) and max(x for x, _ in taken) < 24, "panels lie on each other")
    asked = {name for panel in dashboard["panels"] for target in panel["targets"]
             for name in re.findall(r"\b(?:welgutan|node)_\w+", target["expr"])}
    want(asked == named | BESIDE_OURS, f"the dashboard asks for {sorted(asked ^ (named | BESIDE_OURS))} alone, or not")


def files(folder, stream):
    running = begun(folder, stream, "--counters", folder / "counts", "--each", "0.1")
    running.say(f"1 + 2 {BESIDE}", "1 + 3 v4 proto =89 port =25 then control 1")
    running.told("proto =89 port =25")
    counted = counts_told(folder)
    wait(lambda: counts_told(folder) > counted + 5, "FILE.json doesn't count")
    told = json.loads((folder / "counts.json").read_text())
    want([rule["acts"] for rule in told["rules"]] == [True, True, False], f"FILE.json: {told}")
    acts = f'welgutan_acts{{device="{kernel.HOOKED}"}} 1'
    wait(lambda: acts in (folder / "counts.prom").read_text(), "welgutan_acts")
    lines = (folder / "counts.prom").read_text().splitlines()
    for line in lines:
        want(SERIES.fullmatch(line), f"FILE.prom: {line}")
    try_dashboard({line.split(" ")[2] for line in lines if line.startswith("# TYPE")})
    want("no packet matches" in (folder / "counts.txt").read_text(), "FILE.txt doesn't say what is left out")
    running.end()
    for line in (RULE, LINED):      # an element and a line
        running = begun(folder, stream, "--each", "1000", line=line)
        time.sleep(0.2)
        running.say(f"2 - 1 {line}")
        found = running.told(r"- v4 dst 192.* # counted ([0-9]+) packets, ([0-9]+) octets")
        want(int(found[1]) > 5 and int(found[2]) == 28 * int(found[1]), f"what a rule counted: {found[0]}")
        running.end()
    print("the three files say what rules count, and a line what one that goes has counted", flush=True)


def policies(folder, stream):
    for never in ("198.51.100.0/24   # the stream's sources\n2001:db8::/32\n", f"{TARGET}/32\n"):
        (folder / "never").write_text(never)
        running = Running(folder, "--never", folder / "never")
        running.say(f"1 + 1 {RULE}")
        running.told(r"\+ v4 dst")
        stream.passes("--never")
        running.end()
    running = Running(folder, "--most", "1", "--shortest4", "24", "--shortest6", "48", "--allow", "drop,pass")
    running.say(f"1 + 1 {RULE}", "1 + 2 v4 dst 192.0.2.11/32 then bytes 0:00000000", f"1 + 3 {BESIDE}",
                "1 + 3 v4 dst 198.51.100.0/24 then mark 10", "1 + 1 v6 dst 2001:db8:0:0:0:0:0:0/32", "1 + 5 v4 proto =6")
    for words in ("1 rules act already", "destination shorter than /24", "mark not allowed",
                  "destination shorter than /48", "no destination"):
        running.told(f"left out: {words}")
    running.say(f"2 - 1 {RULE}")
    running.told(r"\+ v4 dst 192\.0\.2\.11/32 .*let in")
    want(running.end() == 0, "policies: another status")
    running = Running(folder, "--most-each", "3")
    lined = [f"v4 dst {TARGET}/32 proto =17 dport ={port},=54" for port in (1, 2, 3, 4)]
    running.say(*(f"1 + {place} {line}" for place, line in enumerate(lined, 1)))
    running.told("dport =4,=54 .*left out: 3 rules of its destination")
    running.say(*(f"2 - 1 {line}" for line in lined[:3]))
    running.told("dport =4,=54 .*let in")
    running.end()
    print("--never, --most, --shortest4, --allow and --most-each leave out what they say, and let in who waited",
          flush=True)


def limits(folder, stream):
    """Changes beside a limit don't begin it anew."""
    running = Running(folder)
    running.say(f"1 + 1 v4 dst {OTHER}/32 then packets 0:40a00000", f"1 + 1 {RULE}")
    running.told(r"\+ v4 dst 192.0.2.10")
    stream.to = OTHER, PORT
    begin, since = time.monotonic(), len(stream.sent)
    while time.monotonic() < begin + 3:
        running.say(f"1 - 1 {RULE}", f"1 + 1 {RULE.replace('65001', '65002')}")
        time.sleep(0.02)
        running.say(f"1 - 1 {RULE.replace('65001', '65002')}", f"1 + 1 {RULE}")
        time.sleep(0.02)
    sent = len(stream.sent) - since
    time.sleep(LATE)
    came = sum(number in stream.came for number in range(since, since + sent))
    stream.to = TARGET, PORT
    want(0 < came < sent / 2 or sent < 60, f"of {sent} frames above a limit of 5 a second {came} came")
    running.end()
    print(f"of {sent} frames above a limit of 5 a second {came} came while a rule beside it changed", flush=True)


LOOKING = "port =25", "dport =25", "dport >=20&<=30,=50", "sport =1", "itype =8", "icode =1", "tcp =02", "frag =02"
AGAINST = {"v4": "192.0.2.0/24", "v6": "2001:db8:0:0:0:0:0:0/32"}


def protocols(folder, _):
    """No rule makes nft's own listing fail: each protocol beside each component that looks into its header."""
    running = Running(folder, "--most", "100000", "--most-each", "100000")
    rules = [f"{family} dst {prefix} proto ={number} {words}" for family, prefix in AGAINST.items()
             for number in range(256) for words in LOOKING]
    admitted = {family: in_order(rule for rule in rules if rule.startswith(family)) for family in AGAINST}
    running.say(*(f"1 + {place} {words}" for each in admitted.values() for place, words in enumerate(each, 1)))
    running.told(re.escape(admitted["v6"][-1]))
    for words in (["list", "ruleset"], ["-j", "list", "ruleset"], ["list", "table", "netdev", kernel.TABLE]):
        done = nft(*words)
        want(not done.returncode, f"nft {' '.join(words)} ends with {done.returncode} {done.stderr[-300:]}")
    running.end()
    listing = "".join(map(listing_of, admitted.values()))
    done = subprocess.run([*COMMAND, kernel.HOOKED], input=listing, capture_output=True, text=True, check=True)
    for words in (["-c", "-f", "-"], ["-f", "-"]):
        taken = nft(*words, text=done.stdout)
        want(not taken.returncode, f"nft {' '.join(words)}: {taken.stderr[-300:]}")
    want(not nft("list", "ruleset").returncode, "nft doesn't list what it loaded")
    nft("delete", "table", "netdev", kernel.TABLE)
    print(f"nft takes and lists {len(rules)} rules of all protocols", flush=True)


def listing_of(lines):
    """What `rules` writes of these rules, which are of one family."""
    rules = [flowspec.read_words(words)[0] for words in lines]
    return "".join(f"v{rule.family} {number} {flowspec.rule_octets(rule).hex()} peer 1 actions -\n"
                   for number, rule in enumerate(rules, 1))


def in_order(rules):
    return sorted(rules, key=lambda words: flowspec.order_key(flowspec.read_words(words)[0]))


STEPS = (removes, keeps, waits_for_all, without_owner, devices, wrong_lines, unread, tells_manager, files, policies,
         limits, protocols)


def try_all(folder, names=()):
    stream = Stream()
    stream.start()
    stream.passes("without rules")
    for step in STEPS:
        if not names or step.__name__ in names:
            step(folder, stream)
