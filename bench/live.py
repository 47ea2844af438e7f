#!/usr/bin/env python3
"""Tries docs/LIVE.md: rules go from sessions over bird's dump and a pipe into the kernel, and out again.

    bench/live.py [PROGRAM] [--within MS]

    tail -c +1 -F bird.mrt | tools/nft.py --with-ends peers.toml | PROGRAM convert peers.toml /dev/stdin |
      PROGRAM changes peers.toml /dev/stdin | tools/nft.py --follow DEVICE

bird has sessions with exabgp and with a speaker of this script; frames that leave each 5 ms through a veth tell when a
rule acts and when no more. Tried are rules that come, go, aren't admitted and lose their network, a thousand at once, a
dump that is begun anew, a follower that is killed and its successor, and the pipe's end. Each step's line has the
milliseconds from what a peer says to the first frame that is dropped, or passes. Where that is more than may be, or
something isn't as it should be, the status is 1.

All happens in a network namespace of this process alone, and in a folder that is removed. Where there is no root, bird,
exabgp, `ip`, `nft`, such a namespace or the command `changes` it is skipped.
"""

import argparse
import os
import pathlib
import re
import shutil
import signal
import socket
import subprocess
import sys
import tempfile
import time

import follow_command
import kernel
from follow_command import Stream, Wrong, nft, wait
from peer import open_message
from wire import HOP, KEEPALIVE, ORIGIN, V4_RULES, frame, reach, update

ROOT = pathlib.Path(__file__).resolve().parent.parent
PORT, MANY = 1790, 1000
PATIENCE = 60       # seconds until a step is given up
HERE, FIRST, SECOND = "127.0.0.1", "127.0.0.15", "127.0.0.16"
TARGET, OTHER = "192.0.2.10", "203.0.113.9"     # of the first and the second peer's network

CONFIG = f"""local_as = 65000
local_id = "192.0.2.254"
peer = [{{ number = 1, address = "{FIRST}", as = 65001 }}, {{ number = 2, address = "{SECOND}", as = 65002 }}]
"""
BIRD = f"""router id 192.0.2.254; mrtdump "FOLDER/bird.mrt"; mrtdump protocols all;
flow4 table flowtab4; protocol device {{ }}
template bgp customer {{ local {HERE} port {PORT} as 65000; multihop; passive; strict bind; error wait time 1, 1;
  ipv4 {{ import all; export none; }}; flow4 {{ table flowtab4; import all; export none; }}; }}
protocol bgp peer1 from customer {{ neighbor {FIRST} as 65001; }}
protocol bgp peer2 from customer {{ neighbor {SECOND} as 65002; }}
"""
EXABGP = f"""process says {{ run FOLDER/says; encoder text; }}
neighbor {HERE} {{ router-id {FIRST}; local-address {FIRST}; local-as 65001; peer-as 65000; connect {PORT};
  family {{ ipv4 unicast; ipv4 flow; }} api {{ processes [ says ]; }} }}
"""
SAYS = "#!/bin/sh\nexec tail -n +1 -f --pid=$PPID FOLDER/said\n"
FILES = {"peers.toml": CONFIG, "bird.conf": BIRD, "exabgp.conf": EXABGP, "said": "", "says": SAYS}
SETTINGS = {"exabgp.daemon.user": "root", "exabgp.daemon.drop": "false", "exabgp.api.cli": "false"}
RUN_BIRD = ("bird", "-f", "-c", "bird.conf", "-s", "bird.ctl")
RULE = "flow route { match { destination 192.0.2.10/32; protocol udp; destination-port =53; } then { discard; } }"
ROUTE = "route 192.0.2.0/24 next-hop 192.0.2.1"


PIPE = """exec PYTHON ROOT/tools/nft.py --follow DEVICE WORDS < <(tail -c +1 -F bird.mrt 2>/dev/null |
  PYTHON ROOT/tools/nft.py --with-ends peers.toml | PROGRAM convert peers.toml /dev/stdin |
  PROGRAM changes peers.toml /dev/stdin)"""


def turned(stream, comes, since):
    """When the first was sent of the last ones, three or more, that came, or didn't; else None."""
    found = []
    for number in range(len(stream.sent) - 1, -1, -1):
        moment, to = stream.sent[number]
        if moment < since or to != stream.to:
            break
        has_come = number in stream.came
        if has_come or moment < time.monotonic() - follow_command.LATE:
            if has_come != comes:
                break
            found.append(moment)
    return found[-1] if len(found) >= 3 else None


PATH = ORIGIN + bytes.fromhex("4002040201fdea")     # AS 65002, whose numbers have two octets


def rule_update(port):
    """UPDATE of a rule that discards UDP to the port of the second peer's address, or with 0 of the first one's."""
    address = socket.inet_aton(OTHER if port else TARGET)
    rule = b"\1\x20" + address + bytes.fromhex("0381110591") + (port or 53).to_bytes(2, "big")
    return update(b"", PATH + bytes.fromhex("c010088006000000000000") + reach(V4_RULES, frame(rule)))


class Speaker:
    """A session with bird, in which the second network is announced."""

    def __init__(self):
        self.end = wait(self.connected, "bird doesn't listen")
        self.say(open_message(65002) + KEEPALIVE)
        self.say(update(b"", PATH + HOP[:-1] + b"\2", b"\x18" + socket.inet_aton(OTHER)[:3]))

    @staticmethod
    def connected():
        end = socket.socket()
        end.bind((SECOND, 0))
        end.settimeout(PATIENCE)
        return end if end.connect_ex((HERE, PORT)) == 0 else end.close()

    def say(self, octets):
        moment = time.monotonic()
        self.end.sendall(octets)
        return moment

    def say_many(self):
        return self.say(b"".join(map(rule_update, range(1, MANY + 1))))


class Trial:
    """The daemons, the pipe and files in a folder of their own."""

    def __init__(self, options, folder):
        self.options, self.folder, self.dump = options, folder, folder / "bird.mrt"
        self.running, self.late, self.stream = {}, 0, Stream()
        for name, text in FILES.items():
            (folder / name).write_text(text.replace("FOLDER", str(folder)))
            (folder / name).chmod(0o755)
        self.stream.start()

    def start(self, name, *words, **settings):
        with (self.folder / f"{name}.out").open("ab") as out, (self.folder / f"{name}.err").open("ab") as err:
            self.running[name] = subprocess.Popen(list(map(str, words)), stdout=out, stderr=err, cwd=self.folder,
                                                  stdin=subprocess.DEVNULL, env=os.environ | settings,
                                                  start_new_session=True)

    def end(self, name, how=signal.SIGTERM):
        """The status; what else was started with it ends too."""
        running = self.running.pop(name)
        running.send_signal(how)
        status = running.wait(PATIENCE)
        try:
            os.killpg(running.pid, signal.SIGKILL)
        except ProcessLookupError:
            pass
        return status

    def follow(self, *words):
        text = PIPE
        for name, value in (("PYTHON", sys.executable), ("ROOT", ROOT), ("DEVICE", kernel.HOOKED),
                            ("WORDS", " ".join(words)), ("PROGRAM", self.options.program.resolve())):
            text = text.replace(name, str(value))
        self.start("live", "bash", "-c", text)

    def say(self, words):
        """Has exabgp say this, and answers the moment."""
        moment = time.monotonic()
        with (self.folder / "said").open("a") as said:
            said.write(words + "\n")
        return moment

    def told(self, pattern, file="live.out"):
        path = self.folder / file
        wait(lambda: re.search(pattern, path.read_text(), re.MULTILINE), f"{file} has no line '{pattern}'")

    def turns(self, comes, since, what):
        """Waits until frames are dropped, or pass, and counts from the moment."""
        moment = wait(lambda: turned(self.stream, comes, since), f"{what}: frames {'are dropped' if comes else 'pass'}")
        milliseconds = round((moment - since) * 1000)
        self.late += milliseconds > self.options.within
        beyond = f", and may take {self.options.within}" if milliseconds > self.options.within else ""
        print(f"{what}: {milliseconds} ms{beyond}", flush=True)
        return time.monotonic()


def is_there():
    return nft("list", "table", "netdev", kernel.TABLE).returncode == 0


def first_peer(trial):
    trial.start("bird", *RUN_BIRD)
    wait(trial.dump.exists, "bird writes no dump")
    trial.follow()
    trial.say("announce " + ROUTE)
    trial.start("exabgp", "exabgp", "exabgp.conf", **SETTINGS)
    wait(lambda: turned(trial.stream, True, 0), "no frame passes")
    wait(is_there, "no table is made")
    trial.turns(False, trial.say("announce " + RULE), "a rule comes (and its session)")
    trial.turns(True, trial.say("withdraw " + RULE), "it goes")
    trial.turns(False, trial.say("announce " + RULE), "it comes again")
    trial.turns(True, trial.say("withdraw " + ROUTE), "its network goes")
    trial.turns(False, trial.say("announce " + ROUTE), "its network comes")
    trial.turns(True, trial.say("withdraw " + RULE), "it goes again")


def second_peer(trial):
    """A rule for the other peer's network isn't admitted; a thousand come at once, and go with their session."""
    speaker = Speaker()
    speaker.say(rule_update(0))
    trial.stream.to = OTHER, 53
    trial.turns(False, speaker.say(rule_update(53)), "a rule of the second peer comes")
    trial.stream.to = TARGET, 53
    trial.stream.passes("a rule for the other's network acts")
    print("a rule for the other's network isn't admitted", flush=True)
    trial.stream.to = OTHER, MANY
    trial.turns(False, speaker.say_many(), f"{MANY} rules come")
    begun = time.monotonic()
    speaker.end.close()
    trial.turns(True, begun, "their session ends")
    speaker = Speaker()
    trial.turns(False, speaker.say_many(), "they come again by the next one")
    return speaker


def dump_anew(trial, speaker):
    """As the unit does at its start; who restarts under attack keeps the table."""
    if trial.end("live") or is_there():
        raise Wrong("SIGTERM leaves the table, or its status isn't 0")
    trial.stream.passes("the pipe has ended")
    trial.follow("--at-end", "keep", "--most", str(2 * MANY))
    since = trial.stream.drops("the pipe is begun anew")
    trial.end("live", signal.SIGKILL)
    speaker.end.close()
    trial.dump.rename(trial.folder / "old.mrt")
    kernel.run("birdc", "-s", trial.folder / "bird.ctl", "configure")
    wait(trial.dump.exists, "bird writes no other dump")
    trial.follow("--at-end", "keep", "--most", str(2 * MANY), "--settle", "2")
    trial.told("which acts until the lines that come are quiet", "live.err")
    speaker = Speaker()
    speaker.say_many()
    trial.told(f"the old table is replaced: {MANY} rules act", "live.err")
    trial.stream.all_dropped(since, "a follower is killed, and its successor reads another dump")
    print("a follower is killed, and its successor reads another dump: the rules act on", flush=True)
    trial.end("live")
    nft("delete", "table", "netdev", kernel.TABLE)


def arguments():
    parser = argparse.ArgumentParser(description=__doc__, formatter_class=argparse.RawDescriptionHelpFormatter)
    parser.add_argument("program", nargs="?", type=pathlib.Path, default=ROOT / "crates/welgutan/out/welgutan")
    parser.add_argument("--within", type=int, default=1000, metavar="MS", help="that a rule takes to come or to go")
    return parser.parse_args()


def lacking():
    daemon = next((name for name in ("bird", "exabgp") if not shutil.which(name)), None)
    return f"{daemon} is missing" if daemon else kernel.lacking()


def has_changes(program):
    """Whether the program has the command; a file that isn't there has another status than a word that isn't."""
    done = subprocess.run([program, "changes", "/nowhere", "/nowhere"], capture_output=True, check=False)
    return done.returncode != 2


def tried(trial, folder):
    begun = time.monotonic()
    try:
        first_peer(trial)
        dump_anew(trial, second_peer(trial))
    except (Wrong, OSError, subprocess.TimeoutExpired) as error:
        print(f"not as it should be: {error}")
        for path in sorted(folder.glob("*.err")) + sorted(folder.glob("live.out")):
            print(f"{path.name}: {path.read_text()[-1500:]}")
        return 1
    finally:
        for name in list(trial.running):
            trial.end(name, signal.SIGKILL)
    print(f"all as it should be, {trial.late} too long, in {time.monotonic() - begun:.0f} seconds")
    return 1 if trial.late else 0


def main():
    options = arguments()
    if not os.access(options.program, os.X_OK):
        print(f"the program isn't there: {options.program}")
        return 2
    if not has_changes(options.program):
        print("skipped, since the program has no command `changes`: bench/live.py")
        return 0
    if lacks := lacking():
        print(f"skipped, since {lacks}: bench/live.py")
        return 0
    kernel.run("ip", "link", "set", "lo", "up")
    signal.signal(signal.SIGTERM, lambda *_: sys.exit(1))
    with tempfile.TemporaryDirectory() as folder:
        return tried(Trial(options, pathlib.Path(folder)), pathlib.Path(folder))


if __name__ == "__main__":
    sys.exit(main())
