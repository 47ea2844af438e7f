#!/usr/bin/env python3
"""keep.py PROGRAM [--keepers N] [--changes N | --bird [--within S]]: PROGRAM keeps rules at routers on loopback, while their files change and sessions are cut.

Each keeper has a router of its own, which keeps a table of what the session says as a router does: rules with their path
and actions, all gone when the connection ends. A file is changed again and again, as an editor does (whole, in two halves,
by another file in its place), made faulty or taken away; and now and then the session is cut, by FIN, RST, a Cease or by
silence. Behind each change the table has to become what the file holds, or held last where it isn't accepted; and no rule
that stays may be withdrawn on the way. The lines that the program writes are checked beside that. By default fifty
keepers see twenty changes each, side by side, for one to two minutes. The last line counts them. It judges what happens,
and never how soon.

With --bird the router is bird, if it is there, and the file gets a rule more ten times. Each has to be in bird's table
within 2.5 seconds, or as many as --within says. Then bird is killed and started again, and has to hold all rules.
"""
import argparse
import contextlib
import os
import pathlib
import random
import re
import shutil
import socket
import struct
import subprocess
import sys
import tempfile
import threading
import time

import wire
from peer import free_port, open_message, reset
from wire import KEEPALIVE, MARKER, V4_RULES, V6_RULES, message

PATIENCE = 200      # seconds that a step may take
HOLD_TIME = 3
CONFIG = f"hold_time = {HOLD_TIME}\nallow_no_destination = true\n" + wire.CONFIG
FAULTS = ['id = "198.51.100.1"\nas_path = [0]\n', "rule = \n", 'id = "198.51.100.1"\nas_path = []\n[[rule]]\ntext = "x"\n']
LINE = re.compile(r"(\d+) (up|sent \d+ withdrawn \d+|kept [ -~]+|closed \d+/\d+|notified \d+/\d+|ended|unreached)")
ACTIONS = ["", "80060000447a0000", "8006000000000000", "8007000000000002", "8009000000000004"]
CUTS = ["fin", "rst", "cease", "silence"]


class Fault(Exception):
    """What isn't as it should be, in words."""


def attributes_in(octets):
    """The attributes of an UPDATE by type."""
    found = {}
    while octets:
        if octets[0] & 0x10:
            size, head = struct.unpack(">H", octets[2:4])[0], 4
        else:
            size, head = octets[2], 3
        found[octets[1]], octets = octets[head:head + size], octets[head + size:]
    return found


def frames_in(octets):
    """The rules of NLRI, each with its length before it (RFC 8955 section 4.1)."""
    frames = []
    while octets:
        size = octets[0] + 1 if octets[0] < 0xF0 else (struct.unpack(">H", octets[:2])[0] & 0xFFF) + 2
        frames.append(octets[:size])
        octets = octets[size:]
    return frames


class Router(threading.Thread):
    """A router that takes one connection after the other, and keeps a table of what the session says."""

    def __init__(self):
        super().__init__(daemon=True)
        self.server = socket.create_server(("127.0.0.1", 0))
        self.address = f"127.0.0.1:{self.server.getsockname()[1]}"
        self.lock = threading.Lock()
        self.table, self.withdrawn, self.sessions, self.fault = {}, set(), 0, None
        self.end, self.is_silent, self.is_up, self.most = None, False, False, 0

    def run(self):
        while True:
            end, _ = self.server.accept()
            with self.lock:
                self.end, self.is_silent, self.is_up = end, False, False
            try:
                self.speak(end)
            except OSError:
                pass
            except Exception as fault:
                self.fault = repr(fault)
            with self.lock:
                self.table, self.end, self.is_up = {}, None, False
            with contextlib.suppress(OSError):
                end.close()

    def speak(self, end):
        end.settimeout(1)
        end.sendall(open_message(65000, HOLD_TIME))
        came = b""
        while True:
            try:
                piece = end.recv(65536)
                if not piece:
                    return
                came += piece
            except TimeoutError:
                pass
            while len(came) >= 19 and len(came) >= (size := struct.unpack(">H", came[16:18])[0]):
                self.take(end, came[18], came[19:size])
                if came[:16] != MARKER or size > 4096:
                    raise Fault("no message")
                came = came[size:]
            if not self.is_silent:
                end.sendall(KEEPALIVE)

    def take(self, end, kind, body):
        if kind == 1:
            with self.lock:
                self.sessions, self.is_up = self.sessions + 1, True
        if kind == 2:
            with self.lock:
                self.update(body)

    def update(self, body):
        size = struct.unpack(">H", body[:2])[0]
        found = attributes_in(body[4 + size:])
        if 15 in found:
            frames = frames_in(found[15][3:])
            self.most = max(self.most, len(frames))
            for frame in frames:
                self.withdrawn.add((found[15][:3], frame))
                if self.table.pop((found[15][:3], frame), None) is None:
                    raise Fault("a rule is withdrawn that isn't there")
        if 14 in found:
            for frame in frames_in(found[14][5:]):
                self.table[found[14][:3], frame] = found.get(2), found.get(16, b"")

    def cut(self, how):
        """Cuts the session, if there is one."""
        with self.lock:
            end = self.end
        if end is None:
            return
        with contextlib.suppress(OSError):
            if how == "silence":
                self.is_silent = True
                return
            if how == "cease":
                end.sendall(message(3, b"\6\4"))
            if how == "rst":
                reset(end)
            else:
                end.shutdown(socket.SHUT_RDWR)


class File:
    """Rules, and what a router holds that was told them."""

    def __init__(self, draws):
        self.draws = draws
        self.rules = {number: draws.choice(ACTIONS) for number in draws.sample(range(2000), draws.randrange(1, 400))}
        self.path = [65001]

    def changes(self):
        """Other rules, other actions, and now and then another path."""
        kept = {number: actions for number, actions in self.rules.items() if self.draws.random() < 0.8}
        for number in self.draws.sample(range(2000), self.draws.randrange(200)):
            kept[number] = self.draws.choice(ACTIONS)
        kept[2000 + len(kept)] = ""
        self.rules = kept
        if self.draws.random() < 0.1:
            self.path = [65001] * self.draws.randrange(1, 4)

    @staticmethod
    def nlri(number):
        """Of IPv4, and each third one of IPv6: a port of a destination."""
        if number % 3:
            return "v4", wire.frame(b"\1\x18\x0a" + number.to_bytes(2, "big") + b"\x03\x81\x11")
        return "v6", wire.frame(b"\1\x30\0\x20\1\x0d\xb8" + number.to_bytes(2, "big"))

    def text(self):
        lines = ['id = "198.51.100.1"', f"as_path = {self.path}"]
        for number, actions in self.rules.items():
            family, frame = self.nlri(number)
            lines += ["[[rule]]", f'family = "{family}"', f'nlri = "{frame.hex()}"', f'actions = "{actions}"']
        return "\n".join(lines) + "\n"

    def table(self):
        """By family and rule: AS_PATH with AS numbers of two octets, as this router has them, and the actions."""
        path = struct.pack(">BB", 2, len(self.path)) + b"".join(struct.pack(">H", asn) for asn in self.path)
        held = {}
        for number, actions in self.rules.items():
            family, frame = self.nlri(number)
            held[V4_RULES if family == "v4" else V6_RULES, frame] = path, bytes.fromhex(actions)
        return held


class Keeper:
    """The program that keeps a file's rules at a router."""

    def __init__(self, program, seed, folder):
        self.draws = random.Random(seed)
        self.folder = pathlib.Path(folder)
        self.router = Router()
        self.router.start()
        (self.folder / "config").write_text(CONFIG)
        self.file = File(self.draws)
        self.put(self.file.text())
        self.output = open(self.folder / "lines", "wb")
        self.process = subprocess.Popen([program, "keep", "config", "rules", self.router.address], cwd=folder, stdout=self.output)

    def put(self, text):
        """Writes the file as an editor may."""
        how = self.draws.randrange(3)
        if how == 0:
            (self.folder / "rules").write_text(text)
        elif how == 1:
            with open(self.folder / "rules", "w") as file:
                file.write(text[:len(text) // 2])
                file.flush()
                time.sleep(self.draws.random() * 0.7)
                file.write(text[len(text) // 2:])
        else:
            (self.folder / "other").write_text(text)
            os.replace(self.folder / "other", self.folder / "rules")

    def lines(self):
        written = (self.folder / "lines").read_text()
        return written[:written.rfind("\n") + 1].splitlines()

    def waits_for(self, test, words):
        until = time.monotonic() + PATIENCE
        while not test():
            if self.router.fault:
                raise Fault(self.router.fault)
            if self.process.poll() is not None:
                raise Fault(f"it ended with {self.process.returncode}")
            if until < time.monotonic():
                raise Fault(f"it never happens: {words}")
            time.sleep(0.05)

    def holds(self, table):
        with self.router.lock:
            return self.router.is_up and self.router.table == table

    def settles(self):
        table = self.file.table()
        self.waits_for(lambda: self.holds(table), "the table is the file's")

    def change(self):
        """One change, and perhaps a cut while it is taken up."""
        before = len(self.lines())
        kind = self.draws.random()
        self.router.withdrawn.clear()
        is_cut = self.draws.random() < 0.3
        if kind < 0.1:
            (self.folder / "rules").unlink()
        elif kind < 0.25:
            self.put(self.draws.choice(FAULTS))
        else:
            self.file.changes()
            self.put(self.file.text())
        if is_cut:
            time.sleep(self.draws.random() * 2.5)
            self.router.cut(self.draws.choice(CUTS))
        if kind < 0.25:
            self.waits_for(lambda: any(" kept " in line for line in self.lines()[before:]), "a faulty file is told")
        self.settles()
        with self.router.lock:
            wrong = self.router.withdrawn & set(self.file.table())
        if wrong:
            raise Fault(f"{len(wrong)} rules were withdrawn that stay")
        if kind < 0.25:
            self.file.changes()
            self.put(self.file.text())
            self.settles()

    def check_lines(self):
        """Each line is one, moments never fall, and each `up` has a `sent` behind it before the session's end."""
        last, is_up = 0, False
        for line in self.lines():
            found = LINE.fullmatch(line)
            if not found:
                raise Fault(f"no line: {line!r}")
            if int(found[1]) < last:
                raise Fault("a moment falls")
            last, word = int(found[1]), found[2].split()[0]
            if word == "up" and is_up or word == "sent" and not is_up:
                raise Fault(f"{word} where the session is {'up' if is_up else 'down'}")
            if word in ("closed", "notified", "ended", "unreached"):
                is_up = False
            is_up = is_up or word == "up"

    def ends(self):
        self.process.kill()
        self.process.wait()
        self.output.close()
        self.check_lines()


def kept(program, seed, changes, outcomes):
    with tempfile.TemporaryDirectory() as folder:
        keeper = Keeper(program, seed, folder)
        done = 0
        try:
            keeper.settles()
            for done in range(1, changes + 1):
                keeper.change()
            keeper.ends()
            outcomes[seed] = changes
        except (Fault, OSError) as fault:
            print(f"keeper {seed}, change {done}: {fault}; {keeper.lines()[-4:]}", flush=True)
            outcomes[seed] = done - 1
        finally:
            keeper.process.kill()


BIRD_HOST, TIMES = "127.0.0.12", 10
BIRD = f"""log "bird.log" all; router id {BIRD_HOST}; flow4 table flowtab4; flow6 table flowtab6; protocol device {{{{ }}}}
protocol bgp kept {{{{ local {BIRD_HOST} port {{port}} as 65000; neighbor 127.0.0.1 as 65001; multihop; passive; strict bind;
  flow4 {{{{ table flowtab4; import all; export none; }}}}; flow6 {{{{ table flowtab6; import all; export none; }}}}; }}}}
"""


class Bird:
    """The daemon, and the program that keeps a file's rules in its table."""

    def __init__(self, program, folder):
        self.folder = pathlib.Path(folder)
        port = free_port(socket.AF_INET, BIRD_HOST)
        (self.folder / "bird.conf").write_text(BIRD.format(port=port))
        (self.folder / "config").write_text(CONFIG.replace(f"hold_time = {HOLD_TIME}", "hold_time = 90"))
        self.puts(1)
        self.begins()
        words = [program, "keep", "config", "rules", f"{BIRD_HOST}:{port}"]
        self.keeper = subprocess.Popen(words, cwd=folder, stdout=subprocess.DEVNULL)

    def begins(self):
        self.daemon = subprocess.Popen(["bird", "-f", "-c", "bird.conf", "-s", "control"], cwd=self.folder,
                                       stdout=subprocess.DEVNULL, stderr=subprocess.DEVNULL)

    def puts(self, count):
        """Another file in the place of the old one, with so many rules; and when."""
        rules = (f'[[rule]]\ntext = "v4 dst 10.0.0.{number}/32 then bytes 0:00000000"\n' for number in range(count))
        (self.folder / "other").write_text('id = "198.51.100.1"\nas_path = [65001]\n' + "".join(rules))
        os.replace(self.folder / "other", self.folder / "rules")
        return time.monotonic()

    def held(self):
        """How many rules its table has; -1 where it doesn't say."""
        words = ["birdc", "-s", "control", "show", "route", "table", "flowtab4", "count"]
        said = subprocess.run(words, cwd=self.folder, capture_output=True, text=True, check=False).stdout
        found = re.search(r"(\d+) of \d+ routes", said)
        return int(found[1]) if found else -1

    def comes_to(self, count, since):
        """The seconds until the table has so many rules."""
        while self.held() != count:
            if PATIENCE < time.monotonic() - since or self.keeper.poll() is not None:
                raise Fault(f"the table has {self.held()} rules, not {count}")
            time.sleep(0.02)
        return time.monotonic() - since

    def ends(self):
        for process in (self.keeper, self.daemon):
            process.kill()
            process.wait()


def beside_bird(program, within):
    """A rule more, again and again; and then bird starts anew."""
    if not shutil.which("bird"):
        print("skipped, since bird is missing: bench/keep.py --bird")
        return 0
    with tempfile.TemporaryDirectory() as folder:
        bird = Bird(program, folder)
        try:
            bird.comes_to(1, time.monotonic())
            seconds = [bird.comes_to(count, bird.puts(count)) for count in range(2, TIMES + 2)]
            bird.daemon.kill()
            bird.daemon.wait()
            bird.begins()
            bird.comes_to(TIMES + 1, time.monotonic())
        except Fault as fault:
            print(fault)
            return 1
        finally:
            bird.ends()
    late = sum(within < took for took in seconds)
    print(f"a rule more is in bird's table within {min(seconds):.2f} to {max(seconds):.2f} s, {late} of {TIMES} too late")
    return 1 if late else 0


def main():
    said = argparse.ArgumentParser()
    said.add_argument("program", nargs="?", default="crates/welgutan/out/welgutan")
    said.add_argument("--keepers", type=int, default=50)
    said.add_argument("--changes", type=int, default=20)
    said.add_argument("--bird", action="store_true")
    said.add_argument("--within", type=float, default=2.5)
    words = said.parse_args()
    program, outcomes = str(pathlib.Path(words.program).resolve()), {}
    if words.bird:
        return beside_bird(program, words.within)
    threads = [threading.Thread(target=kept, args=(program, seed, words.changes, outcomes)) for seed in range(words.keepers)]
    for thread in threads:
        thread.start()
    for thread in threads:
        thread.join()
    passed, due = sum(outcomes.values()), words.keepers * words.changes
    print(f"{passed} changes passed, {due - passed} failed")
    return 0 if passed == due else 1


if __name__ == "__main__":
    sys.exit(main())
