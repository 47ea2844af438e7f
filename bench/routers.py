"""Routers on loopback, a recorder that holds sessions with them, and what its tape says: a part of `record.py`.

Each router has an address of its own, and keeps what it said in each session. It judges what happens, and never how
soon: a step may take PATIENCE.
"""

import os
import pathlib
import shutil
import signal
import socket
import struct
import subprocess
import sys
import time

import wire
from peer import free_port, heard, open_message, reset
from plain_sessions import LOST, NOTIFICATION, RECEIVED, UP, Refusal, messages, tape_items
from wire import KEEPALIVE, ORIGIN, TAPE, V4_RULES, attribute, frame, reach, update

PROGRAM = str(pathlib.Path((sys.argv[1:2] or ["crates/welgutan/out/welgutan"])[0]).resolve())
PATIENCE = 200
HOLD_TIME = 90
STRANGER = "127.0.99.99"


class Fault(Exception):
    """What isn't as it should be, in words."""


def waits_for(test, words):
    """Waits until this holds; where it doesn't ever, that is the fault."""
    until = time.monotonic() + PATIENCE
    while not test():
        if until < time.monotonic():
            raise Fault(f"it never happens: {words}")
        time.sleep(0.05)


# What routers say


def port_rule(number):
    """NLRI of a rule: DNS from an address under 10.0.0.0/8."""
    return frame(b"\x02\x20\x0a" + number.to_bytes(3, "big") + bytes.fromhex("038111 05910035"))


def announce(asn, numbers):
    """UPDATE of these rules by MP_REACH_NLRI (RFC 4760 section 3, RFC 8955 section 4), by a path of this AS."""
    path = attribute(2, struct.pack(">BBH", 2, 1, asn), 0x40)
    return update(b"", ORIGIN + path + reach(V4_RULES, b"".join(map(port_rule, numbers))))


def withdraw(numbers):
    """UPDATE that takes these rules back by MP_UNREACH_NLRI (RFC 4760 section 4)."""
    return update(b"", attribute(15, V4_RULES + b"".join(map(port_rule, numbers))))


def end_of(said):
    """The codes of the NOTIFICATION that ends what was heard; () where none does."""
    last = list(messages(said))[-1:]
    return tuple(last[0][1][:2]) if last and last[0][0] == NOTIFICATION else ()


class Router:
    """A router that speaks with a recorder. `lives` has what it said in each session that was taken."""

    def __init__(self, peer, recorder):
        self.peer, self.recorder = peer, recorder
        self.lives = []
        self.end = None

    def connect(self):
        return self.recorder.connect(self.peer.address)

    def begins(self):
        """A connection on which it says something."""
        self.end = self.connect()
        self.lives.append(b"")

    def says(self, octets):
        self.lives[-1] += octets
        self.end.sendall(octets)

    def announces(self, *numbers):
        self.says(announce(self.peer.asn, numbers))

    def is_answered(self):
        """Whether an OPEN and a KEEPALIVE come; the connection may be closed instead."""
        came = b""
        try:
            while len(kinds := [kind for kind, _ in messages(came)]) < 2:
                piece = self.end.recv(4096)
                if not piece:
                    break
                came += piece
        except ConnectionError:
            pass
        if came and kinds != [1, 4]:
            raise Fault(f"an OPEN is answered by messages of the kinds {kinds}")
        return bool(came)

    def comes_up(self, hold_time=HOLD_TIME):
        """A session that is established. As long as the recorder holds an earlier one it closes further connections."""
        until = time.monotonic() + PATIENCE
        while time.monotonic() < until:
            self.begins()
            try:
                self.says(open_message(self.peer.asn, hold_time))
                if self.is_answered():
                    self.says(KEEPALIVE)
                    return
            except ConnectionError:
                pass
            self.end.close()
            self.lives.pop()
            time.sleep(0.01)
        raise Fault("its connections are closed, again and again")

    def hears_out(self):
        """What the recorder still says, up to its end."""
        try:
            return heard(self.end)
        except ConnectionError:
            return b""

    def goes(self):
        """Ends its side, and waits for the recorder's."""
        self.end.shutdown(socket.SHUT_WR)
        self.hears_out()
        self.end.close()

    def resets(self):
        reset(self.end)

    def stays(self, over):
        """Goes on until all is over."""
        while not over.wait(5):
            self.says(KEEPALIVE)

    def is_recorded(self):
        """Whether the tape has all that it said in its last session."""
        lives = self.recorder.lives()[self.peer.number]
        return len(lives) == len(self.lives) and lives[-1].octets == self.lives[-1]

    def is_lost(self):
        """Whether the tape has the end of its last session."""
        lives = self.recorder.lives()[self.peer.number]
        return len(lives) == len(self.lives) and lives[-1].is_lost


# What a tape says


class Life:
    """A session on a tape."""

    def __init__(self):
        self.octets, self.is_lost = b"", False


def note(lives, item):
    """The next item of a peer with these sessions. They begin and end in turn."""
    is_up = bool(lives) and not lives[-1].is_lost
    if is_up == (item.kind == UP):
        raise Fault(f"peer {item.peer}: a record of kind {item.kind} while it is {'up' if is_up else 'down'}")
    if item.kind == UP:
        lives.append(Life())
    elif item.kind == RECEIVED:
        lives[-1].octets += item.payload
    else:
        lives[-1].is_lost = True


def items_in(tape, numbers):
    """The items of a tape of these peers, whose moments don't fall, and whether it is cut at its end."""
    items = []
    try:
        for item in tape_items(tape, numbers):
            items.append(item)
    except Refusal as refusal:
        if not refusal.line.startswith("tape Cut"):
            raise Fault(refusal.line.strip()) from refusal
        return items, True
    return items, False


class Recorder:
    """The program that records these peers, at an address of its own, with what a child does before it begins."""

    def __init__(self, folder, peers, host, hold_time=HOLD_TIME, output="tape", before=None, more=None):
        self.folder, self.peers, self.host = pathlib.Path(folder), peers, host
        (self.folder / "config").write_text(config_of(peers, hold_time))
        self.tape = self.folder / output
        self.before, self.environment = before, os.environ | (more or {})
        if not any(self.begins() for _ in range(10)):
            raise Fault(f"the recorder doesn't listen, and ends with {self.process.returncode}")

    def __enter__(self):
        return self

    def __exit__(self, *_):
        self.end(signal.SIGKILL)

    def begins(self):
        """Begins, and waits until it listens; `False` where the port was taken meanwhile."""
        family = socket.AF_INET6 if self.host == "::" else socket.AF_INET
        self.port = free_port(family, self.host)
        host = f"[{self.host}]" if self.host == "::" else self.host
        with open(self.tape, "wb") as tape:
            words = [PROGRAM, "record", "config", f"{host}:{self.port}"]
            self.process = subprocess.Popen(words, cwd=self.folder, stdin=subprocess.DEVNULL, stdout=tape,
                                            env=self.environment, preexec_fn=self.before)
        try:
            waits_for(lambda: self.listens() or self.process.poll() is not None, "it listens, or ends")
        except OSError:
            self.end(signal.SIGKILL)
            raise
        return self.process.poll() is None

    def listens(self):
        """Whether it takes a stranger's connection, and closes it, as it has all that were made before."""
        try:
            with self.connect(STRANGER) as end:
                return not end.recv(1)
        except ConnectionError:
            return False

    def connect(self, address):
        """A connection from this address."""
        host = {"::": "::1" if ":" in address else "127.0.0.1"}.get(self.host, self.host)
        end = socket.socket(socket.AF_INET6 if ":" in address else socket.AF_INET)
        try:
            end.settimeout(PATIENCE)
            end.bind((address, 0))
            end.connect((host, self.port))
        except OSError:
            end.close()
            raise
        return end

    def routers(self):
        return [Router(peer, self) for peer in self.peers]

    def end(self, how=signal.SIGTERM):
        self.process.send_signal(how)
        return self.process.wait(PATIENCE)

    def items(self):
        return items_in(self.tape.read_bytes(), {peer.number for peer in self.peers})

    def lives(self):
        """Of each peer its sessions, as the tape has them so far."""
        lives = {peer.number: [] for peer in self.peers}
        for item in self.items()[0]:
            note(lives[item.peer], item)
        return lives

    def rules(self, tape):
        """What `rules` writes of a tape, and its status."""
        words = [PROGRAM, "rules", "config", str(tape)]
        run = subprocess.run(words, cwd=self.folder, capture_output=True, timeout=PATIENCE)
        return run.stdout.decode(), run.returncode

    def descriptors(self):
        return len(os.listdir(f"/proc/{self.process.pid}/fd"))


def preloads(folder, source):
    """What has the program take the functions of this C source for the system's; None where cc is missing."""
    if not shutil.which("cc"):
        return None
    pathlib.Path(folder, "preloads.c").write_text(source)
    library = pathlib.Path(folder, "preloads.so")
    subprocess.run(["cc", "-shared", "-fPIC", "-o", library, "preloads.c"], cwd=folder, check=True)
    return {"LD_PRELOAD": str(library)}


def config_of(peers, hold_time):
    said = f"allow_no_destination = true\nhold_time = {hold_time}\n" + wire.HEAD
    for peer in peers:
        said += wire.peer(peer.number, peer.asn, peer.address) + (f"max_routes = {peer.limit}\n" if peer.limit else "")
    return said


# Whether the tape says what the routers hold to have said


def judge_lives(router, lives, stays):
    """The sessions of a router on the tape are those that it had, and the last one goes on where it stays."""
    name, last = f"peer {router.peer.number}", len(router.lives)
    if len(lives) != last:
        raise Fault(f"{name}: {len(lives)} sessions on the tape, and it had {last}")
    for number, (said, life) in enumerate(zip(router.lives, lives), 1):
        if life.octets != said:
            raise Fault(f"{name}, session {number}: {len(said)} octets were said, {len(life.octets)} or others told")
        if life.is_lost == (stays and number == last):
            raise Fault(f"{name}, session {number}: it {'was' if life.is_lost else 'was not'} lost")


def said_tape(routers, staying):
    """A tape on which the routers say what they hold to have said, one after the other."""
    tape = TAPE
    for router in routers:
        peer, lives = router.peer.number, []
        for said in router.lives:
            parts = (wire.says(said[place:place + 60000], peer) for place in range(0, len(said), 60000))
            lives.append(wire.record(UP, b"", peer) + b"".join(parts))
        tape += wire.record(LOST, b"", peer).join(lives) + (b"" if router in staying else wire.record(LOST, b"", peer))
    return tape


def judge(recorder, routers, staying):
    """The tape, which is whole by now, has exactly these sessions, and lists what the routers hold to have said."""
    tape = recorder.folder / "now"
    tape.write_bytes(recorder.tape.read_bytes())
    if recorder.items()[1]:
        raise Fault("the tape is cut")
    lives = recorder.lives()
    for router in routers:
        judge_lives(router, lives[router.peer.number], router in staying)
    said = recorder.folder / "said"
    said.write_bytes(said_tape(routers, staying))
    listed, wanted = recorder.rules(tape), recorder.rules(said)
    if listed != wanted:
        pairs = zip(f"{listed[0]}{listed[1]}\n".splitlines(), f"{wanted[0]}{wanted[1]}\n".splitlines())
        ours, theirs = next(pair for pair in pairs if pair[0] != pair[1])
        raise Fault(f"`rules` says `{ours}`, and of what was said `{theirs}`")
    if listed[1] != 0 or listed[0].count("\n") <= len(routers) and staying:
        raise Fault(f"`rules` ends with {listed[1]}, and lists no rule")
