#!/usr/bin/env python3
"""peer.py PROGRAM [--quick]: a BGP speaker on loopback that PROGRAM listens to and announces to, in ways that a router may take.

Each case has a port that was free, and checks what the program wrote, its status, and what reached the peer. A listing
has to be that of `rules` on a tape of the same octets. The last line counts the cases, which run side by side for some
three minutes: so long the program waits for a peer that doesn't read. With --quick the cases that take more than some
seconds are left out. A program that runs for 1,200 seconds is ended, so all cases end soon after that.
"""
import contextlib
import pathlib
import socket
import struct
import subprocess
import sys
import tempfile
import threading
import time

import wire
from wire import KEEPALIVE, MARKER, ORIGIN, TAPE, UP, V4_RULES, frame, message, reach, record, update

PROGRAM = str(pathlib.Path(sys.argv[1] if len(sys.argv) > 1 else "crates/welgutan/out/welgutan").resolve())
PATIENCE = 1200     # seconds that a program may run: many, since the machine may be busy
CONFIG = "allow_no_destination = true\nhold_time = {}\n" + wire.CONFIG
RULES = 'id = "198.51.100.1"\nas_path = [{}]\n'
MANY = 60000        # rules of which the system can't keep all on the way, by their long paths
CEASE = message(3, bytes([6, 2]))


def open_message(asn, hold_time=0):
    """OPEN with the four families (RFC 4271 section 4.2, RFC 5492)."""
    capabilities = b"".join(bytes([1, 4, 0, afi, 0, safi]) for afi in (1, 2) for safi in (1, 133))
    body = struct.pack(">BHH4sBBB", 4, asn, hold_time, bytes([198, 51, 100, 1]), len(capabilities) + 2, 2, len(capabilities))
    return message(1, body + capabilities)


def rule_update(port):
    """UPDATE of one rule, UDP to a port, by MP_REACH_NLRI (RFC 4760 section 3, RFC 8955 section 4)."""
    rule = bytes.fromhex("0381110591") + struct.pack(">H", port)
    return update(b"", ORIGIN + bytes.fromhex("4002040201fde9") + reach(V4_RULES, frame(rule)))


UPDATES = b"".join(rule_update(port) for port in (53, 123, 389))


class Run:
    """The program with these words, in a folder of its own with a configuration and rules."""

    def __init__(self, words, hold_time=0, rules=1):
        self.folder = tempfile.TemporaryDirectory()
        path = pathlib.Path(self.folder.name)
        (path / "config").write_text(CONFIG.format(hold_time))
        said = [f'[[rule]]\nfamily = "v4"\nnlri = "070381110591{port:04x}"\n' for port in range(rules)]
        hops = 255 if rules == MANY else 1
        (path / "rules").write_text(RULES.format(", ".join(["65001"] * hops)) + "".join(said))
        self.process = subprocess.Popen([PROGRAM, *words], cwd=path, stdout=subprocess.PIPE, stdin=subprocess.DEVNULL)
        self.limit = threading.Timer(PATIENCE, self.process.kill)
        self.limit.start()

    def __enter__(self):
        return self

    def __exit__(self, *_):
        self.limit.cancel()
        self.process.kill()
        self.folder.cleanup()

    def end(self):
        """What it wrote, and its status."""
        written, _ = self.process.communicate()
        return written.decode(), self.process.returncode


def listing(octets, hold_time=0):
    """What `rules` writes of a tape on which the peer sends these octets."""
    with tempfile.TemporaryDirectory() as folder:
        path = pathlib.Path(folder)
        (path / "config").write_text(CONFIG.format(hold_time))
        (path / "tape").write_bytes(TAPE + record(UP) + wire.says(octets))
        run = subprocess.run([PROGRAM, "rules", "config", "tape"], cwd=path, capture_output=True, timeout=60)
        return run.stdout.decode(), run.returncode


def free_port(family, host):
    with socket.socket(family) as probe:
        probe.bind((host, 0))
        return probe.getsockname()[1]


def connect(port, host="127.0.0.1", family=socket.AF_INET):
    """A connection to the program, once it listens."""
    for _ in range(20 * PATIENCE):
        end = socket.socket(family)
        try:
            end.connect((host, port))
            end.settimeout(PATIENCE)
            return end
        except OSError:
            end.close()
            time.sleep(0.05)
    raise TimeoutError("the program doesn't listen")


def reset(end):
    """Closes a connection by RST."""
    end.setsockopt(socket.SOL_SOCKET, socket.SO_LINGER, struct.pack("ii", 1, 0))
    end.close()


def heard(end, count=None):
    """What comes, up to the stream's end, or until so many octets are there."""
    came = b""
    while count is None or len(came) < count:
        piece = end.recv(65536)
        if not piece:
            break
        came += piece
    return came


def listened(behave, hold_time=0, host="127.0.0.1", family=socket.AF_INET):
    """What the program says that listens, while the peer behaves so."""
    port = free_port(family, host)
    with Run(["listen", "config", f"[{host}]:{port}" if ":" in host else f"{host}:{port}"], hold_time) as run:
        behave(connect(port, host, family))
        return run.end()


def announced(behave, rules=1, hold_time=0, stays=False):
    """What the program says that announces, and what the peer answers that behaves so, and closes then unless it stays."""
    with socket.create_server(("127.0.0.1", 0)) as server:
        server.settimeout(PATIENCE)
        server.setsockopt(socket.SOL_SOCKET, socket.SO_RCVBUF, 4096)  # so that the rules don't all fit on the way
        address = f"127.0.0.1:{server.getsockname()[1]}"
        with Run(["announce", "config", "rules", address], hold_time, rules) as run, server.accept()[0] as end:
            end.settimeout(PATIENCE)
            seen = behave(end)
            if not stays:
                end.close()
            return run.end(), seen


def updates_in(octets):
    """How many UPDATEs stand in these octets, which have to be whole messages."""
    count = 0
    while octets:
        assert octets[:16] == MARKER, "no message"
        length, kind = struct.unpack(">HB", octets[16:19])
        assert length <= len(octets), "no whole message"
        count, octets = count + (kind == 2), octets[length:]
    return count


HELLO = open_message(65001) + KEEPALIVE
REPLY = open_message(65000) + KEEPALIVE


def says(octets, close=socket.socket.close, wait=True):
    """A peer that says this, hears the program's answer to its OPEN, and closes so."""
    def behave(end):
        end.sendall(octets)
        if wait:
            heard(end, 19)
        close(end)
    return behave


def ends(end):
    """Ends its own side, and hears the program out."""
    end.shutdown(socket.SHUT_WR)
    heard(end)
    end.close()


def slowly(end):
    """Takes the session up, reads nothing for longer than most timeouts, and then all."""
    end.sendall(REPLY)
    time.sleep(7)
    end.sendall(KEEPALIVE)
    return updates_in(heard(end))


def reads_nothing(end):
    """Takes the session up, and reads nothing at all. Answers when that was."""
    end.sendall(REPLY)
    return time.monotonic()


def sips(end):
    """Takes the session up, and reads a few octets each 20 seconds until the case ends. Answers when that was."""
    def sip():
        with contextlib.suppress(OSError):
            while end.recv(8):
                time.sleep(20)
    threading.Thread(target=sip, daemon=True).start()
    return reads_nothing(end)


def dripping(end):
    """Reads all, and goes on sending an octet at a time for some seconds."""
    end.sendall(REPLY)
    count = updates_in(heard(end))
    for octet in KEEPALIVE:
        end.sendall(bytes([octet]))
        time.sleep(0.1)
    return count


def tears_down(end):
    """Takes the session up, and resets the connection while more is to come than the system keeps on the way."""
    end.sendall(REPLY)
    heard(end, 200)
    reset(end)


def refuses(asn):
    """A peer of this AS that finds the program's wrong: OPEN, NOTIFICATION, and a reset, with the program's OPEN unread."""
    def behave(end):
        end.sendall(open_message(asn) + message(3, bytes([2, 2])))
        reset(end)
    return behave


def heard_last(octets):
    """A peer that says this, and hears the program out: the last message that it hears."""
    def behave(end):
        end.sendall(octets)
        came = heard(end)
        return came[came.rindex(MARKER):]
    return behave


def case_silent(late):
    """A peer that is silent for longer than the hold time, and does this then (RFC 4271 section 6.5)."""
    def behave(end):
        end.sendall(open_message(65001, 3) + KEEPALIVE + UPDATES)
        heard(end, 80)
        time.sleep(4)
        late(end)
        assert heard(end) == message(3, bytes([4, 0])), "no NOTIFICATION"
        end.close()
    return listened(behave, hold_time=3) == ("session 4/0\n", 8)


def case_starved(behave):
    """The program waits three minutes for room, and no longer if the system has taken a part of the message."""
    outcome, begun = announced(behave, MANY, stays=True)
    return outcome == ("", 1) and time.monotonic() - begun < 450


def case_refused():
    with Run(["announce", "config", "rules", f"127.0.0.1:{free_port(socket.AF_INET, '127.0.0.1')}"]) as run:
        return run.end() == ("", 1)


def case_keepalive_due():
    """A close more than a third of the hold time behind the last KEEPALIVE: the answer that is due meets no reader."""
    octets = open_message(65001, 30) + KEEPALIVE + UPDATES

    def behave(end):
        end.sendall(octets)
        heard(end, 60)
        time.sleep(10.5)
        end.close()
    return listened(behave, hold_time=30) == listing(octets, 30)


def case_regular():
    """A peer that says a KEEPALIVE after each third of the hold time hears one each time (RFC 4271 section 4.4)."""
    opening = open_message(65001, 60) + KEEPALIVE

    def behave(end):
        end.sendall(opening)
        heard(end, 80)
        for _ in range(4):
            time.sleep(20.5)
            end.sendall(KEEPALIVE)
            assert heard(end, 19) == KEEPALIVE, "no KEEPALIVE"
        ends(end)
    return listened(behave, hold_time=60) == listing(opening, 60)


CASES = {
    "rules, then the end of the stream": lambda: listened(says(HELLO + UPDATES, ends)) == listing(HELLO + UPDATES),
    "Cease, the program's KEEPALIVE unread": lambda: listened(says(HELLO + CEASE)) == ("session notified 6/2\n", 8),
    "a reset behind the last UPDATE": lambda: listened(says(HELLO + UPDATES, reset)) == listing(HELLO + UPDATES),
    "a close before the program's answer":
        lambda: listened(says(HELLO + UPDATES, wait=False)) == listing(HELLO + UPDATES),
    "a close where a KEEPALIVE is due": case_keepalive_due,
    "IPv6": lambda: listened(says(HELLO + UPDATES, ends), host="::1", family=socket.AF_INET6) == listing(HELLO + UPDATES),
    "a KEEPALIVE behind the hold time": lambda: case_silent(lambda end: end.sendall(KEEPALIVE)),
    "the stream's end behind the hold time": lambda: case_silent(lambda end: end.shutdown(socket.SHUT_WR)),
    "nobody listens": case_refused,
    "3,000 rules to a peer that is slow": lambda: announced(slowly, 3000) == (("sent 3000\n", 0), 3000),
    "a peer that sends on behind the end": lambda: announced(dripping) == (("sent 1\n", 0), 1),
    "a reset among the rules": lambda: announced(tears_down, MANY)[0] == ("", 1),
    "a reset in answer to the OPEN": lambda: announced(reset)[0] == ("session ended\n", 8),
    "a wrong AS": lambda: announced(refuses(65000))[0] == ("session notified 2/2\n", 8),
    "a wrong AS at both ends": lambda: announced(refuses(65009))[0] == ("session 2/2\n", 8),
    "a wrong AS is told": lambda: announced(heard_last(open_message(65009))) == (("session 2/2\n", 8), message(3, b"\2\2")),
    "a wrong message is told": lambda: announced(heard_last(KEEPALIVE)) == (("session 5/0\n", 8), message(3, b"\5\0")),
}


# The system keeps 3,000 rules on the way.
LONG_CASES = {
    "a KEEPALIVE after each third of the hold time": case_regular,
    "3,000 rules to a peer that never reads": lambda: announced(reads_nothing, 3000, stays=True)[0] == ("sent 3000\n", 0),
    "60,000 rules to a peer that never reads": lambda: case_starved(reads_nothing),
    "60,000 rules to a peer that reads a few octets now and then": lambda: case_starved(sips),
}


def tried(name, case, outcomes):
    try:
        outcomes[name] = case()
    except (OSError, AssertionError, subprocess.TimeoutExpired) as fault:
        outcomes[name] = False
        print(f"{name}: {fault!r}")


def main():
    outcomes, cases = {}, CASES | ({} if "--quick" in sys.argv[2:] else LONG_CASES)
    threads = [threading.Thread(target=tried, args=(name, case, outcomes)) for name, case in cases.items()]
    for thread in threads:
        thread.start()
    for thread in threads:
        thread.join()
    for name in cases:
        if not outcomes[name]:
            print(f"not as it should be: {name}")
    passed = sum(outcomes.values())
    print(f"{passed} passed, {len(cases) - passed} failed")
    return 0 if passed == len(cases) else 1


if __name__ == "__main__":
    sys.exit(main())
