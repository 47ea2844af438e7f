#!/usr/bin/env python3
"""Refuses each growth of the program in turn, under every command on small inputs, and reports how the runs ended.

    bench/refusals.py PROGRAM [--only WORD]

A run in which the machine refuses memory ends with status 6; with 1 exactly where the adapter of the real files was
refused what it asks for first behind the opening of a file. What it wrote is a front of what it writes otherwise, and
`enforce` over a tape of version 1 writes nothing at 6. Once each growth behind the refused one is refused too, and once
it alone: then a run may also end as if nothing had been refused, since a vector that is refused the room for all that an
iterator promises asks for the room of one element. The preload is built from refusals.c by `cc`. The script ends with 1
where a run ended otherwise.
"""

import argparse
import collections
import os
import pathlib
import socket
import subprocess
import sys
import tempfile
import threading

from convert import mrt
from wire import (EMPTY_CAPTURE, HEAD, KEEPALIVE, OPENING, TAPE, TIMED_TAPE, announce, flow, interface_block, message, packet,
                  packet_block, pcap_record, peer, says, section_block, up)

CONFIG = HEAD + peer(1, 65001) + peer(2, 65002) + peer(3, 65000)
RULES = """id = "198.51.100.1"
as_path = [65001]
[[rule]]
family = "v4"
nlri = "0b0118c00002038106048119"
actions = "8006fde900000000"
[[rule]]
text = "v6 dst 2001:db8:0:0:0:0:0:0/32 proto =6 then control 1 mark 46"
"""
MAIL = bytes.fromhex("0b 0118c00002 038106 048119")
HIDING = bytes.fromhex("08 0118c00002 038306")
HIDDEN = bytes.fromhex("09 0118c00002 03910011")
CAPABILITIES = bytes.fromhex("20 021e 010400010001 010400010085 010400020001 010400020085")
ANNOUNCER = message(1, bytes.fromhex("04 fde9 0000 c6336401") + CAPABILITIES + bytes.fromhex("41040000fde9"))
RECEIVER = message(1, bytes.fromhex("04 fde8 0000 c00002fe") + CAPABILITIES + bytes.fromhex("41040000fde8"))
NETWORK = announce(bytes([24, 192, 0, 2]))
TEXT = "v4 dst 192.0.2.0/24 proto =6 port =25 then bytes 65001:00000000"


def write_inputs(folder):
    octets = packet(bytes([192, 0, 2, 9]), 25)
    one, start = flow(MAIL[1:]), OPENING + NETWORK
    files = {
        "peers.toml": CONFIG.encode(),
        "rules.toml": RULES.encode(),
        "first.tape": TAPE + up() + says(NETWORK + one),
        "hiding.tape": TAPE + up() + says(NETWORK + flow(HIDING[1:]) + flow(HIDDEN[1:])),
        "late.tape": TIMED_TAPE + up(moment=0) + says(NETWORK, moment=0) + says(one, moment=10**9),
        "mail.pcap": EMPTY_CAPTURE + pcap_record(octets, 1),
        "two.pcap": EMPTY_CAPTURE + pcap_record(octets) + pcap_record(octets, 1),
        "mail.pcapng": section_block() + interface_block() + packet_block(octets, 10**6),
        "seen.mrt": mrt(1, 4, 1, NETWORK) + mrt(2, 4, 1, one),
    }
    for name, content in files.items():
        (folder / name).write_bytes(content)


class Other:
    """The other end of a session over loopback: it says its octets, and reads until the program says no more."""

    def __init__(self, kind, octets):
        self.octets = octets
        self.listening = None
        if kind == "announce":
            self.listening = socket.create_server(("127.0.0.1", 0))
            self.address = self.listening.getsockname()
        else:
            with socket.create_server(("127.0.0.1", 0)) as free:
                self.address = free.getsockname()
        self.over = threading.Event()
        self.thread = threading.Thread(target=self.speak)
        self.thread.start()

    def connected(self):
        while not self.over.is_set():
            try:
                if self.listening:
                    self.listening.settimeout(0.02)
                    return self.listening.accept()[0]
                return socket.create_connection(self.address, 1)
            except OSError:
                self.over.wait(0.002)
        return None

    def speak(self):
        end = self.connected()
        if end is None:
            return
        try:
            with end:
                end.settimeout(5)
                end.sendall(self.octets)
                if not self.listening:
                    end.shutdown(socket.SHUT_WR)
                while end.recv(65536):
                    pass
        except OSError:
            pass

    def close(self):
        self.over.set()
        self.thread.join()
        if self.listening:
            self.listening.close()


class Runs:
    def __init__(self, program, folder):
        self.program = program
        self.folder = folder
        write_inputs(folder)
        self.preload = str(folder / "refusals.so")
        source = pathlib.Path(__file__).resolve().with_name("refusals.c")
        subprocess.run(["cc", "-O2", "-shared", "-fPIC", "-o", self.preload, str(source), "-ldl"], check=True)

    def once(self, words, **variables):
        """The status of a run, and what it wrote."""
        other = None
        if words[0] in ("announce", "listen"):
            said = RECEIVER + KEEPALIVE if words[0] == "announce" else OPENING + NETWORK + flow(MAIL[1:])
            other = Other(words[0], said)
            words = [*words, f"127.0.0.1:{other.address[1]}"]
        named = {**os.environ, "LD_PRELOAD": self.preload, **variables}
        ran = subprocess.run([self.program, *words], cwd=self.folder, capture_output=True, env=named, timeout=20)
        if other:
            other.close()
        return ran.returncode, ran.stdout, ran.stderr

    def growths(self, words):
        """How many growths a run has, which come first behind an opening, its status and what it wrote."""
        told = self.folder / "told"
        status, written, _ = self.once(words, TELL=str(told))
        count, *openings = map(int, told.read_text().split())
        return count, {opening + 1 for opening in openings}, status, written

    def faults(self, words, status, whole, number, lasting, openings):
        """How a run with a refused growth ended, and what is wrong with that."""
        variables = {"REFUSE": str(number), **({"LASTING": "1"} if lasting else {})}
        came, written, said = self.once(words, **variables)
        wrong = []
        if came not in (1, 6) and (lasting or (came, written) != (status, whole)):
            wrong.append(f"status {came}")
        if (came == 1) != (number in openings):
            wrong.append(f"status {came} where {'a' if number in openings else 'no'} file was opened")
        if not whole.startswith(written):
            wrong.append(f"wrote {written!r}")
        if said:
            wrong.append(f"said {said!r}")
        if came == 6 and words[0] == "enforce" and "late.tape" not in words and written:
            wrong.append("wrote lines at status 6")
        return came, came == 6 and bool(written), wrong


COMMANDS = [
    ("enforce peers.toml first.tape mail.pcap", 0),
    ("enforce peers.toml first.tape mail.pcapng", 0),
    ("enforce peers.toml late.tape two.pcap", 0),
    ("rules peers.toml first.tape", 0),
    ("list peers.toml first.tape", 0),
    ("shadow peers.toml hiding.tape", 0),
    ("changes peers.toml first.tape", 0),
    ("changes peers.toml late.tape", 0),
    ("convert peers.toml seen.mrt", 0),
    ("check v4 " + MAIL.hex(), 0),
    ("check v6 " + MAIL.hex(), 9),
    ("check text", 0),
    ("check config peers.toml", 0),
    ("check rules peers.toml rules.toml", 0),
    ("check tape peers.toml late.tape", 0),
    ("check capture two.pcap", 0),
    ("check capture mail.pcapng", 0),
    ("check dump peers.toml seen.mrt", 0),
    ("gen 100", 0),
    ("announce peers.toml rules.toml", 0),
    ("listen peers.toml", 0),
    ("pair peers.toml rules.toml", 0),
    ("help", 2),
]


def main():
    parser = argparse.ArgumentParser(description=__doc__.split("\n", 1)[0])
    parser.add_argument("program", type=pathlib.Path)
    parser.add_argument("--only", default="")
    options = parser.parse_args()
    is_wrong = False
    with tempfile.TemporaryDirectory() as name:
        runs = Runs(str(options.program.resolve()), pathlib.Path(name))
        for line, due in COMMANDS:
            if options.only not in line:
                continue
            words = line.split() + ([TEXT] if line == "check text" else [])
            count, openings, status, whole = runs.growths(words)
            if status != due:
                print(f"{line}: status {status} where no growth is refused")
                is_wrong = True
                continue
            for lasting in (False, True):
                ended = collections.Counter()
                wrote = 0
                for number in range(1, count + 1):
                    came, written, wrong = runs.faults(words, status, whole, number, lasting, openings)
                    ended[came] += 1
                    wrote += written
                    for fault in wrong:
                        print(f"{line}: growth {number} of {count}: {fault}")
                        is_wrong = True
                how = ", ".join(f"{times} with {came}" for came, times in sorted(ended.items()))
                kind = "from each on" if lasting else "each alone"
                print(f"{line}, {kind}: of {count} growths {how}; at 6 {wrote} had written", flush=True)
    sys.exit(1 if is_wrong else 0)


if __name__ == "__main__":
    main()
