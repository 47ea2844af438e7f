"""What a service manager is told, and lines that nobody has to read."""

import collections
import os
import select
import socket

MOST_WAITING = 10000    # lines that wait to be read
AT_ONCE = 4096          # octets that a pipe takes without waiting once it takes any


class Output:
    """Lines to a file that may not be read: what it doesn't take waits, and beyond a bound is dropped and counted."""

    def __init__(self, file):
        self.file, self.waiting, self.part = file, collections.deque(), b""
        self.dropped = self.dropped_in_all = 0

    def tell(self, words):
        if len(self.waiting) >= MOST_WAITING:
            self.dropped += 1
            self.dropped_in_all += 1
            return
        if self.dropped:
            self.waiting.append(f"{self.dropped} lines weren't read, and dropped\n".encode())
            self.dropped = 0
        self.waiting.append(words.encode() + b"\n")

    def is_waiting(self):
        return bool(self.waiting or self.part)

    def write(self, patience=0):
        """Writes what is taken without waiting, or within so many seconds."""
        while self.is_waiting() and select.select([], [self.file], [], patience)[1]:
            while self.waiting and len(self.part) < AT_ONCE:
                self.part += self.waiting.popleft()
            try:
                self.part = self.part[os.write(self.file, self.part[:AT_ONCE]):]
            except OSError:
                self.waiting.clear()
                self.part = b""


class Manager:
    """systemd, where it waits for words of this process (sd_notify(3))."""

    def __init__(self, environment):
        self.address = environment.get("NOTIFY_SOCKET", "")
        if self.address.startswith("@"):
            self.address = "\0" + self.address[1:]
        self.is_ready = False

    def say(self, words):
        if not self.address:
            return
        with socket.socket(socket.AF_UNIX, socket.SOCK_DGRAM) as end:
            try:
                end.connect(self.address)
                end.send(words.encode())
            except OSError:
                pass

    def ready(self):
        if not self.is_ready:
            self.is_ready = True
            self.say("READY=1")

    def alive(self):
        self.say("WATCHDOG=1")
