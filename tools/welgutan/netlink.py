"""Messages to nftables in the kernel: batches that are done whole or not at all, and questions.

`python3-pyroute2` 0.7.2 has this layer too. But all messages of one of its batches have one number, so that neither a
refusal nor an echo tells of which it is; and to write an element takes it twenty times as long as these lines.
"""

import errno
import os
import socket
import struct

NETLINK_NETFILTER, NETFILTER, NETDEV = 12, 10, 5
SEND_BUFFER_FORCE, RECEIVE_BUFFER_FORCE, BUFFER = 32, 33, 1 << 28
SOL_NETLINK, EXTENDED_ACKNOWLEDGEMENT, CAPPED_ACKNOWLEDGEMENT = 270, 11, 10
ERROR, DONE, BATCH_BEGIN, BATCH_END = 2, 3, 0x10, 0x11
REQUEST, ACKNOWLEDGE, ECHO, DUMP, CREATE, EXCLUSIVE, APPEND = 1, 4, 8, 0x300, 0x400, 0x200, 0x800
(NEW_TABLE, GET_TABLE, DELETE_TABLE, NEW_CHAIN, GET_CHAIN, DELETE_CHAIN, NEW_RULE, GET_RULE, DELETE_RULE, NEW_SET,
 GET_SET, DELETE_SET, NEW_ELEMENTS, GET_ELEMENTS, DELETE_ELEMENTS) = range(15)
NESTED, KIND = 0x8000, 0x3FFF
HEADER, GENERAL = struct.Struct("=IHHII"), struct.Struct(">BBH")
ATTRIBUTE = struct.Struct("=HH")
PADDING = b"", b"\0\0\0", b"\0\0", b"\0"     # behind so many octets more than a multiple of four
PIECES = 1 << 16        # octets that are received at once


class Refused(Exception):
    """The kernel took nothing of a batch: for each message by its place, -1 for the whole, a sentence."""

    def __init__(self, reasons):
        super().__init__("; ".join(sorted(set(reasons.values()))))
        self.reasons = reasons


def attribute(kind, octets):
    size = 4 + len(octets)
    return ATTRIBUTE.pack(size, kind) + octets + PADDING[size & 3]


def nested(kind, octets):
    return attribute(kind | NESTED, octets)


def number(kind, value):
    return ATTRIBUTE.pack(8, kind) + (value & 0xFFFFFFFF).to_bytes(4, "big")


def long_number(kind, value):
    return ATTRIBUTE.pack(12, kind) + value.to_bytes(8, "big")


def name(kind, text):
    return attribute(kind, text.encode() + b"\0")


def attributes(octets, place=0):
    """Each attribute's kind and octets."""
    while place + 4 <= len(octets):
        size, kind = ATTRIBUTE.unpack_from(octets, place)
        yield kind & KIND, octets[place + 4:place + size]
        place += max(4, size + 3 & ~3)


def value_of(octets, kind):
    """The octets of the first attribute of a kind, or None."""
    place, end = 0, len(octets) - 4
    while place <= end:
        size, found = ATTRIBUTE.unpack_from(octets, place)
        if found & KIND == kind:
            return octets[place + 4:place + size]
        place += size + 3 & ~3 or 4
    return None


def text_of(octets):
    return octets.rstrip(b"\0").decode("latin-1")


def message(kind, flags, sequence, octets, family=NETDEV, resource=0):
    header = HEADER.pack(20 + len(octets), kind, flags | REQUEST, sequence, 0)
    return header + GENERAL.pack(family, 0, resource) + octets


def messages(octets):
    """Each message's kind, number and octets after its header."""
    place = 0
    while place + 16 <= len(octets):
        size, kind, _, sequence, _ = HEADER.unpack_from(octets, place)
        yield kind, sequence, octets[place + 16:place + size]
        place += max(16, size + 3 & ~3)


def error_of(octets):
    """The number of an acknowledgement's error, and a sentence; 0 where it is none."""
    code = -struct.unpack_from("=i", octets)[0]
    flags = struct.unpack_from("=H", octets, 10)[0]
    told = ""
    if code and flags & 0x200:      # sentences follow the message, of which only the header is given back
        told = " ".join(text_of(value) for kind, value in attributes(octets, 20) if kind == 1)
    return code, f"{os.strerror(code)}{f' ({told})' if told else ''}"


class Kernel:
    """A socket to nftables. Who makes a table with an owner's flag by it owns that until the socket is closed."""

    def __init__(self):
        self.socket = socket.socket(socket.AF_NETLINK, socket.SOCK_RAW, NETLINK_NETFILTER)
        for option in (SEND_BUFFER_FORCE, RECEIVE_BUFFER_FORCE):
            self.socket.setsockopt(socket.SOL_SOCKET, option, BUFFER)
        for option in (EXTENDED_ACKNOWLEDGEMENT, CAPPED_ACKNOWLEDGEMENT):
            self.socket.setsockopt(SOL_NETLINK, option, 1)
        self.socket.bind((0, 0))
        self.sequence = 0

    def close(self):
        self.socket.close()

    def transact(self, batch):
        """Has the kernel do all messages, each of a kind, flags and attributes, at once; answers what it echoes: the
        place of the message, the kind and the octets of each echo. Refused where it does nothing."""
        begin = self.sequence + 1
        self.sequence = begin + len(batch) + 1
        octets = [message(BATCH_BEGIN, 0, begin, b"", 0, NETFILTER)]
        last = len(batch) - 1
        for place, (kind, flags, body) in enumerate(batch):
            wants = ACKNOWLEDGE if place == last else 0
            octets.append(message(NETFILTER << 8 | kind, flags | wants, begin + 1 + place, body))
        octets.append(message(BATCH_END, 0, self.sequence, b"", 0, NETFILTER))
        self.socket.send(b"".join(octets))
        return self.answers(begin, last)

    def answers(self, begin, last):
        """All answers wait when a batch is sent: the kernel acts while it takes the octets."""
        echoes, reasons, is_done = [], {}, False
        for kind, sequence, octets in self.waiting():
            if kind == ERROR:
                code, words = error_of(octets)
                if code:
                    reasons[sequence - begin - 1] = words
                is_done = is_done or sequence == begin + 1 + last
            elif begin < sequence <= begin + 1 + last or not sequence:   # Linux 6.18 tells of elements without a number
                echoes.append((sequence - begin - 1, kind & 0xFF, octets[4:]))
        if reasons:
            raise Refused(reasons)
        if not is_done:
            raise Refused({-1: "the kernel gave no answer"})
        return echoes

    def waiting(self):
        while True:
            try:
                octets = self.socket.recv(PIECES, socket.MSG_DONTWAIT)
            except BlockingIOError:
                return
            yield from messages(octets)

    def ask(self, kind, octets, dumps=False):
        """The attributes' octets of each answer to a question; OSError where the kernel tells an error."""
        self.sequence += 1
        self.socket.send(message(NETFILTER << 8 | kind, DUMP if dumps else 0, self.sequence, octets))
        answers = []
        while True:
            for answer, sequence, body in messages(self.socket.recv(PIECES)):
                if sequence != self.sequence:
                    continue
                if answer == ERROR:
                    code, words = error_of(body)
                    raise OSError(code, words)
                if answer == DONE:
                    return answers
                answers.append(body[4:])
            if not dumps:
                return answers

    def asks(self, kind, octets, dumps=False):
        """The answers, or None where there is no such thing."""
        try:
            return self.ask(kind, octets, dumps)
        except OSError as error:
            if error.errno != errno.ENOENT:
                raise
            return None
