#!/usr/bin/env python3
"""Makes the mistakes that people make in the files of the program, and reports what the program says of each.

    bench/mistakes.py PROGRAM

A row is a file with one mistake, and the lines and the status with which `check` answers it, and of a tape `rules` too:
whoever reads them can mend the file. Files that only look wrong are here too, and are accepted. Ends with 0 where
each is answered so.
"""

import gzip
import pathlib
import subprocess
import sys
import tempfile

HEAD = 'local_as = 65000\nlocal_id = "192.0.2.254"\n'
PEER = '\n[[peer]]\nnumber = 1\naddress = "198.51.100.1"\nas = 65001\n'
CONFIG = HEAD + PEER
SECOND = PEER.replace("number = 1", "number = 2")
SENDER = 'id = "198.51.100.1"\nas_path = [65001]\n'
OCTETS = '\n[[rule]]\nfamily = "v4"\nnlri = "0b0118c00002038106048119"\nactions = "8006fde900000000"\n'
WORDS = '\n[[rule]]\ntext = "v6 dst 2001:db8:0:0:0:0:0:0/32 proto =17 sport =53 then bytes 0:49742400"\n'
RULES = SENDER + OCTETS + WORDS
TAPE = b"FSTAPE1\n" + bytes.fromhex("01000100000000")
DUMP = bytes.fromhex("6553f10000100005 00000018 0000fde9 0000fde8 0000 0001 c6336401 c6336402 0005 0006")
MESSAGE = bytes.fromhex("6553f100 0010 0001 00000023 fde9 fde8 0000 0001 c6336401 c6336402" + "ff" * 16 + "0013 04")
TABLE = bytes.fromhex("6553f100 000d 0001 00000004 00000000")
GZIP = gzip.compress(DUMP, mtime=0)
CAPTURE = bytes.fromhex("a1b2c3d4 0002 0004 00000000 00000000 00040000 00000065")
PACKET = bytes.fromhex("00000007 0000000b 00000001 00000001 45")
EARLIER = PACKET.replace(b"\0\0\0\7", b"\0\0\0\6")
SECTION = bytes.fromhex("0a0d0d0a 0000001c 1a2b3c4d 0001 0000 ffffffffffffffff 0000001c")
INTERFACES = bytes.fromhex("00000001 00000014 0001 0000 00000000 00000014 00000001 00000014 0093 0000 00000000 00000014")
BLOCK = bytes.fromhex("00000006 00000024 00000000 00000000 0000000b 00000001 00000001 45000000 00000024")


def changed(old, new, text=CONFIG):
    """The configuration, or another file, with one text in it changed."""
    if text.count(old) != 1:
        sys.exit(f"{old!r} isn't once in the file")
    return text.replace(old, new)


def ruled(old, new):
    """The rules file with one text in it changed."""
    return changed(old, new, RULES)


# What is done, the file, the status, and the line.
CONFIGS = [
    ("nothing wrong", CONFIG, 0, "config 1 peers"),
    ("indented by tabs", CONFIG.replace("\n", "\n\t"), 0, "config 1 peers"),
    ("a byte order mark in front", "\ufeff" + CONFIG, 0, "config 1 peers"),
    ("lines that end with CRLF", CONFIG.replace("\n", "\r\n"), 0, "config 1 peers"),
    ("an empty file", "", 9, "config local_as Missing"),
    ("a key misspelt", changed("address", "adress"), 9, "config peer 1 adress Unknown"),
    ("a key in capitals", changed("local_as", "LOCAL_AS"), 9, "config LOCAL_AS Unknown"),
    ("a key with a hyphen", changed("local_id", "local-id"), 9, "config local-id Unknown"),
    ("a key between quotes", CONFIG.replace("local_as", '"local as"'), 9, 'config "local as" Unknown'),
    ("a key of a peer in front", "number = 1\n" + CONFIG, 9, "config number Unknown"),
    ("a key of the document behind the peers", CONFIG + "hold_time = 90\n", 9, "config peer 1 hold_time Unknown"),
    ("no identifier", changed('local_id = "192.0.2.254"\n', ""), 9, "config local_id Missing"),
    ("a number for an identifier", changed('"192.0.2.254"', "1"), 9, "config local_id Kind"),
    ("0.0.0.0 as identifier", changed("192.0.2.254", "0.0.0.0"), 9, "config local_id Value"),
    ("an AS number between quotes", changed("65000", '"65000"'), 9, "config local_as Kind"),
    ("an AS number of 2^32", changed("65001", "4294967296"), 9, "config peer 1 as Value"),
    ("an AS number of 0", changed("65001", "0"), 9, "config peer 1 as Value"),
    ("an AS number with a point", changed("65001", "1.10"), 9, "config peer 1 as Kind"),
    ("a hold time of 2", "hold_time = 2\n" + CONFIG, 9, "config hold_time Value"),
    ("a truth value between quotes", 'empty_path_valid = "true"\n' + CONFIG, 9, "config empty_path_valid Kind"),
    ("a number for a truth value", "allow_no_destination = 1\n" + CONFIG, 9, "config allow_no_destination Kind"),
    ("no peer", HEAD, 9, "config peer Missing"),
    ("an empty list of peers", HEAD + "peer = []\n", 9, "config peer Value"),
    ("single brackets round peer", changed("[[peer]]", "[peer]"), 9, "config peer Kind"),
    ("a list of addresses", HEAD + 'peer = ["198.51.100.1"]\n', 9, "config peer 1 Kind"),
    ("two peers of one number", CONFIG + PEER, 9, "config peer 2 number Repeated"),
    ("the second peer without a number", CONFIG + SECOND.replace("number = 2\n", ""), 9, "config peer 2 number Missing"),
    ("a peer's number of 65536", changed("number = 1", "number = 65536"), 9, "config peer 1 number Value"),
    ("a v6 address in brackets", changed("198.51.100.1", "[2001:db8::1]"), 9, "config peer 1 address Value"),
    ("an address with its length", changed("198.51.100.1", "198.51.100.1/32"), 9, "config peer 1 address Value"),
    ("an address with zeros in front", changed("198.51.100.1", "198.051.100.001"), 9, "config peer 1 address Value"),
    ("a name for an address", changed("198.51.100.1", "router.example"), 9, "config peer 1 address Value"),
    ("no limit of routes, written as 0", CONFIG + "max_routes = 0\n", 9, "config peer 1 max_routes Value"),
    ("an address without quotes", changed('"198.51.100.1"', "198.51.100.1"), 9, "config line 6 column 11"),
    ("a missing quote", changed('254"', "254"), 9, "config line 2 column 24"),
    ("a key twice", 'local_as = 65000\n' + CONFIG, 9, "config line 2 column 1"),
    ("a colon for the equals sign", changed("local_as =", "local_as:"), 9, "config line 1 column 9"),
    ("curly quotes", CONFIG.replace('"192.0.2.254"', "\u201c192.0.2.254\u201d"), 9, "config line 2 column 12"),
    ("UTF-16", CONFIG.encode("utf-16"), 9, "config line 1 column 1"),
    ("compressed by gzip", gzip.compress(CONFIG.encode(), mtime=0), 9, "config line 1 column 2"),
    ("a tape in its place", TAPE, 9, "config line 1 column 8"),
    ("a dump in its place", DUMP, 9, "config line 1 column 3"),
]

RULE_FILES = [
    ("nothing wrong", RULES, 0, "rules 2"),
    ("no rules", SENDER, 0, "rules 0"),
    ("an empty rules file", "", 9, "rules id Missing"),
    ("a key of CONFIG", "local_as = 65000\n" + RULES, 9, "rules local_as Unknown"),
    ("an identifier without quotes", ruled('"198.51.100.1"', "198.51.100.1"), 9, "rules line 1 column 6"),
    ("a path that is no list", ruled("[65001]", "65001"), 9, "rules as_path Kind"),
    ("an AS number of the path between quotes", ruled("[65001]", '[65001, "65002"]'), 9, "rules as_path 2 Kind"),
    ("an AS number of 0 in the path", ruled("[65001]", "[0]"), 9, "rules as_path 1 Value"),
    ("single brackets round rule", SENDER + OCTETS.replace("[[rule]]", "[rule]"), 9, "rules rule Kind"),
    ("a key of a rule misspelt", ruled("text", "txt"), 9, "rules rule 2 txt Unknown"),
    ("actions beside a text", RULES + 'actions = ""\n', 9, "rules rule 2 actions Unknown"),
    ("a family in capitals", ruled('"v4"', '"V4"'), 9, "rules rule 1 family Value"),
    ("octets with blanks", ruled("0b01", "0b 01"), 9, "rules rule 1 nlri Value"),
    ("a frame without its length", ruled("0b01", "01"), 9, "rules rule 1 nlri Type at 0"),
    ("types out of order", ruled("0b0118c00002038106048119", "0b0381060118c00002048119"), 9, "rules rule 1 nlri Order at 3"),
    ("an action that isn't known", ruled("8006", "0002"), 9, "rules rule 1 actions Value"),
    ("a shortened address in a text", ruled("2001:db8:0:0:0:0:0:0/32", "2001:db8::/32"), 9, "rules rule 2 text at word 3"),
    ("words out of order", ruled("proto =17 sport =53", "sport =53 proto =17"), 9, "rules rule 2 text at word 6"),
    ("a text that stops too early", ruled(" 0:49742400", ""), 9, "rules rule 2 text at word 10"),
    ("a rule twice", RULES + WORDS, 9, "rules rule 3 Repeated"),
]

TAPES = [
    ("nothing wrong", TAPE, 0, "peer 1 wait-open"),
    ("an empty file for a tape", b"", 4, "tape Cut at 0"),
    ("a dump for a tape", DUMP, 4, "tape Magic at 0"),
    ("a capture for a tape", CAPTURE, 4, "tape Magic at 0"),
    ("a tape compressed by gzip", gzip.compress(TAPE, mtime=0), 4, "tape Magic at 0"),
    ("a tape that went through a change of line ends", TAPE.replace(b"\n", b"\r\n"), 4, "tape Magic at 7"),
    ("a tape without its last octet", TAPE[:-1], 4, "tape Cut at 14"),
    ("a tape of another neighbour", TAPE.replace(b"\1\0\1", b"\1\0\2"), 4, "tape Peer at 9"),
]

# What a tape holds, and what `check tape` counts of it.
COUNTED = [
    ("one item", TAPE, ["tape version 1 items 1 moments 0 0", "peer 1 items 1 octets 0 up"]),
    ("no item", TAPE[:8], ["tape version 1 items 0 moments - -", "peer 1 items 0 octets 0 down"]),
    ("a peer that sends and is lost", TAPE + bytes.fromhex("02000100000003 010203 03000100000000"),
     ["tape version 1 items 3 moments 0 0", "peer 1 items 3 octets 3 down"]),
    ("the second version", b"FSTAPE2\n" + bytes.fromhex("010001 0000000000000005 00000000 020001 0000000000000007 00000001 ff"),
     ["tape version 2 items 2 moments 5 7", "peer 1 items 2 octets 1 up"]),
]


CAPTURES = [
    ("nothing wrong", CAPTURE + PACKET * 2, 0, "capture pcap link 101 packets 2 moments 7000011000 7000011000"),
    ("a capture without packets", CAPTURE, 0, "capture pcap link 101 packets 0 moments - -"),
    ("times that fall", CAPTURE + PACKET + EARLIER, 0,
     "capture pcap link 101 packets 2 moments 7000011000 7000011000\ncapture times fall at packet 2"),
    ("an empty file for a capture", b"", 5, "capture Cut at 0"),
    ("a tape for a capture", TAPE, 5, "capture Magic at 0"),
    ("a dump for a capture", DUMP, 5, "capture Magic at 0"),
    ("a capture compressed by gzip", gzip.compress(CAPTURE, mtime=0), 5, "capture Magic at 0"),
    ("a capture that was written in hexadecimal", CAPTURE.hex(), 5, "capture Magic at 0"),
    ("a capture of an interface that isn't read", CAPTURE[:-1] + b"\x93", 5, "capture Link at 20"),
    ("a capture that was copied while it was written", CAPTURE + PACKET + PACKET[:-1], 5, "capture Cut at 57"),
    ("a capture that went through a change of line ends", CAPTURE + PACKET[:7] + b"\r\n" + PACKET[8:], 5,
     "capture RecordTooLong at 32"),
    ("a pcapng capture of two interfaces", SECTION + INTERFACES + BLOCK + BLOCK[:11] + b"\1" + BLOCK[12:], 0,
     "capture pcapng packets 2 moments 11000 11000\nlink 1 packets 1\nlink - packets 1"),
    ("a pcapng capture without its interfaces", SECTION + BLOCK, 5, "capture Interface at 36"),
]


DUMPS = [
    ("nothing wrong", DUMP + MESSAGE, 0, "peer 198.51.100.1 as 65001 number 1 messages 1"),
    ("a dump of another neighbour", MESSAGE.replace(b"\xc6\x33\x64\1", b"\xc6\x33\x64\7"), 0,
     "peer 198.51.100.7 as 65001 unknown messages 1"),
    ("a dump of a neighbour with another AS", MESSAGE.replace(b"\xfd\xe9", b"\xfd\xef"), 0,
     "peer 198.51.100.1 as 65007 number 1 messages 1"),
    ("a table dump", TABLE * 2, 0, "skipped 13/1 2"),
    ("a dump compressed by gzip", GZIP, 10, f"dump Cut at {len(GZIP)}"),
    ("a tape for a dump", TAPE, 10, "dump Cut at 15"),
    ("a capture for a dump", CAPTURE, 10, "skipped 2/4 1\ndump Cut at 24"),
    ("a dump that was copied while it was written", DUMP + MESSAGE + TABLE[:-1], 10,
     "peer 198.51.100.1 as 65001 number 1 messages 1\ndump Cut at 98"),
    ("a message with another length than its record", MESSAGE[:-3] + b"\0\x14\4", 10, "dump Message at 28"),
]


def written(folder, name, content):
    path = folder / name
    path.write_bytes(content if isinstance(content, bytes) else content.encode())
    return str(path)


def answer_of(program, words):
    done = subprocess.run([program, *words], stdout=subprocess.PIPE, stderr=subprocess.PIPE, timeout=60, check=False)
    return done.returncode, (done.stdout + done.stderr).decode(errors="replace")


def answers(program, folder):
    """Of each row the mistake, what is wanted, and what is found."""
    for mistake, content, status, line in CONFIGS:
        yield mistake, (status, line + "\n"), answer_of(program, ["check", "config", written(folder, "config", content)])
    config = written(folder, "config", CONFIG)
    for mistake, content, status, line in RULE_FILES:
        yield mistake, (status, line + "\n"), answer_of(program, ["check", "rules", config, written(folder, "rules", content)])
    for mistake, content, status, line in TAPES:
        tape = written(folder, "tape", content)
        yield mistake, (status, line + "\n"), answer_of(program, ["rules", config, tape])
        if status:
            yield f"{mistake}, checked", (status, line + "\n"), answer_of(program, ["check", "tape", config, tape])
    for what, content, lines in COUNTED:
        tape = written(folder, "tape", content)
        yield what, (0, "".join(line + "\n" for line in lines)), answer_of(program, ["check", "tape", config, tape])
    for mistake, content, status, lines in CAPTURES:
        capture = written(folder, "capture", content)
        yield mistake, (status, lines + "\n"), answer_of(program, ["check", "capture", capture])
    for mistake, content, status, lines in DUMPS:
        dump = written(folder, "dump", content)
        yield mistake, (status, lines + "\n"), answer_of(program, ["check", "dump", config, dump])


def main():
    if len(sys.argv) != 2:
        sys.exit(__doc__)
    count = wrong = 0
    with tempfile.TemporaryDirectory() as made:
        for mistake, wanted, found in answers(sys.argv[1], pathlib.Path(made)):
            count += 1
            if found != wanted:
                wrong += 1
                print(f"{mistake}: wanted {wanted[0]} {wanted[1]!r}, found {found[0]} {found[1]!r}")
    print(f"{count - wrong} of {count} files are answered as they should be")
    sys.exit(1 if wrong else 0)


if __name__ == "__main__":
    main()
