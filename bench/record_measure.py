"""What a recorder takes that waits, and that is told much: a part of `record.py`, which says what it is for.

Times are by the clock, from a router's first octet to the last record in the file, but for those of the processor: how
long one worked for the recorder, and how long it was waited for because others had it.
"""

import os
import pathlib
import random
import struct
import tempfile
import threading
import time

from draws import Peer
from load import dense_routes
from peer import open_message
from routers import STRANGER, Recorder, announce, end_of, judge, preloads, waits_for
from wire import KEEPALIVE, ORIGIN, attribute, message

SECONDS, TRIES, STRANGERS = 20, 400, 3000
ASN = 65001
PATH = ORIGIN + attribute(2, struct.pack(">BBH", 2, 1, ASN), 0x40)


def recorder_of(folder, count, hold_time=90, more=None):
    peers = [Peer(number, f"127.1.1.{number}", ASN, 0) for number in range(1, count + 1)]
    return Recorder(folder, peers, "127.1.2.254", hold_time, more=more)


def come_up(recorder):
    """All of its routers, which are up."""
    routers = recorder.routers()
    for router in routers:
        router.comes_up()
    waits_for(lambda: all(router.is_recorded() for router in routers), "all are up")
    return routers


def folder_of(recorder):
    return pathlib.Path("/proc", str(recorder.process.pid))


def spent(recorder):
    """The seconds so far in which a processor worked for it, and in which it waited for one."""
    worked, waited, _ = (folder_of(recorder) / "schedstat").read_text().split()
    return int(worked) / 10**9, int(waited) / 10**9


def told_of(recorder, name):
    lines = (folder_of(recorder) / "status").read_text().splitlines()
    return int(next(line for line in lines if line.startswith(name)).split()[1])


def peak(recorder):
    return told_of(recorder, "VmHWM") // 1024


def grown(tape, size):
    """When the tape has so many octets."""
    while tape.stat().st_size < size:
        time.sleep(0.0002)
    return time.monotonic()


def idle(folder):
    """Routers that say nothing."""
    for count in (1, 10, 100):
        with recorder_of(folder, count) as recorder:
            come_up(recorder)
            before, slept = spent(recorder)[0], told_of(recorder, "voluntary")
            time.sleep(SECONDS)
            share = 100 * (spent(recorder)[0] - before) / SECONDS
            wakes = (told_of(recorder, "voluntary") - slept) / SECONDS
            print(f"idle, {count} peers: {share:.2f} % of a processor, {wakes:.0f} wakes a second, {peak(recorder)} MB")


def told_within(recorder, router, number):
    """Milliseconds from an UPDATE's send to its record in the file, and to the moment that the record has."""
    octets = announce(ASN, [number])
    size = recorder.tape.stat().st_size + 15 + len(octets)
    wall, sent = time.time_ns(), time.monotonic()
    router.says(octets)
    written = grown(recorder.tape, size) - sent
    with open(recorder.tape, "rb") as tape:
        tape.seek(size - len(octets) - 12)
        moment, = struct.unpack(">Q", tape.read(8))
    return 1000 * written, (moment - wall) / 10**6


def latency(folder):
    """Rules of one router or another, each a while behind the last one."""
    for count in (1, 10, 100):
        with recorder_of(folder, count, 0) as recorder:
            routers, taken = come_up(recorder), []
            for number in range(TRIES):
                time.sleep(random.uniform(0.02, 0.1))
                taken.append(told_within(recorder, random.choice(routers), number))
        for name, told in zip(("its record in the file", "its record's moment"), map(sorted, zip(*taken))):
            half, most = told[TRIES // 2], told[TRIES * 99 // 100]
            print(f"an UPDATE to {name}, {count} peers: p50 {half:.1f}, p99 {most:.1f}, most {told[-1]:.1f} ms")


def took(recorder, name, begun, before):
    """Tells what it took since then, and begins anew."""
    now, after = time.monotonic(), spent(recorder)
    worked, waited = (later - earlier for later, earlier in zip(after, before))
    print(f"{name}: {now - begun:.2f} s, in which a processor worked {worked:.2f} and was waited for {waited:.2f}, "
          f"{peak(recorder)} MB")


def one_tells(folder, name, octets):
    """What it takes that one router says all of this, and that it goes again."""
    with recorder_of(folder, 1) as recorder:
        router, = come_up(recorder)
        size, before, begun = recorder.tape.stat().st_size, spent(recorder), time.monotonic()
        thread = threading.Thread(target=router.says, args=(octets,))
        thread.start()
        grown(recorder.tape, size + len(octets))
        while not router.is_recorded():
            time.sleep(0.01)
        took(recorder, f"{name}, {len(octets) / 10**6:.1f} MB", begun, before)
        thread.join()
        before, begun = spent(recorder), time.monotonic()
        router.goes()
        waits_for(router.is_lost, "it is lost")
        took(recorder, f"{name}, lost", begun, before)
        judge(recorder, [router], [])


def rules(folder):
    updates = (announce(ASN, range(first, first + 200)) for first in range(0, 10**5, 200))
    one_tells(folder, "100,000 rules", b"".join(updates))


def routes(folder):
    one_tells(folder, "1,000,000 unicast routes", b"".join(dense_routes(10**6, PATH)))


def peers(folder):
    """Twenty routers that say 500 rules each, at once."""
    with recorder_of(folder, 20) as recorder:
        routers = come_up(recorder)
        said = {router: b"".join(announce(ASN, [number]) for number in range(500)) for router in routers}
        threads = [threading.Thread(target=router.says, args=(octets,)) for router, octets in said.items()]
        before, begun = spent(recorder), time.monotonic()
        for thread in threads:
            thread.start()
        for thread in threads:
            thread.join()
        waits_for(lambda: all(router.is_recorded() for router in routers), "all is on the tape")
        took(recorder, f"20 peers of 500 rules, {sum(map(len, said.values()))} octets", begun, before)
        judge(recorder, routers, routers)


def strangers(folder):
    """Connections from elsewhere."""
    with recorder_of(folder, 1) as recorder:
        open_before, before, begun = recorder.descriptors(), spent(recorder), time.monotonic()
        for _ in range(STRANGERS):
            with recorder.connect(STRANGER) as end:
                end.sendall(b"hello")
        waits_for(recorder.listens, "all strangers are turned away")
        took(recorder, f"{STRANGERS} strangers", begun, before)
        print(f"{open_before} descriptors before, {recorder.descriptors()} behind; {len(recorder.items()[0])} records")


def mute(folder):
    """Connections that say no OPEN, or an octet a second, or an OPEN without a hold time and nothing more."""
    with recorder_of(folder, 3) as recorder:
        routers = silent, slow, opens = recorder.routers()
        for router in routers:
            router.begins()
        begun, drops = time.monotonic(), iter(message(1, bytes(4000)))
        opens.says(open_message(ASN))
        words = {silent: "no OPEN", slow: "an octet a second", opens: "an OPEN without a hold time, and no KEEPALIVE"}
        while words:
            time.sleep(1)
            if slow in words:
                slow.says(bytes([next(drops)]))
            for router in [router for router in words if router.is_lost()]:
                ends = end_of(router.hears_out())
                print(f"{words.pop(router)}: gone after {time.monotonic() - begun:.0f} s, by NOTIFICATION {ends}")


STOPPED = """
#include <errno.h>
#include <stdlib.h>
#include <sys/syscall.h>
#include <sys/types.h>
#include <unistd.h>

/* No connection takes anything where there is a file of the name STOPPED. */
ssize_t send(int file, const void *octets, size_t count, int flags) {
    if (access(getenv("STOPPED"), F_OK) == 0) {
        errno = EAGAIN;
        return -1;
    }
    return syscall(SYS_sendto, file, octets, count, flags, NULL, 0);
}
"""


def stuck(folder):
    """A connection that takes nothing any more: by a library, since the system takes much where nobody reads."""
    more, stopped = preloads(folder, STOPPED), pathlib.Path(folder, "stopped")
    if not more:
        print("skipped, since cc is missing: a connection that takes nothing")
        return
    with recorder_of(folder, 2, more=more | {"STOPPED": str(stopped)}) as recorder:
        router, other = recorder.routers()
        other.comes_up()
        router.comes_up(hold_time=3)
        stopped.touch()
        begun = time.monotonic()
        while not router.is_lost():
            router.says(KEEPALIVE)
            time.sleep(0.5)
        print(f"a connection that takes nothing: gone after {time.monotonic() - begun:.0f} s")
        stopped.unlink()
        other.announces(1)
        waits_for(other.is_recorded, "the other router goes on")


WHAT = {
    "idle": idle,
    "latency": latency,
    "rules": rules,
    "routes": routes,
    "peers": peers,
    "strangers": strangers,
    "mute": mute,
    "stuck": stuck,
}


def measure(chosen):
    for name in chosen or WHAT:
        with tempfile.TemporaryDirectory() as folder:
            WHAT[name](folder)
    print("load average:", *os.getloadavg())
    return 0
