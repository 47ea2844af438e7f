#!/usr/bin/env python3
"""record.py [PROGRAM] [CASE ..] or [PROGRAM] --measure [WHAT ..]: routers on loopback that PROGRAM records.

They come and go in each way that a router may take, and keep what they said in each session. The tape has to say the
same: of each router `up`, its octets and `lost`, again and again, at moments that don't fall. Its listing has to be the
one of a tape on which the routers say what they hold to have said. Other recorders are killed in a burst, write to a
full disk, lack descriptors, have a clock that is set back, or can't begin.

It judges what happens, and never how soon. The cases run side by side, for half a minute; the last line counts them.
With --measure it tells what waiting, a rule, many rules and strangers take, for some ten minutes.
"""

import contextlib
import os
import pathlib
import resource
import shutil
import signal
import socket
import subprocess
import sys
import tempfile
import threading
import time

from draws import Peer
from peer import CEASE, open_message, reset
from plain_sessions import LOST, RECEIVED
from routers import (HOLD_TIME, PATIENCE, PROGRAM, STRANGER, Fault, Recorder, announce, config_of, end_of, judge,
                     preloads, waits_for, withdraw)
from wire import KEEPALIVE

STRANGERS = 300
GARBAGE = b"GET / HTTP/1.1\r\nHost: router\r\n\r\n"


def peers_of(count, network):
    return [Peer(number, f"127.0.{network}.{number}", 65000 + number, 0) for number in range(1, count + 1)]


# What routers do. Those that stay go on until all is over.


def opening(router, hold_time=HOLD_TIME):
    return open_message(router.peer.asn, hold_time) + KEEPALIVE


def steady(router, over):
    """Announces rules, takes one back, and stays."""
    router.comes_up()
    router.announces(*range(10))
    router.says(withdraw([3]))
    router.stays(over)


def comes_and_goes(router, over):
    """Five sessions that end by themselves, each with another rule, and one that stays."""
    for number in range(5):
        router.comes_up()
        router.announces(100 + number)
        router.goes()
    router.comes_up()
    router.announces(200)
    router.stays(over)


def flaps(router, over):
    """Thirty sessions, each reset behind its rule; then one that stays."""
    for number in range(30):
        router.comes_up()
        router.announces(300 + number)
        waits_for(router.is_recorded, "a rule is on the tape")  # a reset drops what hasn't arrived
        router.resets()
    router.comes_up()
    router.stays(over)


def says_nothing(router, over):
    """A connection that ends before anything was said."""
    router.begins()
    waits_for(router.is_recorded, "it is up")
    router.goes()


def babbles(router, over):
    """What is no BGP (RFC 4271 section 6.1)."""
    router.begins()
    router.says(GARBAGE)
    ends_by(router, (1, 1))


def is_another(router, over):
    """An OPEN of another AS (RFC 4271 section 6.2)."""
    router.begins()
    router.says(open_message(router.peer.asn - 1000))
    ends_by(router, (2, 2))


def opens_twice(router, over):
    """A second OPEN (RFC 4271 section 6.6)."""
    router.comes_up()
    router.says(open_message(router.peer.asn))
    ends_by(router, (5, 0))


def falls_silent(router, over):
    """Announces, and says nothing more: its hold time expires (RFC 4271 section 6.5)."""
    router.begins()
    router.says(opening(router, 3) + announce(router.peer.asn, [400]))
    ends_by(router, (4, 0))


def says_too_much(router, over):
    """More rules than it may hold (RFC 4486 section 4)."""
    router.comes_up()
    router.announces(*range(500, 504))
    ends_by(router, (6, 1))


def ends_by(router, codes):
    """The recorder ends the session by this NOTIFICATION."""
    if (found := end_of(router.hears_out())) != codes:
        raise Fault(f"the session ends by {found}, and not by {codes}")
    router.end.close()


def talks_on(router, over):
    """Goes on behind the recorder's end, which lets the connection go after a while, and takes another meanwhile."""
    babbles_on = router.connect()
    babbles_on.sendall(GARBAGE)
    router.end = babbles_on
    router.lives.append(GARBAGE)
    if end_of(router.hears_out()) != (1, 1):
        raise Fault("garbage isn't answered by 1/1")
    router.comes_up()
    router.announces(550)

    def is_let_go():
        try:
            babbles_on.sendall(KEEPALIVE)
        except ConnectionError:
            return True
        return False
    waits_for(is_let_go, "a connection is let go on which the router talks on")
    babbles_on.close()
    router.stays(over)


def drips(router, over):
    """An octet at a time."""
    router.begins()
    for octet in opening(router) + announce(router.peer.asn, [600]):
        router.says(bytes([octet]))
        time.sleep(0.005)
    router.stays(over)


def connects_twice(router, over):
    """Further connections while one is open are closed, and leave no record (RFC 4271 section 6.8)."""
    router.comes_up()
    router.announces(700)
    for _ in range(5):
        with router.connect() as other:
            try:
                other.sendall(open_message(router.peer.asn))
                if other.recv(1):
                    raise Fault("a second connection is answered")
            except ConnectionError:
                pass
    router.stays(over)


def ceases(router, over):
    """All that it says at once, up to Cease, with the recorder's octets unread."""
    router.begins()
    router.says(opening(router) + announce(router.peer.asn, [800]) + CEASE)
    waits_for(router.is_lost, "it is lost behind Cease")
    router.end.close()


def reads_nothing(router, over):
    """Announces, and reads nothing at all: what is said to it waits, and it stays."""
    router.begins()
    router.says(opening(router) + announce(router.peer.asn, [850]))
    router.stays(over)


def bursts(router, over):
    """Many rules at once, which all have to come."""
    router.comes_up()
    router.says(b"".join(announce(router.peer.asn, range(first, first + 200)) for first in range(10000, 30000, 200)))
    router.stays(over)


def hangs_up_in_a_message(router, over):
    """Its end within a message."""
    router.comes_up()
    router.says(announce(router.peer.asn, [900])[:-3])
    router.goes()


STAYING = [steady, comes_and_goes, flaps, talks_on, drips, connects_twice, reads_nothing, bursts]
GOING = [says_nothing, babbles, is_another, opens_twice, falls_silent, says_too_much, ceases, hangs_up_in_a_message]


def strangers(recorder, count):
    """Connections of no configured address, which say something, or nothing, and end in each way."""
    for number in range(count):
        try:
            with recorder.connect(STRANGER) as end:
                if number % 3:
                    end.sendall(open_message(65001))
                if number % 3 == 2:
                    reset(end)
        except ConnectionError:
            pass


def behaves(behaviour, router, over, faults):
    try:
        behaviour(router, over)
    except (Fault, OSError) as fault:
        faults.append(f"{behaviour.__name__}: {fault}")


def begun(jobs):
    threads = [threading.Thread(target=job, args=words) for job, *words in jobs]
    for thread in threads:
        thread.start()
    return threads


def joined(threads):
    for thread in threads:
        thread.join()


def case_routers(folder):
    """All of them at once, beside strangers, one of them over IPv6, and IPv4 as it comes over IPv6."""
    behaviours = STAYING + GOING
    peers = [peer._replace(limit=3 * (does is says_too_much), address="::1" if does is bursts else peer.address)
             for peer, does in zip(peers_of(len(behaviours), 1), behaviours)]
    with Recorder(folder, peers, "::") as recorder:
        routers, over, faults = recorder.routers(), threading.Event(), []
        before = recorder.descriptors()
        jobs = [(behaves, behaviour, router, over, faults) for behaviour, router in zip(behaviours, routers)]
        staying, going = begun(jobs[:len(STAYING)]), begun(jobs[len(STAYING):])
        strangers(recorder, STRANGERS)
        joined(going)
        stay = routers[:len(STAYING)]
        waits_for(lambda: faults or all(router.lives for router in stay), "all have begun")
        over.set()
        joined(staying)
        if faults:
            raise Fault("; ".join(faults))
        for router in stay:
            router.announces(1000)
        waits_for(lambda: all(router.is_recorded() for router in stay), "all that was said is on the tape")
        waits_for(lambda: all(router.is_lost() for router in routers[len(STAYING):]), "all who went are lost")
        waits_for(recorder.listens, "all strangers are turned away")
        waits_for(lambda: recorder.descriptors() <= before + len(stay), "no descriptor is left open")
        judge(recorder, routers, stay)


def case_replaced(folder):
    """Where no hold time was agreed a new connection of a router takes the place of the old one."""
    with Recorder(folder, peers_of(1, 2), "127.0.2.254", hold_time=0) as recorder:
        router, = recorder.routers()
        ends = []
        for number in range(4):
            router.comes_up(hold_time=0)
            router.announces(number)
            ends.append(router.end)
            waits_for(router.is_recorded, "a rule is on the tape")
        for router.end in ends[:-1]:
            router.hears_out()
        judge(recorder, [router], [router])


def case_shared(folder):
    """Two peers of one address: a connection is the first one's that has none, and a third is closed."""
    first, second = peers_of(2, 9)
    with Recorder(folder, [first, second._replace(address=first.address, asn=first.asn)], "127.0.9.254") as recorder:
        routers = recorder.routers()
        for number, router in enumerate(routers):
            router.comes_up()
            router.announces(number)
        with recorder.connect(first.address) as third:
            if third.recv(1):
                raise Fault("a third connection is answered")
        routers[0].goes()
        routers[0].comes_up()
        routers[0].announces(3)
        waits_for(lambda: all(router.is_recorded() for router in routers), "all that was said is on the tape")
        judge(recorder, routers, routers)


def case_told_apart(folder):
    """Two peers of one address: a connection is the one's whose AS its OPEN names, and one that says nothing is no one's."""
    first, second = peers_of(2, 10)
    with Recorder(folder, [first, second._replace(address=first.address)], "127.0.10.254") as recorder:
        routers = recorder.routers()
        with recorder.connect(first.address):
            for number, router in enumerate(reversed(routers)):
                router.comes_up()
                router.announces(number)
            waits_for(lambda: all(router.is_recorded() for router in routers), "all that was said is on the tape")
        judge(recorder, routers, routers)


def floods(router):
    """Rules and rules, until the recorder goes."""
    try:
        router.comes_up()
        for first in range(0, 2 * 10**5, 50):
            router.announces(*range(first, first + 50))
    except (Fault, OSError):
        pass


def judge_front(recorder, routers):
    """The tape is a front of what the routers said. Its last record may be cut, as `rules` then says; whether so."""
    lives, (_, is_cut) = recorder.lives(), recorder.items()
    for router in routers:
        for said, life in zip(router.lives, lives[router.peer.number]):
            if not said.startswith(life.octets):
                raise Fault("the tape has what a router didn't say")
    listed, status = recorder.rules(recorder.tape)
    if (status, "tape Cut" in listed) != ((4, True) if is_cut else (0, False)):
        raise Fault(f"the tape is {'cut' if is_cut else 'whole'}, and `rules` ends with {status}")
    return is_cut


def case_killed(folder):
    """Recorders that are killed in a burst."""
    for how in (signal.SIGKILL, signal.SIGTERM, signal.SIGINT):
        with Recorder(folder, peers_of(8, 3), "127.0.3.254") as recorder:
            routers = recorder.routers()
            threads = begun([(floods, router) for router in routers])
            waits_for(lambda: 10**5 < recorder.tape.stat().st_size, "the tape grows")
            recorder.end(how)
            joined(threads)
            judge_front(recorder, routers)


@contextlib.contextmanager
def small_disk(disk):
    """A disk of 64 KiB, where one can be mounted; whether that is so."""
    disk.mkdir()
    words = ["mount", "-t", "tmpfs", "-o", "size=64k", "tmpfs", str(disk)]
    is_mounted = bool(shutil.which("mount")) and subprocess.run(words, capture_output=True).returncode == 0
    try:
        yield is_mounted
    finally:
        if is_mounted:
            subprocess.run(["umount", str(disk)], check=True)


def limit_files():
    """No file may have more than 64 KiB: as a full disk, where none can be mounted."""
    signal.signal(signal.SIGXFSZ, signal.SIG_IGN)
    resource.setrlimit(resource.RLIMIT_FSIZE, (65536, 65536))


def case_full(folder):
    """A disk that is full ends the recorder with 1; the tape is cut where it was full."""
    with small_disk(pathlib.Path(folder, "disk")) as is_small:
        before = None if is_small else limit_files
        with Recorder(folder, peers_of(1, 4), "127.0.4.254", output="disk/tape", before=before) as recorder:
            router, = recorder.routers()
            floods(router)
            if (status := recorder.process.wait(PATIENCE)) != 1:
                raise Fault(f"a full disk has to end it with 1, and not with {status}")
            if not judge_front(recorder, [router]):
                raise Fault("the tape isn't cut")


def status_of(folder, output, *words):
    """The status of a recorder that can't begin."""
    return subprocess.run([PROGRAM, "record", *words], cwd=folder, stdout=output, timeout=PATIENCE).returncode


def case_refused(folder):
    """A wrong configuration, an address that is in use, or none, or another machine's, and no output."""
    path = pathlib.Path(folder)
    (path / "config").write_text(config_of(peers_of(1, 5), HOLD_TIME))
    (path / "wrong").write_text("local_as = 0\n")
    reader, writer = os.pipe()
    os.close(reader)
    server = socket.create_server(("127.0.5.254", 0))
    none, used = subprocess.DEVNULL, f"127.0.5.254:{server.getsockname()[1]}"
    with server, open("/dev/full", "wb") as full, open(writer, "wb") as closed:
        found = {
            "a configuration that isn't one": (status_of(folder, none, "wrong", used), 3),
            "no configuration": (status_of(folder, none, "nowhere", used), 1),
            "an address in use": (status_of(folder, none, "config", used), 1),
            "an address without a port": (status_of(folder, none, "config", "127.0.5.254"), 1),
            "a port that is none": (status_of(folder, none, "config", "127.0.5.254:65536"), 1),
            "another machine's address": (status_of(folder, none, "config", "198.51.100.1:0"), 1),
            "a full disk": (status_of(folder, full, "config", "127.0.5.254:0"), 1),
            "an output that nobody reads": (status_of(folder, closed, "config", "127.0.5.254:0"), 1),
            "no address": (status_of(folder, none, "config"), 2),
        }
    if wrong := {name: is_now for name, (is_now, wanted) in found.items() if is_now != wanted}:
        raise Fault(f"the statuses are {wrong}")


def limit_descriptors():
    resource.setrlimit(resource.RLIMIT_NOFILE, (12, 12))


def case_few_descriptors(folder):
    """Where descriptors are wanted, who is up goes on, and who waits comes up once some go."""
    with Recorder(folder, peers_of(14, 6), "127.0.6.254", before=limit_descriptors) as recorder:
        routers = recorder.routers()
        for router in routers:
            router.begins()
            router.says(opening(router) + announce(router.peer.asn, [router.peer.number]))
        waits_for(lambda: recorder.descriptors() == 12, "all descriptors are taken")
        left = list(routers)
        while left:
            waits_for(lambda: any(router.is_recorded() for router in left), "one is up")
            router = next(router for router in left if router.is_recorded())
            if len(left) == len(routers) and all(other.is_recorded() for other in left):
                raise Fault("all are up at once")
            router.announces(2000)
            waits_for(router.is_recorded, "one that is up goes on")
            router.goes()
            left.remove(router)
        waits_for(lambda: all(router.is_lost() for router in routers), "all are lost")
        judge(recorder, routers, [])


SET_BACK = """
#include <fcntl.h>
#include <stdlib.h>
#include <sys/syscall.h>
#include <time.h>
#include <unistd.h>

/* The clock on the wall is an hour back where there is a file of the name SET_BACK; USED is made where that is so. */
int clock_gettime(clockid_t id, struct timespec *now) {
    int status = syscall(SYS_clock_gettime, id, now);
    if (id == CLOCK_REALTIME && access(getenv("SET_BACK"), F_OK) == 0) {
        now->tv_sec -= 3600;
        close(open(getenv("USED"), O_CREAT | O_WRONLY, 0600));
    }
    return status;
}
"""


def case_clock(folder):
    """A clock that is set back: the tape's moments stand still until it is past them, and hold times go on."""
    more, back, used = preloads(folder, SET_BACK), pathlib.Path(folder, "back"), pathlib.Path(folder, "used")
    if not more:
        print("skipped, since cc is missing: a clock that is set back")
        return
    more |= {"SET_BACK": str(back), "USED": str(used)}
    with Recorder(folder, peers_of(2, 7), "127.0.7.254", more=more) as recorder:
        router, silent = recorder.routers()
        router.comes_up()
        router.announces(0)
        waits_for(router.is_recorded, "a rule is on the tape")
        back.touch()
        set_back = time.time_ns()
        router.announces(1)
        falls_silent(silent, None)
        waits_for(silent.is_lost, "a router is lost whose hold time expires")
        still = recorder.items()[0][-1].moment
        back.unlink()
        router.announces(2)
        waits_for(router.is_recorded, "a rule is on the tape")
        if not used.exists():
            print("skipped, since the program takes no library beside its own: a clock that is set back")
        elif set_back < still:
            raise Fault("the moments rise while the clock is back")
        elif recorder.items()[0][-1].moment <= set_back:
            raise Fault("the moments stand still for good")
        judge(recorder, [router, silent], [router])


def beats(router, moments):
    """Notes when KEEPALIVEs come, up to the end of the session."""
    try:
        while piece := router.end.recv(4096):
            moments += [time.monotonic()] * (len(piece) // len(KEEPALIVE))
    except OSError:
        pass


def lives_on(router, count):
    """A session of hold time 9 in which the router says so many KEEPALIVEs, each 7.5 seconds; when it heard one."""
    router.comes_up(hold_time=9)
    router.announces(1)
    moments = [time.monotonic()]
    thread, = begun([(beats, router, moments)])
    for _ in range(count):
        time.sleep(7.5)
        try:
            router.says(KEEPALIVE)
        except ConnectionError:
            break
    return thread, moments + [time.monotonic()]


def gap_before_end(recorder):
    """The seconds between the last octets and the end of the last session, by the tape's moments."""
    items = [item for item in recorder.items()[0] if item.kind in (RECEIVED, LOST)]
    return (items[-1].moment - items[-2].moment) / 10**9


def case_keepalives(folder):
    """Hold time 9 with a router whose KEEPALIVEs come each 7.5 seconds: the recorder's own come in between, in time.

    On a machine that stood still for a while the hold time may expire: then the tape has to tell of that gap, and the
    router tries again.
    """
    with Recorder(folder, peers_of(1, 8), "127.0.8.254", hold_time=9) as recorder:
        router, = recorder.routers()
        for _ in range(10):
            thread, moments = lives_on(router, 3)
            waits_for(lambda: router.is_recorded() or router.is_lost(), "all is on the tape")
            if not router.is_lost():
                break
            if gap_before_end(recorder) < 8.9:
                raise Fault("a session is lost before its hold time expires")
            router.lives[-1] = recorder.lives()[1][-1].octets   # what it says behind its end isn't heard
            joined([thread])
        judge(recorder, [router], [router])
        recorder.end()
        joined([thread])
        gaps = [after - earlier for earlier, after in zip(moments, moments[1:])]
        if 9 < max(gaps) or len(gaps) <= 5:
            raise Fault(f"{len(gaps) - 1} KEEPALIVEs come, up to {max(gaps):.1f} seconds apart; the hold time is 9")


CASES = {
    "routers": case_routers,
    "replaced": case_replaced,
    "shared": case_shared,
    "told apart": case_told_apart,
    "killed": case_killed,
    "full": case_full,
    "refused": case_refused,
    "descriptors": case_few_descriptors,
    "clock": case_clock,
    "keepalives": case_keepalives,
}


def tried(name, outcomes):
    with tempfile.TemporaryDirectory() as folder:
        try:
            CASES[name](folder)
            outcomes[name] = True
        except (Fault, OSError, subprocess.SubprocessError) as fault:
            outcomes[name] = False
            print(f"{name}: {fault}")


def main():
    if "--measure" in sys.argv:
        import record_measure   # it draws many routes
        return record_measure.measure(sys.argv[sys.argv.index("--measure") + 1:])
    chosen, outcomes = sys.argv[2:] or list(CASES), {}
    joined(begun([(tried, name, outcomes) for name in chosen]))
    for name in chosen:
        if not outcomes.get(name):
            print(f"not as it should be: {name}")
    passed = sum(outcomes.values())
    print(f"{passed} passed, {len(chosen) - passed} failed")
    return 0 if passed == len(chosen) else 1


if __name__ == "__main__":
    sys.exit(main())
