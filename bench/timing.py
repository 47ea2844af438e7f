"""What a program's runs take, for the scripts that measure."""

import math
import os
import re
import resource
import subprocess
import tempfile
import time
from typing import NamedTuple

GNU_TIME = "/usr/bin/time"


class Ended(SystemExit):
    """A run that ended otherwise than it should have, in words, with which a script ends that doesn't look."""


class Spent(NamedTuple):
    clock: float        # seconds
    processor: float    # seconds, user and system
    peak: int           # the kilobytes that were resident at most


def limited(seconds):
    """What a child does before it begins: it is ended by the kernel a whole second or two after its limit."""
    most = math.ceil(seconds) + 1
    return lambda: resource.setrlimit(resource.RLIMIT_CPU, (most, most + 1))


def run(words, out=subprocess.DEVNULL, status=0, limit=None):
    """What a run takes that has to end with that status.

    The peak is what GNU time (Debian's package `time`) tells where it is there: the one that a script sees of its child
    begins with the script's own size.
    """
    with tempfile.NamedTemporaryFile("r") as told:
        timed = [GNU_TIME, "-q", "-f", "%M", "-o", told.name] if os.access(GNU_TIME, os.X_OK) else []
        begun = time.monotonic()
        child = subprocess.Popen([*timed, *map(str, words)], stdin=subprocess.DEVNULL, stdout=out,
                                 stderr=subprocess.DEVNULL, preexec_fn=limited(limit) if limit else None)
        _, ended, used = os.wait4(child.pid, 0)
        clock, processor = time.monotonic() - begun, used.ru_utime + used.ru_stime
        child.returncode = os.waitstatus_to_exitcode(ended)
        if limit and processor > limit and child.returncode != status:
            raise Ended(f"more than {processor:.1f} processor seconds, and not at its end")
        if child.returncode != status:
            raise Ended(f"{' '.join(map(str, words[:2]))} ended with status {child.returncode}")
        return Spent(clock, processor, int(told.read() or used.ru_maxrss))


def best_of(runs, words, out=None, status=0):
    """The least seconds and the highest peak of some runs; `out` is the path of what the last one writes."""
    taken = []
    for _ in range(runs):
        with open(out or os.devnull, "wb") as file:
            taken.append(run(words, file, status))
    clocks, processors, peaks = zip(*taken)
    return Spent(min(clocks), min(processors), max(peaks))


def instructions(words):
    """What callgrind counts: the same on a busy machine as on a quiet one."""
    command = ["valgrind", "--tool=callgrind", "--callgrind-out-file=/dev/null", *map(str, words)]
    done = subprocess.run(command, stdout=subprocess.DEVNULL, stderr=subprocess.PIPE, text=True, check=True)
    return int(re.search(r"Collected : (\d+)", done.stderr)[1])
