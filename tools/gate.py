#!/usr/bin/env python3
"""gate.py [COMMAND ..]: runs the gate, or COMMAND in its place, and prints where its processor time went.

A line a crate, in processor minutes (user and system): its proof, the second check that its must-fail edits begin with,
the edits themselves, and how many there are. What is left is building and running the programs, and rt itself. The
processes are looked at twice a second, so each may have used up to half a second more than is counted; the last line's
sum is the system's own. An interrupt ends the run and prints what was seen. Linux alone: it reads /proc.
"""
import os
import re
import resource
import subprocess
import sys
import time

TICKS = os.sysconf("SC_CLK_TCK")
PROOF, SECOND, EDITS = "proof", "second check", "edits"


def stat_of(process):
    """Its parent, the moment when it began, and the seconds that it and those of its children that ended have used."""
    try:
        with open(f"/proc/{process}/stat") as told:
            fields = told.read().rpartition(")")[2].split()
    except OSError:
        return None
    return int(fields[1]), int(fields[19]), sum(map(int, fields[11:15])) / TICKS


def words_of(process):
    try:
        with open(f"/proc/{process}/cmdline", "rb") as told:
            return told.read().decode(errors="replace").split("\0")
    except OSError:
        return []


def folder_of(process):
    try:
        return os.readlink(f"/proc/{process}/cwd")
    except OSError:
        return ""


def purpose_of(process):
    """The crate that a process of the prover works on, and what for: edits are tried in folders of their own."""
    words = words_of(process)
    if len(words) < 2 or os.path.basename(words[0]) != "rattle" or "--crate-name" not in words:
        return None, None
    crate = words[words.index("--crate-name") + 1]
    if not os.path.basename(folder_of(process)).startswith("rt-edit-"):
        return crate, PROOF
    begun = words[words.index("--incremental") + 1] if "--incremental" in words else ""
    return crate, SECOND if begun.endswith("/seed") else EDITS


def processes():
    """What stat_of says of each process, and the numbers of the children of each."""
    told = {int(name): stat_of(name) for name in os.listdir("/proc") if name.isdigit()}
    told = {process: stat for process, stat in told.items() if stat}
    children = {}
    for process, (parent, _, _) in told.items():
        children.setdefault(parent, []).append(process)
    return told, children


def used_by(process, told, children):
    """The seconds that a process and all below it have used."""
    return told[process][2] + sum(used_by(child, told, children) for child in children.get(process, []))


def provers(process, told, children):
    """The uppermost processes of the prover below this one, each with its crate and what it is for."""
    for child in children.get(process, []):
        crate, what = purpose_of(child)
        if crate:
            yield child, crate, what
        else:
            yield from provers(child, told, children)


def watched(command):
    """Runs the command. Answers its status, and of each of the prover's processes its crate, what for, and its seconds."""
    seen = {}
    running = subprocess.Popen(command)
    try:
        while running.poll() is None:
            told, children = processes()
            for process, crate, what in provers(running.pid, told, children):
                seen[process, told[process][1]] = crate, what, used_by(process, told, children)
            time.sleep(0.5)
    except KeyboardInterrupt:
        running.terminate()
        print("interrupted: what was seen until then")
    return running.wait(), seen.values()


def edits_of(crate):
    folder = f"crates/{crate}/must-fail"
    return sum(name.endswith(".edit") for name in os.listdir(folder)) if os.path.isdir(folder) else 0


def minutes(seconds):
    return f"{seconds / 60:.1f}" if seconds else ""


def print_table(seen, total):
    sums = {}
    for crate, what, seconds in seen:
        sums.setdefault(crate, dict.fromkeys((PROOF, SECOND, EDITS), 0))[what] += seconds
    print("| crate | proof | second check | edits | | sum |")
    print("|---|---|---|---|---|---|")
    for crate, by in sorted(sums.items(), key=lambda row: -sum(row[1].values())):
        count = edits_of(crate) if by[EDITS] else ""
        print(f"| `{crate}` | {minutes(by[PROOF])} | {minutes(by[SECOND])} | {minutes(by[EDITS])} | {count} | {minutes(sum(by.values()))} |")
    whole = {what: sum(by[what] for by in sums.values()) for what in (PROOF, SECOND, EDITS)}
    count = sum(edits_of(crate) for crate in sums)
    print(f"| all | {minutes(whole[PROOF])} | {minutes(whole[SECOND])} | {minutes(whole[EDITS])} | {count} | {minutes(sum(whole.values()))} |")
    print(f"| programs built and run, `rt` itself | | | | | {minutes(total - sum(whole.values()))} |")


def machine():
    with open("/proc/cpuinfo") as told:
        name = re.search(r"model name\s*: (.*)", told.read())
    return f"{len(os.sched_getaffinity(0))} processors, {name[1] if name else 'unknown'}"


def main():
    os.chdir(os.path.join(os.path.dirname(os.path.abspath(__file__)), ".."))
    begun = time.monotonic()
    status, seen = watched(sys.argv[1:] or [".ci/run"])
    used = resource.getrusage(resource.RUSAGE_CHILDREN)
    total = used.ru_utime + used.ru_stime
    print_table(seen, total)
    print(f"\n{total / 60:.0f} processor minutes, {(time.monotonic() - begun) / 60:.0f} minutes on the clock; {machine()}; status {status}")
    return status


if __name__ == "__main__":
    sys.exit(main())
