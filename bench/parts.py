#!/usr/bin/env python3
"""Judges a capture whole and in parts, as docs/FLEET.md says, compares lines and reports, and tells the seconds.

    bench/parts.py PROGRAM [--packets N] [--rules N] [--items N] [--parts N] [--jobs N]

The tape is of version 2, with rules that come and go between the packets; each part plays it anew, and the seconds of
that are told by themselves, over an empty capture. editcap cuts the capture, and GNU parallel judges the parts: here,
and over three sshd on loopback with a folder each, of which one is killed when the first parts are done. The joined
lines have to be those of the whole, and the sum of the parts' reports its report; of a part that is cut, or missing,
--join has to say so. What lacks a tool is skipped with a line; the sshd want root.
"""

import argparse
import contextlib
import os
import pathlib
import shutil
import signal
import subprocess
import sys
import tempfile
import time

from moments import CHANGES, capture, changes, start
from wire import CONFIG, EMPTY_CAPTURE

TOOL = str(pathlib.Path(__file__).resolve().parent.parent / "tools" / "verdicts.py")
JUDGE = "./welgutan enforce peers.toml sessions.tape {}"
FIRST_PORT, NODES = 2271, 3
PATIENCE = 120      # seconds until a sshd answers, or the first lines are back
SSHD = """Port {port}
ListenAddress 127.0.0.1
HostKey {folder}/key
AuthorizedKeysFile {folder}/key.pub
PidFile none
StrictModes no
UsePAM no
PermitRootLogin yes
PasswordAuthentication no
MaxStartups 100
ForceCommand cd {folder}/node{port} && exec sh -c "$SSH_ORIGINAL_COMMAND"
"""
SSH = """Host node*
  HostName 127.0.0.1
  IdentityFile {folder}/key
  StrictHostKeyChecking no
  UserKnownHostsFile /dev/null
  LogLevel ERROR
  ConnectTimeout 5
  User root
"""


def run(words, folder, out=subprocess.DEVNULL, status=0):
    """The seconds of a command that has to end with that status."""
    begun = time.monotonic()
    done = subprocess.run([str(word) for word in words], cwd=folder, stdout=out, stderr=subprocess.PIPE, check=False)
    if done.returncode != status:
        sys.exit(f"parts: {words[:3]} ended with status {done.returncode}: {done.stderr.decode()}")
    return time.monotonic() - begun


def run_to(words, folder, name):
    with open(folder / name, "wb") as out:
        return run(words, folder, out)


def until(holds, said):
    end = time.monotonic() + PATIENCE
    while not holds():
        if time.monotonic() > end:
            sys.exit(f"parts: {said}")
        time.sleep(0.05)


@contextlib.contextmanager
def nodes(folder):
    """The processes of some sshd, each of which has a folder of its own; their words for parallel go to `nodes`."""
    os.makedirs("/run/sshd", exist_ok=True)
    run(["ssh-keygen", "-q", "-t", "ed25519", "-N", "", "-f", "key"], folder)
    (folder / "ssh").write_text(SSH.format(folder=folder))
    running, lines = [], []
    try:
        for port in range(FIRST_PORT, FIRST_PORT + NODES):
            (folder / f"node{port}").mkdir()
            (folder / f"sshd{port}").write_text(SSHD.format(folder=folder, port=port))
            words = [shutil.which("sshd"), "-D", "-e", "-f", folder / f"sshd{port}"]
            running.append(subprocess.Popen(words, stderr=subprocess.DEVNULL, start_new_session=True))
            lines.append(f"1/ssh -F {folder}/ssh -p {port} node{port}\n")
            until(lambda: answers(folder, port), "no sshd answers")
        (folder / "nodes").write_text("".join(lines))
        yield running
    finally:
        for one in running:
            end(one)


def answers(folder, port):
    words = ["ssh", "-F", folder / "ssh", "-p", str(port), f"node{port}", "true"]
    return subprocess.run(words, stderr=subprocess.DEVNULL, check=False).returncode == 0


def end(sshd):
    """Ends a sshd with its sessions."""
    told = subprocess.run(["pgrep", "-P", str(sshd.pid)], stdout=subprocess.PIPE, text=True, check=False).stdout
    for pid in [sshd.pid, *map(int, told.split())]:
        with contextlib.suppress(ProcessLookupError):
            os.kill(pid, signal.SIGKILL)
    sshd.wait()


def done_in(folder):
    """How many parts are done, by the log of the jobs, which has a line more."""
    log = folder / "log"
    return log.read_text().count("\n") - 1 if log.exists() else 0


def over_nodes(folder, parts):
    """Judges the parts on three machines, of which one is lost when the first lines are back."""
    words = ["parallel", "--slf", "nodes", "--workdir", "remote", "--basefile", "welgutan", "--basefile", "peers.toml",
             "--basefile", "sessions.tape", "--transferfile", "{}", "--cleanup", "--results", "{}.lines",
             "--joblog", "log", "--retries", "3", "--halt", "soon,fail=1", JUDGE, "::::", "list"]
    with nodes(folder) as running:
        begun = time.monotonic()
        judging = subprocess.Popen(words, cwd=folder, stdout=subprocess.DEVNULL, stderr=subprocess.PIPE)
        until(lambda: judging.poll() is not None or done_in(folder) > 1, "no lines come back")
        at = done_in(folder)
        end(running[-1])
        told = judging.communicate()[1].decode()
        if judging.returncode != 0:
            sys.exit(f"parts: over ssh parallel ended with status {judging.returncode}: {told}")
        print(f"over ssh to {NODES} machines, one killed when {at} of {len(parts)} parts were back: "
              f"{time.monotonic() - begun:.2f} s; the lines are those of the whole", flush=True)


def compare(folder, parts):
    """The parts' lines and reports, put together, have to be those of the whole."""
    run_to([TOOL, "--join", *(f"{part}.lines={part}" for part in parts)], folder, "joined")
    run(["cmp", "lines", "joined"], folder)
    for part in parts:
        run_to([TOOL, part, f"{part}.lines", "--changes", "changes"], folder, f"{part}.report")
    run_to([TOOL, "--sum", *(f"{part}.report" for part in parts)], folder, "sum")
    run(["cmp", "report", "sum"], folder)


def refuse(folder, parts):
    """A part that is cut at a line, or that is missing, isn't passed over."""
    lines = (folder / f"{parts[0]}.lines").read_bytes()
    (folder / "cut").write_bytes(lines[:lines.rindex(b"\n", 0, -1) + 1])
    for name in "cut", "missing":
        run([TOOL, "--join", f"{name}={parts[0]}", *(f"{part}.lines={part}" for part in parts[1:])], folder, status=1)


def forget_lines(folder):
    for path in folder.glob("part_*.lines*"):
        path.unlink()


def measure(folder, options):
    judge = ["./welgutan", "enforce", "peers.toml", "sessions.tape"]
    whole, played = run_to([*judge, "capture"], folder, "lines"), run_to([*judge, "empty"], folder, "none")
    print(f"{options.packets} packets, {options.rules} rules, {options.items} changes of a rule")
    print(f"whole: {whole:.2f} s; of them the tape, which each part plays anew, {played:.2f} s", flush=True)
    run_to(["./welgutan", "changes", "peers.toml", "sessions.tape"], folder, "changes")
    run_to([TOOL, "capture", "lines", "--changes", "changes"], folder, "report")
    cut = run(["editcap", "-c", -(-options.packets // options.parts), "capture", "part.pcap"], folder)
    parts = sorted(path.name for path in folder.glob("part_*.pcap"))
    (folder / "list").write_text("".join(part + "\n" for part in parts))
    judged = run(["parallel", "--jobs", options.jobs, "--halt", "soon,fail=1", "--results", "{}.lines", JUDGE,
                  "::::", "list"], folder)
    compare(folder, parts)
    refuse(folder, parts)
    print(f"{options.jobs} at a time here: {judged:.2f} s, and to cut {cut:.2f} s; the lines are those of the whole",
          flush=True)
    missing = [tool for tool in ("ssh", "sshd", "rsync", "pgrep") if shutil.which(tool) is None]
    if missing or os.geteuid() != 0:
        print(f"skipped, since {' and '.join(missing or ['root'])} is missing: the parts over ssh")
        return
    forget_lines(folder)
    over_nodes(folder, parts)
    compare(folder, parts)


def main():
    parser = argparse.ArgumentParser(description=__doc__, formatter_class=argparse.RawDescriptionHelpFormatter)
    parser.add_argument("program", type=pathlib.Path)
    parser.add_argument("--packets", type=int, default=1_000_000)
    parser.add_argument("--rules", type=int, default=1000)
    parser.add_argument("--items", type=int, default=100)
    parser.add_argument("--parts", type=int, default=10)
    parser.add_argument("--jobs", type=int, default=4)
    options = parser.parse_args()
    missing = [tool for tool in ("editcap", "parallel") if shutil.which(tool) is None]
    if missing:
        print(f"skipped, since {' and '.join(missing)} is missing: bench/parts.py")
        return
    with tempfile.TemporaryDirectory() as name:
        folder = pathlib.Path(name)
        shutil.copy(options.program, folder / "welgutan")
        (folder / "peers.toml").write_text(CONFIG)
        tape = start(options.rules) + changes(options.packets, options.items, CHANGES["of a rule elsewhere"])
        (folder / "sessions.tape").write_bytes(tape)
        (folder / "empty").write_bytes(EMPTY_CAPTURE)
        capture(folder / "capture", options.packets, options.rules)
        measure(folder, options)


if __name__ == "__main__":
    main()
