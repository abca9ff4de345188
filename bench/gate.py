#!/usr/bin/env python3
"""Tells what the gate costs, in processor seconds, by crate: bench/gate.py [COMMAND ..]

Runs the command, `rt ci` where none is given, and looks twice a second at the processes below it. A process of the
prover counts for the crate that it names, as one of its proofs, its tests or its edits; what it did after the last look
is not counted. All else, such as tests and programs that run, counts as `other`. An interrupt ends the command, and what
was seen so far is told."""
import os
import subprocess
import sys
import time

KINDS = ("proofs", "tests", "edits")
TICKS = os.sysconf("SC_CLK_TCK")


def read(path):
    try:
        with open(path, "rb") as it:
            return it.read()
    except OSError:
        return b""


def processes():
    """Gives each process with its parent and its own processor seconds."""
    found = {}
    for name in filter(str.isdigit, os.listdir("/proc")):
        fields = read(f"/proc/{name}/stat").rpartition(b")")[2].split()
        if fields:
            found[int(name)] = int(fields[1]), (int(fields[11]) + int(fields[12])) / TICKS
    return found


def below(found, top):
    """Gives the processes that descend from the one given."""
    children = {}
    for pid, (parent, _) in found.items():
        children.setdefault(parent, []).append(pid)
    left, those = [top], []
    while left:
        pid = left.pop()
        those.append(pid)
        left.extend(children.get(pid, []))
    return those


def purpose(pid):
    """Gives the crate that a process works for, and as what."""
    words = read(f"/proc/{pid}/cmdline").decode(errors="replace").split("\0")
    if os.path.basename(words[0]) != "rattle" or "--crate-name" not in words:
        return None
    crate = words[words.index("--crate-name") + 1]
    try:
        folder = os.readlink(f"/proc/{pid}/cwd")
    except OSError:
        folder = ""
    is_edit = "/rt-edit" in folder or any("/rt-edits" in it for it in words)
    return crate, "edits" if is_edit else "tests" if "--test" in words else "proofs"


def watch(command):
    """Runs the command, and gives its status with the seconds of each process, by purpose."""
    seconds, purposes = {}, {}
    with subprocess.Popen(command) as run:
        while run.poll() is None:
            found = processes()
            for pid in below(found, run.pid):
                if pid not in found:
                    continue
                if purposes.get(pid) is None:
                    purposes[pid] = purpose(pid)
                seconds[pid] = max(seconds.get(pid, 0), found[pid][1])
            try:
                time.sleep(0.5)
            except KeyboardInterrupt:
                run.terminate()
    return run.returncode, seconds, purposes


def main():
    began = time.time()
    status, seconds, purposes = watch(sys.argv[1:] or ["rt", "ci"])
    table, other = {}, 0
    for pid, spent in seconds.items():
        if purposes[pid] is None:
            other += spent
            continue
        crate, kind = purposes[pid]
        table.setdefault(crate, dict.fromkeys(KINDS, 0))[kind] += spent
    print(f"\n| {'Crate':18} | {' | '.join(f'{it:>7}' for it in KINDS)} |     all |")
    print(f"|{'-' * 20}|{'|'.join('-' * 9 for _ in range(len(KINDS) + 1))}|")
    for crate, row in sorted(table.items(), key=lambda it: -sum(it[1].values())):
        print(f"| {crate:18} | {' | '.join(f'{row[it]:7.0f}' for it in KINDS)} | {sum(row.values()):7.0f} |")
    sums = [sum(row[it] for row in table.values()) for it in KINDS]
    print(f"| {'all':18} | {' | '.join(f'{it:7.0f}' for it in sums)} | {sum(sums):7.0f} |")
    print(f"\nother {other:.0f}; in all {sum(sums) + other:.0f} processor seconds, {time.time() - began:.0f} seconds by the clock")
    return status


if __name__ == "__main__":
    sys.exit(main())
