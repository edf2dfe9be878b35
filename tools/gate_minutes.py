#!/usr/bin/env python3
"""Prints where the processor minutes of a run of `rt` go, by crate: proof, tests and edits.

    python3 tools/gate_minutes.py -- rt ci          runs it, with its output as ever, and prints the table at its end
    python3 tools/gate_minutes.py --pid PID         watches one that runs already, from then on, up to its end

It looks into /proc twice a second, so it needs Linux and misses what a process does behind its last look; the line
`unseen` has what the run took in all and no crate has. With --pid, Control and C prints the table so far.

`rt check`, `rt must-fail` and others are watched in the same way. `rt ci` proves from nothing only what no run on this
machine has passed before."""

import os
import signal
import subprocess
import sys
import time
from collections import defaultdict

TICKS = os.sysconf("SC_CLK_TCK")
PAUSE = 0.5
KINDS = ("proof", "tests", "edits", "runs")


class Process:
    """What /proc says of a process: its parent, when it started, and its seconds with those of the children that it
    has waited for."""

    def __init__(self, pid):
        with open(f"/proc/{pid}/stat") as file:
            # The name may have spaces and brackets.
            fields = file.read().rsplit(")", 1)[1].split()
        self.pid = pid
        self.parent = int(fields[1])
        self.start = int(fields[19])
        self.own = (int(fields[11]) + int(fields[12])) / TICKS
        self.waited = (int(fields[13]) + int(fields[14])) / TICKS


def processes():
    found = {}
    for name in os.listdir("/proc"):
        if name.isdigit():
            try:
                found[int(name)] = Process(int(name))
            except (OSError, IndexError):
                # It has just ended.
                pass
    return found


def task(pid):
    """What a child of `rt` does: its crate and its kind of work, or None where it has just ended."""
    try:
        with open(f"/proc/{pid}/cmdline") as file:
            words = file.read().split("\0")
        folder = os.readlink(f"/proc/{pid}/cwd")
    except OSError:
        return None
    if "--crate-name" in words:
        crate = words[words.index("--crate-name") + 1]
        if os.path.basename(folder).startswith("rt-edit"):
            return crate, "edits"
        return crate, "tests" if "--test" in words else "proof"
    # It links, lays out, or runs a program or its tests.
    parent, name = os.path.split(folder)
    return (name if os.path.basename(parent) == "crates" else "(none)"), "runs"


class Watch:
    def __init__(self, root):
        self.root = root
        self.tasks = {}
        self.seconds = {}
        self.total = 0.0

    def look(self):
        """Takes the seconds of each child of the root with all that stand below it. False once the root has ended."""
        now = processes()
        if self.root not in now:
            return False
        below = defaultdict(list)
        for process in now.values():
            below[process.parent].append(process)
        for child in below[self.root]:
            mark = (child.pid, child.start)
            # Between fork and exec it still has the words of its parent.
            found = task(child.pid)
            if found:
                self.tasks[mark] = found
            seconds = self.sum(child, below)
            self.seconds[mark] = max(seconds, self.seconds.get(mark, 0.0))
        root = now[self.root]
        self.total = max(self.total, self.sum(root, below))
        return True

    def sum(self, process, below):
        return process.own + process.waited + sum(self.sum(child, below) for child in below[process.pid])

    def table(self):
        minutes = defaultdict(lambda: defaultdict(float))
        edits = defaultdict(list)
        for mark, (crate, kind) in self.tasks.items():
            seconds = self.seconds[mark]
            minutes[crate][kind] += seconds / 60
            if kind == "edits":
                edits[crate].append(seconds)
        print_table(minutes, edits, self.total / 60)


def print_table(minutes, edits, total):
    """Minutes by crate, the dearest first; of edits also their number and the seconds of the longest."""
    print("| crate | proof | tests | edits | runs | all | edits tried | longest, s |")
    print("|---|---|---|---|---|---|---|---|")
    sums = defaultdict(float)
    for crate in sorted(minutes, key=lambda crate: -sum(minutes[crate].values())):
        of = minutes[crate]
        for kind in KINDS:
            sums[kind] += of[kind]
        tried = edits.get(crate, [])
        print(line(crate, of, sum(of.values()), len(tried) or "", f"{max(tried):.0f}" if tried else ""))
    seen = sum(sums.values())
    print(line("all", sums, seen, sum(map(len, edits.values())), ""))
    if total - seen >= 0.05:
        print(f"\nunseen: {total - seen:.1f} minutes of {total:.1f}")


def line(name, minutes, seen, tried, longest):
    cells = [name] + [f"{minutes[kind]:.1f}" for kind in KINDS] + [f"{seen:.1f}", str(tried), longest]
    return "| " + " | ".join(cells) + " |"


def run(command):
    """Runs the command to its end, and answers its status."""
    start = time.monotonic()
    process = subprocess.Popen(command)
    # Control and C is for the command.
    signal.signal(signal.SIGINT, signal.SIG_IGN)
    watch = Watch(process.pid)
    while True:
        watch.look()
        pid, status, usage = os.wait4(process.pid, os.WNOHANG)
        if pid:
            break
        time.sleep(PAUSE)
    watch.total = usage.ru_utime + usage.ru_stime
    print(f"\n{' '.join(command)}: {(time.monotonic() - start) / 60:.1f} minutes by the clock\n")
    watch.table()
    return os.waitstatus_to_exitcode(status)


def attach(pid):
    watch = Watch(pid)
    if not watch.look():
        sys.exit(f"gate_minutes: there is no process {pid}")
    try:
        while watch.look():
            time.sleep(PAUSE)
    except KeyboardInterrupt:
        print()
    watch.table()


def main():
    match sys.argv[1:]:
        case ["--", *command] if command:
            sys.exit(run(command))
        case ["--pid", pid] if pid.isdigit():
            attach(int(pid))
        case _:
            sys.exit(__doc__)


if __name__ == "__main__":
    main()
