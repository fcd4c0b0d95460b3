"""Runs a command, and writes down what each crate took of the processors: python3 processor_times.py FILE COMMAND..

FILE gets a line 'CRATE SECONDS' for each crate, most first, and last a line '- SECONDS' for what no crate's processes took. A
crate's processes are those of rattle with its --crate-name, and all that they begin. No command counts them by crate, so they
are read from /proc again and again: what a process takes in its last moments falls to no crate.
"""
import os
import re
import signal
import subprocess
import sys
import time

PAUSE = 0.4  # seconds
TICKS = os.sysconf("SC_CLK_TCK")
NAME = re.compile(rb"\0--crate-name\0(\w+)\0")


def processes():
    """Of each process its parent, when it began, and its ticks with those of its children that have ended."""
    found = {}
    for pid in filter(str.isdigit, os.listdir("/proc")):
        try:
            with open(f"/proc/{pid}/stat", "rb") as file:
                fields = file.read().rpartition(b")")[2].split()
        except OSError:
            continue  # it has ended
        found[int(pid)] = int(fields[1]), fields[19], sum(map(int, fields[11:15]))
    return found


def crate_named(pid):
    try:
        with open(f"/proc/{pid}/cmdline", "rb") as file:
            name = NAME.search(file.read())
    except OSError:
        return None
    return name and name[1].decode()


class Times:
    """The ticks of the processes below one that name a crate, each with all below it."""

    def __init__(self, top):
        self.top = top
        self.ticks = {}  # by a process and when it began: its crate and its ticks

    def look(self):
        found = processes()
        below = {}
        for pid, (parent, _, _) in found.items():
            below.setdefault(parent, []).append(pid)

        def all_ticks(pid):
            return found[pid][2] + sum(map(all_ticks, below.get(pid, ())))

        left = list(below.get(self.top, ()))
        while left:
            pid = left.pop()
            crate = crate_named(pid)
            if crate is None:
                left += below.get(pid, ())
                continue
            key = pid, found[pid][1]
            most = max(all_ticks(pid), self.ticks.get(key, (crate, 0))[1])
            self.ticks[key] = crate, most

    def crates(self):
        seconds = {}
        for crate, ticks in self.ticks.values():
            seconds[crate] = seconds.get(crate, 0) + ticks / TICKS
        return sorted(seconds.items(), key=lambda one: -one[1])


def main():
    path, *words = sys.argv[1:]
    process = subprocess.Popen(words)
    # A terminal ends the command, and whoever ends this program means it.
    signal.signal(signal.SIGINT, signal.SIG_IGN)
    signal.signal(signal.SIGTERM, lambda *_: process.terminate())
    times = Times(process.pid)
    while process.poll() is None:
        times.look()
        time.sleep(PAUSE)
    used = os.times()
    rest = used.children_user + used.children_system
    with open(path, "w", encoding="ascii") as file:
        for crate, seconds in times.crates():
            file.write(f"{crate} {seconds:.1f}\n")
            rest -= seconds
        file.write(f"- {max(rest, 0):.1f}\n")
    sys.exit(process.returncode if process.returncode >= 0 else 128 - process.returncode)


if __name__ == "__main__":
    main()
