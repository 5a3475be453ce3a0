#!/usr/bin/env python3
"""Prints what proving costs, in processor seconds by crate: its own proof, its tests, the base that its edits stand on, and they.

    bench/gate.py rt ci        runs the command and counts what it starts; so with any other, as `rt check` in a crate's folder
    bench/gate.py              counts every check that goes on here until it is stopped (Ctrl-C)

It looks at the running checks once a second, so that the last second of each may be missed. A library that a check needs
and doesn't find built counts as the proof of that library."""

import os
import resource
import signal
import subprocess
import sys
import time
from collections import defaultdict

KINDS = ("proof", "tests", "base", "edits")
BETWEEN_LOOKS = 1.0
TICKS_A_SECOND = os.sysconf("SC_CLK_TCK")


class Process:
    """What the system tells of a process: its parent, when it began, and its processor seconds with those of its ended children."""

    def __init__(self, number):
        with open(f"/proc/{number}/stat") as file:
            fields = file.read().rpartition(")")[2].split()
        self.parent = int(fields[1])
        self.seconds = sum(map(int, fields[11:15])) / TICKS_A_SECOND
        self.begun = int(fields[19])
        with open(f"/proc/{number}/cmdline") as file:
            self.words = file.read().split("\0")

    def crate(self):
        """The crate that the process checks, or None where it is no check."""
        if os.path.basename(self.words[0]) != "rattle" or "--crate-name" not in self.words:
            return None
        return self.words[self.words.index("--crate-name") + 1]

    def kind(self, number):
        """What the process checks of its crate. An edit is tried in a folder of its own, over what the base left."""
        if "--test" in self.words:
            return "tests"
        if not os.path.basename(os.readlink(f"/proc/{number}/cwd")).startswith("rt-edit-"):
            return "proof"
        kept = self.words[self.words.index("--incremental") + 1] if "--incremental" in self.words else ""
        return "base" if os.path.basename(kept) == "seed" else "edits"


def processes():
    """All processes of the machine by their numbers, but those that end while one looks."""
    found = {}
    for number in filter(str.isdigit, os.listdir("/proc")):
        try:
            found[int(number)] = Process(number)
        except OSError:
            pass
    return found


def is_below(number, top, all_processes):
    while number in all_processes:
        if number == top:
            return True
        number = all_processes[number].parent
    return False


class Sampler:
    """Gathers what each check took until now: its crate, its kind and its seconds, by its process and when that began."""

    def __init__(self, top):
        self.top = top
        self.checks = {}

    def look(self):
        every = processes()
        checks = {number: it.crate() for number, it in every.items()}
        checks = {number: crate for number, crate in checks.items() if crate and not checks.get(every[number].parent)}
        for number, crate in checks.items():
            if not is_below(number, self.top, every):
                continue
            seconds = sum(it.seconds for other, it in every.items() if is_below(other, number, every))
            key = number, every[number].begun
            try:
                label = self.checks[key][:2] if key in self.checks else (crate, every[number].kind(number))
            except OSError:
                continue
            self.checks[key] = *label, seconds

    def table(self):
        """The seconds by crate and kind, the dearest crate first."""
        table = defaultdict(lambda: defaultdict(float))
        for crate, kind, seconds in self.checks.values():
            table[crate][kind] += seconds
        return sorted(table.items(), key=lambda row: -sum(row[1].values()))


def print_table(table):
    print(f"{'crate':24}" + "".join(f"{kind:>9}" for kind in KINDS) + f"{'all':>9}   (processor seconds)")
    sums = {kind: sum(row[kind] for _, row in table) for kind in KINDS}
    for crate, row in [*table, ("all crates", sums)]:
        print(f"{crate:24}" + "".join(f"{row[kind]:9.0f}" for kind in KINDS) + f"{sum(row.values()):9.0f}")


def main(command):
    started = time.monotonic()
    child = subprocess.Popen(command) if command else None
    sampler = Sampler(child.pid if child else 1)
    signal.signal(signal.SIGTERM, signal.default_int_handler)
    try:
        while not child or child.poll() is None:
            sampler.look()
            time.sleep(BETWEEN_LOOKS)
    except KeyboardInterrupt:
        if child:
            child.wait()
    print_table(sampler.table())
    minutes = (time.monotonic() - started) / 60
    print(f"{time.strftime('%Y-%m-%d')}, {os.cpu_count()} processors, {minutes:.1f} minutes", end="")
    if not child:
        print()
        return 0
    used = resource.getrusage(resource.RUSAGE_CHILDREN)
    print(f"; the command took {(used.ru_utime + used.ru_stime) / 60:.1f} processor minutes in all")
    return child.returncode


if __name__ == "__main__":
    sys.exit(main(sys.argv[1:]))
