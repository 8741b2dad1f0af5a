#!/usr/bin/env python3
"""Counts what a gate costs, in processor seconds, by crate and kind.

    python3 tests/gate_costs.py [--to FILE] -- rt ci --anew
    python3 tests/gate_costs.py [--to FILE] --attach PID
    python3 tests/gate_costs.py [--to FILE] --any

It runs the command, or looks at one that runs (by its process number, or with `--any` every `rt` of this machine, until it is
interrupted), and reads `/proc` each second: user and system seconds of each `rattle`, by the crate of its words, and as a proof, as tests
(`--test`) or as wrong bodies (what is checked in a folder that `rt` makes for an edit, and the check of the crate that those begin with).
What a process takes after the last look at it, up to a second, is missing from its crate but not from the sum of all processes, which is
that of the system and holds all else too: reading, linking, runs. A check that was over before the first look is in the sum alone.

It prints a table in Markdown, the crates in the order of crates.txt, and the sum and the time by the clock. `--to FILE` writes it there too,
each half minute. The status is that of the command.
"""
import argparse
import os
import pathlib
import re
import resource
import subprocess
import sys
import time

import copies

TICKS = os.sysconf("SC_CLK_TCK")
KINDS = ("proof", "tests", "wrong bodies")


class Process:
    def __init__(self, number):
        folder = pathlib.Path("/proc") / str(number)
        stat = (folder / "stat").read_text()
        fields = stat.rpartition(")")[2].split()
        self.number, self.name = number, stat.partition("(")[2].rpartition(")")[0]
        self.above, self.begun = int(fields[1]), fields[19]
        # Its own seconds, and those of its children that have ended.
        self.seconds = sum(map(int, fields[11:15])) / TICKS
        self.words, self.folder = [], ""
        if self.name in ("rattle", "rt") or self.name.startswith("python"):
            self.words = (folder / "cmdline").read_text(errors="replace").split("\0")
            self.folder = os.readlink(folder / "cwd")


def processes():
    found = {}
    for name in os.listdir("/proc"):
        if name.isdigit():
            try:
                found[int(name)] = Process(int(name))
            except (OSError, IndexError, ValueError):
                # It has ended meanwhile, or is another user's.
                pass
    return found


def is_rt(process):
    return any(os.path.basename(it) == "rt" for it in process.words[:3])


class Costs:
    def __init__(self, root):
        self.root, self.seen, self.total = root, {}, 0.0

    def above(self, found, process):
        """The processes above one, from its parent up."""
        while process.above in found and process.above != process.number:
            process = found[process.above]
            yield process

    def look(self):
        """Looks once, and returns whether the command is still there."""
        found = processes()
        taken = {}
        for process in found.values():
            if process.name != "rattle":
                continue
            line = [process, *self.above(found, process)]
            if self.root and all(it.number != self.root for it in line):
                continue
            if not self.root and not any(map(is_rt, line)):
                continue
            # A rattle that another one made counts as part of that.
            first = [it for it in line if it.name == "rattle"][-1]
            taken.setdefault(first.number, [first, 0.0])[1] += process.seconds
        for first, seconds in taken.values():
            named = re.search(r"--crate-name\0(\w+)", "\0".join(first.words))
            if "rt-edit-" in first.folder:
                kind = "wrong bodies"
            else:
                kind = "tests" if "--test" in first.words else "proof"
            key = (first.number, first.begun)
            before = self.seen.get(key, (0, 0, 0.0))[2]
            self.seen[key] = (named[1] if named else "(none)", kind, max(seconds, before))
        if self.root in found:
            self.total = max(self.total, found[self.root].seconds)
        return self.root in found

    def table(self, clock):
        sums = {}
        for crate, kind, seconds in self.seen.values():
            sums.setdefault(crate, dict.fromkeys(KINDS, 0.0))[kind] += seconds
        order = [*copies.libraries(), *sorted(sums)]
        lines = ["| Crate | " + " | ".join(KINDS) + " | sum |", "|---|" + "---:|" * (len(KINDS) + 1)]
        for crate in sorted(sums, key=order.index):
            parts = [sums[crate][it] for it in KINDS]
            lines.append(f"| `{crate}` | " + " | ".join(f"{it:.0f}" if it else "" for it in parts) + f" | {sum(parts):.0f} |")
        parts = [sum(it[kind] for it in sums.values()) for kind in KINDS]
        lines.append("| all | " + " | ".join(f"{it:.0f}" for it in parts) + f" | {sum(parts):.0f} |")
        if self.total:
            lines += ["", f"All processes together: {self.total:.0f} processor seconds."]
        return "\n".join([*lines, f"By the clock: {clock:.0f} seconds ({clock / 60:.0f} minutes).", ""])


def main():
    words = argparse.ArgumentParser(description=__doc__.splitlines()[0])
    words.add_argument("--to", metavar="FILE", type=pathlib.Path, help="write the table there too, each half minute")
    words.add_argument("--attach", metavar="PID", type=int, help="look at a command that runs")
    words.add_argument("--any", action="store_true", help="look at every rt of this machine, until interrupted")
    words.add_argument("command", nargs="*", help="the command, behind --")
    given = words.parse_args()
    if bool(given.command) + bool(given.attach) + given.any != 1:
        words.error("give a command behind --, or --attach PID, or --any")
    begun, run = time.time(), None
    if given.command:
        run = subprocess.Popen(given.command)
    costs, at = Costs(run.pid if run else given.attach), 0
    try:
        while run is None or run.poll() is None:
            is_there = costs.look()
            if given.attach and not is_there:
                break
            at += 1
            if given.to and at % 30 == 0:
                given.to.write_text(costs.table(time.time() - begun))
            time.sleep(1)
    except KeyboardInterrupt:
        if run:
            run.wait()
    if run:
        used = resource.getrusage(resource.RUSAGE_CHILDREN)
        costs.total = used.ru_utime + used.ru_stime
    table = costs.table(time.time() - begun)
    print(table, end="")
    if given.to:
        given.to.write_text(table)
    return run.returncode if run else 0


if __name__ == "__main__":
    sys.exit(main())
