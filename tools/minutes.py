#!/usr/bin/env python3
"""usage: tools/minutes.py run FILE NAME COMMAND..    runs a command, adds the minutes that it took to FILE, and ends with its
                                                  status
       tools/minutes.py table FILE                prints them

What the toolchain does within a command is told apart by how it runs: a process `rattle` that checks a crate has its name
behind --crate-name among its words, and --test where it is the tests that it checks; a must-fail edit is tried in a folder of
its own, rt-edit-..; and what was built is run in a folder rt-run-... Several times a second it is read what these have taken so
far, with all that they started. What they took after that, until they ended, is among `other`: the kernel knows the sum.
"""

import json
import os
import resource
import subprocess
import sys
import time
from collections import defaultdict
from contextlib import suppress

PAUSE = 0.25
TICKS = os.sysconf("SC_CLK_TCK")
PARTS = "proofs", "tests", "edits", "runs"


def text_of(file):
    """The text of a file of a process, which may be gone."""
    try:
        with open(file, "rb") as it:
            return it.read().decode(errors="replace")
    except OSError:
        return ""


def processes():
    """Of each process its parent, when it started, and what it and the children that it waited for have taken."""
    found = {}
    for pid in filter(str.isdigit, os.listdir("/proc")):
        fields = text_of(f"/proc/{pid}/stat").rpartition(") ")[2].split()
        if fields:
            found[int(pid)] = int(fields[1]), int(fields[19]), sum(map(int, fields[11:15])) / TICKS
    return found


def folder_of(pid):
    try:
        return os.readlink(f"/proc/{pid}/cwd")
    except OSError:
        return ""


def kind_of(pid):
    """The part and the crate that a process belongs to by its words, or None."""
    words = text_of(f"/proc/{pid}/cmdline").split("\0")
    if "--crate-name" in words[:-1] and "rattle" in map(os.path.basename, words):
        crate = words[words.index("--crate-name") + 1]
        return ("edits" if "/rt-edit-" in folder_of(pid) else "tests" if "--test" in words else "proofs"), crate
    ran = next((word for word in words if "/rt-run-" in word), None)
    return ran and ("runs", os.path.basename(ran))


class Sampler:
    """What the processes below one have taken, by the first of each tree that belongs to a part."""

    def __init__(self, top):
        self.top, self.kinds, self.taken = top, {}, {}

    def look(self):
        found, children = processes(), defaultdict(list)
        for pid, (parent, _, _) in found.items():
            children[parent].append(pid)
        self.walk(found, children)

    def walk(self, found, children):
        """Goes from the top down to the first process of each tree that belongs to a part."""
        waiting = list(children[self.top])
        while waiting:
            pid = waiting.pop()
            key = pid, found[pid][1]
            self.kinds[key] = self.kinds.get(key) or kind_of(pid)
            if self.kinds[key]:
                self.taken[key] = sum(found[it][2] for it in tree_of(pid, children))
            else:
                waiting += children[pid]

    def minutes(self):
        """The minutes of each part, by crates."""
        parts = {part: defaultdict(float) for part in PARTS}
        for key, seconds in self.taken.items():
            part, crate = self.kinds[key]
            parts[part][crate] += seconds / 60
        return parts


def tree_of(pid, children):
    """The process, and all below it."""
    tree = [pid]
    for it in tree:
        tree += children[it]
    return tree


def run(file, name, command):
    """Runs a command, and adds what it took to the file."""
    began = time.monotonic()
    started = subprocess.Popen(command)
    sampler = Sampler(os.getpid())
    while True:
        try:
            status = started.wait(PAUSE)
            break
        except subprocess.TimeoutExpired:
            # A look that fails is none: the command goes on.
            with suppress(OSError, ValueError, LookupError):
                sampler.look()
    used = resource.getrusage(resource.RUSAGE_CHILDREN)
    whole, parts = (used.ru_utime + used.ru_stime) / 60, sampler.minutes()
    other = whole - sum(sum(crates.values()) for crates in parts.values())
    ended = time.monotonic()
    row = {"name": name, "processor": whole, "began": began / 60, "ended": ended / 60, "parts": parts, "other": other}
    with open(file, "a", encoding="utf-8") as it:
        print(json.dumps(row), file=it)
    return status if status >= 0 else 128 - status


def line(name, processor, wall=None, depth=0):
    told = f"{'    ' * depth}{name:<{32 - 4 * depth}}{processor:>12.1f}"
    return told if wall is None else f"{told}{wall:>10.1f}"


def part_lines(parts, other):
    """The lines of a command's parts and their crates, the longest crates first."""
    told = [(name, crates) for name, crates in parts.items() if crates]
    for name, crates in told:
        yield line(name, sum(crates.values()), depth=1)
        for crate, minutes in sorted(crates.items(), key=lambda it: -it[1]):
            yield line(crate, minutes, depth=2)
    if told:
        yield line("other", other, depth=1)


def table(file):
    """The lines of the table of what the file has."""
    with open(file, encoding="utf-8") as it:
        rows = [json.loads(text) for text in it]
    yield f"{'minutes':<32}{'processor':>12}{'wall':>10}"
    for row in rows:
        yield line(row["name"], row["processor"], row["ended"] - row["began"])
        yield from part_lines(row["parts"], row["other"])
    # Some of them ran side by side.
    wall = max(row["ended"] for row in rows) - min(row["began"] for row in rows)
    whole = sum(row["processor"] for row in rows)
    yield f"{line('in all', whole, wall)} on {len(os.sched_getaffinity(0))} processors"


def main(words):
    if len(words) > 3 and words[0] == "run":
        return run(words[1], words[2], words[3:])
    if len(words) == 2 and words[0] == "table":
        print(*table(words[1]), sep="\n")
        return 0
    print(__doc__, file=sys.stderr)
    return 2


if __name__ == "__main__":
    sys.exit(main(sys.argv[1:]))
