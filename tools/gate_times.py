#!/usr/bin/env python3
"""Tells what a run of the gate takes, by crate and by tool, and writes the table of docs/TESTS.md.

    tools/gate_times.py LOG         writes the table from the log of a gate that proved everything anew

The processor time of a tool, and of `rt ci` as a whole, is what the system counted. That of a crate is read off its
checks once a second, in /proc (Linux alone), so up to a second of each check is lost; what is left of `rt ci` is `rt`
itself, the compilers and the programs' runs.
"""
import collections
import os
import re
import sys
import threading
import time
from pathlib import Path

TICKS = os.sysconf("SC_CLK_TCK")
CRATE = re.compile(r"\0--crate-name\0(\w+)\0")
ROW = re.compile(r"(?m)^times: (\S.*?) +([\d.]+) min +(\d+) MB$")
TOTAL = re.compile(r"(?m)^times: in all ([\d.]+) processor minutes, ([\d.]+) by the clock$")
DOCS_ROW = re.compile(r"(?m)^\| `?([^|`]+?)`? \| ([\d.]+) \| ([\d,]+) \|$")
MARKS = ("<!-- gate -->", "<!-- end of the gate -->")
ALL_DONE = "every proof and must-fail edit was done in this run"


def available_mb():
    """The memory that is free for programs, in MB."""
    return int(re.search(r"MemAvailable:\s+(\d+)", Path("/proc/meminfo").read_text())[1]) // 1000


def peaks_in_docs(top):
    """The peak of memory of each crate's check and of each tool, in MB, by the table of docs/TESTS.md."""
    text = (top / "docs" / "TESTS.md").read_text(encoding="utf-8")
    rows = DOCS_ROW.findall(text.split(MARKS[0])[1].split(MARKS[1])[0])
    return {name: int(peak.replace(",", "")) for name, _, peak in rows}


def process(pid):
    """A process's parent, its processor seconds with those of its ended children, and its memory in MB."""
    text = Path(f"/proc/{pid}/stat").read_text()
    words = text[text.rindex(")") + 2 :].split()
    return int(words[1]), sum(map(int, words[11:15])) / TICKS, int(words[21]) * 4096 // 1_000_000


def descendants(root):
    """The processes that a process started, at any distance: each with its seconds and its memory."""
    every, below = {}, collections.defaultdict(list)
    for name in filter(str.isdigit, os.listdir("/proc")):
        try:
            every[int(name)] = process(name)
            below[every[int(name)][0]].append(int(name))
        except (OSError, ValueError):
            continue
    left = list(below[root])
    while left:
        pid = left.pop()
        left += below[pid]
        yield pid, *every[pid][1:]


class Usage:
    """What the parts of a gate took: of each, its processor seconds and the most memory of one process, in MB."""

    def __init__(self):
        self.begun, self.parts, self.crates, self.known = time.time(), {}, {}, {}
        self.is_over = threading.Event()

    def watch(self, root):
        """Reads once a second what the checks of crates take that this process starts, until `end` of it."""
        threading.Thread(target=self.sample, args=(root,), daemon=True).start()

    def sample(self, root):
        while not self.is_over.wait(1):
            for pid, seconds, memory in descendants(root):
                if crate := self.crate_of(pid):
                    taken = self.crates.setdefault(crate, {})
                    taken[pid] = (seconds, max(memory, taken.get(pid, (0, 0))[1]))

    def crate_of(self, pid):
        """The crate that a process checks, if it does."""
        if pid not in self.known:
            try:
                words = CRATE.search(Path(f"/proc/{pid}/cmdline").read_text(errors="replace"))
            except OSError:
                words = None
            self.known[pid] = words and words[1]
        return self.known[pid]

    def end(self, name, running, begun):
        """Waits for a part to end, and notes what it took: its status."""
        _, status, usage = os.wait4(running.pid, 0)
        running.returncode = os.waitstatus_to_exitcode(status)
        self.parts[name] = (usage.ru_utime + usage.ru_stime, usage.ru_maxrss // 1000, time.time() - begun)
        if name == "rt ci":
            self.is_over.set()
        return running.returncode

    def table(self):
        """A line for each crate that was checked and for each part, the dearest first, and one of all."""
        rows = {name: (sum(it for it, _ in taken.values()), max(it for _, it in taken.values()))
                for name, taken in self.crates.items()}
        rest = self.parts["rt ci"][0] - sum(seconds for seconds, _ in rows.values())
        rows["compilers and runs"] = (max(rest, 0), 0)
        rows.update({name: taken[:2] for name, taken in self.parts.items() if name != "rt ci"})
        dearest = sorted(rows.items(), key=lambda it: -it[1][0])
        lines = [f"times: {name:<24} {seconds / 60:6.1f} min {memory:6} MB" for name, (seconds, memory) in dearest]
        clocks = ((name, clock / 60) for name, (_, _, clock) in self.parts.items())
        lines += [f"times: {name} took {clock:.1f} minutes by the clock" for name, clock in clocks]
        total, clock = sum(seconds for seconds, _, _ in self.parts.values()), time.time() - self.begun
        return "\n".join([*lines, f"times: in all {total / 60:.1f} processor minutes, {clock / 60:.1f} by the clock"])


def docs_table(log, top):
    """The table of docs/TESTS.md by a gate's log."""
    total = TOTAL.search(log)
    if not total or ALL_DONE not in log:
        sys.exit("gate_times: the log is of no gate that proved everything in one run (tools/gate.py --anew)")
    names = {name: f"`{name}`" if (top / "crates" / name).is_dir() else name for name, _, _ in ROW.findall(log)}
    rows = [f"| {names[name]} | {minutes} | {int(peak):,} |" for name, minutes, peak in ROW.findall(log)]
    head = ["| Part | Processor minutes | Peak, MB |", "|---|---|---|"]
    return "\n".join([MARKS[0], *head, *rows, f"| all, in {total[2]} minutes by the clock | {total[1]} | |", MARKS[1]])


def main():
    top = Path(__file__).resolve().parent.parent
    docs, log = top / "docs" / "TESTS.md", Path(sys.argv[1]).read_text(encoding="utf-8", errors="replace")
    text, table = docs.read_text(encoding="utf-8"), docs_table(log, top)
    front, _, rest = text.partition(MARKS[0])
    docs.write_text(front + table + rest.partition(MARKS[1])[2], encoding="utf-8")


if __name__ == "__main__":
    main()
