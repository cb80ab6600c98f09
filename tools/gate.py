#!/usr/bin/env python3
"""The merge gate: proves and tests everything, and says what it took.

    tools/gate.py [--anew]

`rt ci` proves each crate and its tests, tries the must-fail edits, and runs each program. (What it passed on this
machine it keeps by the check sums of all that it read, and proves again only what changed; with --anew it proves all.)
Beside it run the tools of TOOLS, which test what no proof says, one after the other, each once there is memory for it.
The tool on files of blobs takes the `blobctl` that `rt ci` built. Once `rt ci` has ended five wrong bodies are tried,
which the commit's own hash draws.

Lines of `rt ci` begin with the minutes and seconds since the start. Behind them stands what each tool said, and a table
of times by crate and tool (tools/gate_times.py writes docs/TESTS.md's from it). The last line is 'N passed, M failed':
what `rt ci` counts, and each tool as one. The status is 0 if nothing failed.
"""
import itertools
import os
import re
import shutil
import subprocess
import sys
import tempfile
import threading
import time
from concurrent.futures import ThreadPoolExecutor
from pathlib import Path

sys.dont_write_bytecode = True
import gate_times  # noqa: E402

TOP = Path(__file__).resolve().parent.parent
NEEDED = {"rt": "the Rattle toolchain", "git": "git", "cc": "gcc or clang", "sqlite3": "sqlite3"}
# The share of free memory that checks may plan with, and what a tool leaves free for them to grow, in MB.
SHARE, SPARE = 0.9, 6000
# The programs that `rt ci` leaves.
BLOBCTL, PAGECTL = "crates/blobctl/out/blobctl", "crates/pagectl/out/pagectl"
# The tools: a name, the words that run it, and the crate of `rt ci` whose end it waits for, or `all`.
TOOLS = (
    ("text", ["tools/check_text.py"], None),
    ("planted faults", ["tools/planted.py"], None),
    ("threads", ["tools/tests.py", "threads"], None),
    ("crates", ["tools/tests.py", "crate_tests"], None),
    ("failures", ["tools/failures/run.py"], None),
    ("rows", ["tools/rows/run.py"], None),
    ("programs", ["tools/programs/run.py"], None),
    ("files of the system", ["tools/host_files/check.py"], None),
    ("files of blobs", ["tools/file_blobs/check.py", BLOBCTL], "blobctl"),
    ("declarations", ["tools/declarations/check.py"], None),
    ("hostile", ["tools/hostile/run.py", "--pagectl", PAGECTL, "--blobctl", BLOBCTL], "all"),
    ("wrong bodies", ["tools/wrong_bodies.py", "--over-ci", "--jobs", "3", "--drawn", "HEAD"], "all"),
)
LAST = re.compile(r"(\d+) passed, (\d+) failed")
ENDED = re.compile(r"rt: (\w+) (?:proved|is kept)")


class Ended:
    """Which crates `rt ci` has ended, for the tools that wait for one; `all` is `rt ci` itself."""

    def __init__(self):
        self.names, self.changed = set(), threading.Condition()

    def add(self, name):
        with self.changed:
            self.names.add(name)
            self.changed.notify_all()

    def wait_for(self, name, seconds=None):
        """Waits until a crate has ended, or for so long: whether it has."""
        with self.changed:
            return self.changed.wait_for(lambda: name in self.names or "all" in self.names, seconds)


def missing():
    """The programs that the gate needs and that aren't there, each with what to install."""
    return [f"gate: there is no {name}: install {what}" for name, what in NEEDED.items() if not shutil.which(name)]


def libraries():
    """Each crate's libraries in this repository, at any distance."""
    text = (TOP / "crates.txt").read_text(encoding="utf-8")
    lines = re.findall(r"(?m)^(\w+)\b[^:#\n]*:(.*)$", text)
    below = {crate: {it for it in names.split() if re.search(rf"(?m)^{it}\b", text)} for crate, names in lines}
    for _ in lines:
        below = {crate: libs.union(*map(below.get, libs)) for crate, libs in below.items()}
    return below


def most_at_once(peaks, below, count):
    """The most memory that so many checks can take at once: none of them is of a library of another."""
    together = itertools.combinations(sorted(peaks, key=peaks.get, reverse=True)[:16], count)
    apart = (crates for crates in together if not any(one in below[other] for one in crates for other in crates))
    return max((sum(map(peaks.get, crates)) for crates in apart), default=0)


def lanes(free):
    """How many checks may run side by side with so much memory: as many as there are processors, but no more than have
    room whichever crates meet."""
    if os.environ.get("RT_JOBS", "").isdigit():
        return int(os.environ["RT_JOBS"])
    below = libraries()
    peaks = {name: peak for name, peak in gate_times.peaks_in_docs(TOP).items() if name in below}
    counts = range(2, len(os.sched_getaffinity(0)) + 1)
    return max((it for it in counts if most_at_once(peaks, below, it) <= SHARE * free), default=1)


def prove(words, usage, ended):
    """Runs `rt ci` and prints what it says, with the time before its own lines: how many passed and failed."""
    begun, last = time.time(), ""
    env = {**os.environ, "RT_JOBS": str(lanes(gate_times.available_mb()))}
    print(f"gate: {env['RT_JOBS']} checks side by side", flush=True)
    with subprocess.Popen(["rt", "ci", *words], cwd=TOP, env=env, stdin=subprocess.DEVNULL, stdout=subprocess.PIPE,
                          stderr=subprocess.STDOUT, text=True, errors="replace") as running:
        usage.watch(running.pid)
        for line in running.stdout:
            last = line.strip() or last
            minutes, seconds = divmod(int(time.time() - begun), 60)
            print(f"[{minutes:02}:{seconds:02}] {line}" if line.startswith("rt: ") else line, end="", flush=True)
            if at := ENDED.match(line):
                ended.add(at[1])
        status = usage.end("rt ci", running, begun)
    ended.add("all")
    passed, failed = map(int, (LAST.fullmatch(last) or LAST.fullmatch("0 passed, 1 failed")).groups())
    return passed, failed or int(status != 0)


def run_tool(tool, usage, ended):
    """Runs a tool once what it waits for has ended: whether it passed, and what it said."""
    name, words, waits = tool
    if waits:
        ended.wait_for(waits)
    needs = gate_times.peaks_in_docs(TOP).get(name, 0) + SPARE
    while gate_times.available_mb() < needs and not ended.wait_for("all", 5):
        pass
    begun = time.time()
    with tempfile.TemporaryFile("w+", errors="replace") as said:
        streams = {"stdin": subprocess.DEVNULL, "stdout": said, "stderr": subprocess.STDOUT}
        with subprocess.Popen(["nice", *words], cwd=TOP, **streams) as running:
            status = usage.end(name, running, begun)
        said.seek(0)
        verdict = "passed" if status == 0 else f"FAILED with status {status}"
        return status == 0, f"== {name}\n{said.read()}gate: {name} {verdict}"


def main():
    lacking = missing()
    if lacking:
        print("\n".join([*lacking, f"0 passed, {len(lacking)} failed"]))
        sys.exit(1)
    usage, ended = gate_times.Usage(), Ended()
    with ThreadPoolExecutor(1) as beside, ThreadPoolExecutor(2) as behind:
        told = [(behind if tool[2] else beside).submit(run_tool, tool, usage, ended) for tool in TOOLS]
        passed, failed = prove(sys.argv[1:], usage, ended)
        results = [it.result() for it in told]
    for holds, said in results:
        print(said)
        passed, failed = passed + holds, failed + (not holds)
    print(usage.table())
    print(f"{passed} passed, {failed} failed")
    sys.exit(1 if failed else 0)


if __name__ == "__main__":
    main()
