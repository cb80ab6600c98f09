#!/usr/bin/env python3
"""Times a file of blobs, libsqlite3 and a log in C in turn: the least of some rounds.

    tools/file_blobs/times.py WORK [ROUNDS]        # builds the programs in the folder WORK; 3 rounds

main.rattle and times.c store and fetch the same blobs, with a flush after each 1,000. With `hash` both compute and test
the SHA-256 of each, in software; with `plain` neither does, and the first is the file below `FileBlobs`. Then they fill
a file of a million blobs, open it, and store two more. The first is built unproved, as tools/speed is. Where it may,
each process runs before all others (chrt). A table in Markdown is printed: milliseconds, but where it says otherwise.
"""
import pathlib
import re
import shutil
import subprocess
import sys
import tempfile

HERE = pathlib.Path(__file__).resolve().parent
sys.dont_write_bytecode = True
sys.path.insert(0, str(HERE.parent / "speed"))
from build import TOP, compiled_in, source_in  # noqa: E402

USES = "pagable_value_spec pagable_flavors pagable_codec pagable_core pagable_file blob_file blob_host anyhow"
TIME = re.compile(r"(stored|fetched|opened|saved) in (\d+) us")
COUNT, MILLION = 100_000, 1_000_000
# Each kind of file, by the words of each program.
KINDS = ["file of blobs, hash", "sqlite, hash", "log in C, hash", "file of blobs", "sqlite", "log in C"]
# What is stored: how many blobs, of how many bytes, and after how many of them comes a flush.
PLANS = {
    "100 B to 1 kB": (COUNT, 92, 992, 1_000),
    "100 B to 10 kB": (COUNT, 92, 9_992, 1_000),
    "2,000 flushes": (2_000, 92, 992, 1),
}


def built(work):
    """Builds both programs: how each kind of file is called."""
    program, other = compiled_in(work, source_in(work, TOP, HERE, USES)), work / "times_c"
    subprocess.run(["gcc", "-O2", HERE / "times.c", "-lsqlite3", "-o", other], check=True)
    words = {"file of blobs, hash": (program, "hash"), "file of blobs": (program, "plain")}
    for kind, word in (("sqlite", "sqlite"), ("log in C", "log")):
        words |= {f"{kind}, hash": (other, f"{word},hash"), kind: (other, word)}
    return words


def before_all():
    """The words that let a process run before all others, if this process may set that."""
    words = ["chrt", "-f", "50"]
    return words if subprocess.run([*words, "true"], capture_output=True, check=False).returncode == 0 else []


def run(program, word, file, *more):
    """Runs a program once: its times in microseconds, its peak of memory and how much it has written, in bytes."""
    words = [*before_all(), program, word, file, *more]
    timed = ["/usr/bin/time", "-f", "%M kB, %O blocks", *map(str, words)]
    done = subprocess.run(timed, capture_output=True, text=True, check=True)
    memory, blocks = map(int, re.search(r"(\d+) kB, (\d+) blocks", done.stderr).groups())
    return {part: int(time) for part, time in TIME.findall(done.stdout)}, 1024 * memory, 512 * blocks


def filled(program, kind, plan):
    """Fills a new file: its times, how much was written, and how large it is."""
    with tempfile.TemporaryDirectory(dir=WORK) as folder:
        file = pathlib.Path(folder) / "blobs"
        times, _, wrote = run(program, "fill", file, kind, *plan)
        size = sum(it.stat().st_size for it in file.parent.iterdir())
        return {**times, "bytes written": wrote, "bytes of file": size}


def large(program, kind):
    """Fills a file of a million blobs, and opens copies of it and an empty one: times, and bytes of memory a blob."""
    with tempfile.TemporaryDirectory(dir=WORK) as folder:
        file, empty = pathlib.Path(folder) / "blobs", pathlib.Path(folder) / "empty"
        run(program, "fill", file, kind, MILLION, 20, 20, 10_000)
        _, least, _ = run(program, "open", empty, kind)
        runs = [run(program, "open", shutil.copy(file, file.with_name(f"copy {number}")), kind) for number in range(3)]
        times = {part: min(it[0][part] for it in runs) for part in ("opened", "saved")}
        return {**times, "bytes of memory a blob": (min(it[1] for it in runs) - least) / MILLION}


def least_of(runs):
    """The least of each number."""
    return {part: min(it[part] for it in runs) for part in runs[0]}


def shown(part, value):
    """A number of the table."""
    return f"{value / 1000:,.1f}" if part in ("stored", "fetched", "opened", "saved") else f"{value:,.0f}"


def main():
    rounds = int(sys.argv[2]) if len(sys.argv) > 2 else 3
    words, rows = built(WORK), {}
    for name, plan in PLANS.items():
        runs = [{kind: filled(*words[kind], plan) for kind in KINDS} for _ in range(rounds)]
        for part in runs[0][KINDS[0]]:
            rows[f"{name}: {part}"] = [shown(part, least_of([it[kind] for it in runs])[part]) for kind in KINDS]
    runs = [{kind: large(*words[kind]) for kind in KINDS} for _ in range(rounds)]
    for part in runs[0][KINDS[0]]:
        rows[f"a million: {part}"] = [shown(part, least_of([it[kind] for it in runs])[part]) for kind in KINDS]
    print(f"| | {' | '.join(KINDS)} |\n|---|{'---|' * len(KINDS)}")
    for name, numbers in rows.items():
        print(f"| {name} | {' | '.join(numbers)} |", flush=True)


if __name__ == "__main__":
    WORK = pathlib.Path(sys.argv[1]).resolve()
    main()
