#!/usr/bin/env python3
"""Builds the rows of tools/speed and the same rows on the original crate, times them in turn, and writes the table of
docs/SPEED.md and its pictures.

    tools/compare_speed.py ORIGINAL WORK [--rounds N] [--instructions] [--rows ROW,..] [--print]
    tools/compare_speed.py --draw       # draws the pictures from the table that stands there

ORIGINAL is the original crate (tools/original_crate.py says in which form). It is copied into the folder WORK, with
tools/original_speed.rs as one of its examples, and built by cargo, with LTO, one codegen unit and the processor level
of the programs here (x86-64-v2): with SHA-256 in software (`sha2`'s feature `force-soft`), and a second time by the
processor's SHA instructions, if it has them. tools/speed/build.py builds the rows here, unproved.

The values of the first five rows come from tools/speed_sums.py; both sides fail if they write another form than they
read. There are 9 rounds, or as many as `--rounds` says: each runs every row once by every program, row by row and the
programs in turn, each time in a process of its own. A time is the least of all rounds. The peak of memory is that of
such a process, by GNU time. Sums of keys and claims have to be the same on both sides.

`--instructions` also counts the instructions of each part by callgrind, of rows by one thread and, where a row is long,
at a smaller count; the original then has SHA-256 in software. `--rows` runs these rows alone and prints their tables;
`--rows shared` stands for the rows of a storage that threads share. `--print` prints the tables of all rows instead of
writing them.
"""
import argparse
import datetime
import os
import pathlib
import re
import subprocess
import sys
import tempfile
import textwrap

sys.dont_write_bytecode = True
TOP = pathlib.Path(__file__).resolve().parent.parent
sys.path[:0] = [str(TOP / "tools"), str(TOP / "tools" / "speed")]
import original_crate  # noqa: E402
import pictures  # noqa: E402
import speed_table  # noqa: E402
from build import built as built_here, need  # noqa: E402
from speed_table import OURS, ROWS, VALUES  # noqa: E402

USAGE = "compare_speed.py ORIGINAL WORK [--rounds N] [--instructions] [--rows ROW,..] [--print], or --draw"
CPU = pathlib.Path("/proc/cpuinfo")
TUNED = {
    "CARGO_PROFILE_RELEASE_LTO": "fat",
    "CARGO_PROFILE_RELEASE_CODEGEN_UNITS": "1",
    "RUSTFLAGS": "-C target-cpu=x86-64-v2 --cap-lints allow",
}
# The counts at which rows are long enough to count their instructions.
FEWER = {
    "items": 2_000, "trees": 3, "cell_trees": 3, "tree": 10, "chain": 1_000, "wide_shared": 2_000, "wide_loose": 2_000,
    "wide_item": 2_000, "loads": 1_600, "fronts": 10_000, "backwards": 2_000, "locked_calls/1": 10_000,
    "locked_cells/1": 1_000, "worker_items/1": 2_000, "worker_trees/1": 3, "worker_texts/1": 10_000,
}


def ran(*words):
    return subprocess.run(words, check=True, text=True, capture_output=True)


def built_original(original, work, is_soft):
    """The example in a copy of the original, by cargo."""
    copy = work / ("soft" if is_soft else "hard")
    manifest = original_crate.copied(original, copy / "source")
    if is_soft:
        soft = '[dependencies]\nsha2 = { version = "0.10", features = ["force-soft"] }\n'
        manifest.write_text(manifest.read_text().replace("[dependencies]\n", soft, 1))
    return original_crate.built(manifest, "speed", copy / "target", TUNED)


def has_sha(cpu):
    """Whether the processor of which this text tells has SHA instructions."""
    return bool(re.search(r"(?m)^flags\b.*\bsha_ni\b", cpu))


def parts_of(row, told):
    """What a program tells of each part of a row, and the sum of its keys and claims where it tells one."""
    parts = dict(zip((part.replace("_", " ") for part in told[::2]), told[1::2]))
    total = parts.pop("sum", None)
    if tuple(parts) != row.parts:
        sys.exit(f"{row.name}: a program tells the parts {', '.join(parts)}")
    return parts, total


def once(row, call):
    """The seconds of each part of one run, its peak in KiB, and the sum of its keys and claims; None where it fails, as
    where the stack isn't deep enough. GNU time stands between, since a child's peak counts the memory of whoever forked
    it."""
    run = subprocess.run(["env", "time", "-f", "%M", *map(str, call)], text=True, capture_output=True)
    if run.returncode:
        return None
    parts, total = parts_of(row, run.stdout.split()[2:])
    return {part: float(seconds) for part, seconds in parts.items()}, int(run.stderr.split()[-1]), total


def calls_of(row, programs, forms):
    """The words that run a row once by each program that has it."""
    sides = [side for side in programs if side == "here" or row.name not in OURS]
    form = {side: [forms / row.name] if row.name in VALUES and side != "here" else [] for side in sides}
    return {side: [programs[side], row.name, row.count, 1, *form[side]] for side in sides}


def in_rounds(rows, programs, forms, rounds):
    """The runs of each row by each program. A program that fails at a row isn't asked again."""
    runs = {row: {side: [] for side in calls_of(row, programs, forms)} for row in rows}
    for _ in range(rounds):
        for row in rows:
            for side, call in calls_of(row, programs, forms).items():
                if None not in runs[row][side]:
                    runs[row][side].append(once(row, call))
    return runs


def least(runs):
    """The least seconds of each part and the least peak of some runs of a row, or None where one failed."""
    if None in runs:
        return None
    return {part: min(one[0][part] for one in runs) for part in runs[0][0]}, min(one[1] for one in runs)


def best_of(runs, sides):
    """The least times and peaks of each row by each side, where all came to the same."""
    for row, by in runs.items():
        if len({one[2] for its_runs in by.values() for one in its_runs if one}) > 1:
            sys.exit(f"{row.name}: the programs make different keys or claims")
        if None in by["here"]:
            sys.exit(f"{row.name}: the program of this repository fails")
    return {row: {side: least(by[side]) if side in by else None for side in sides} for row, by in runs.items()}


def counted(row, call):
    """The instructions of each part of one run, by callgrind, and the sum of its keys and claims; None where it fails.
    What was counted is written at each look at the clock: the second of these counts is the first part's, the fourth
    the second's, and so on. (The original's own threads look at it again when they end.)"""
    with tempfile.TemporaryDirectory() as folder:
        out = pathlib.Path(folder) / "out"
        words = ["--tool=callgrind", "--dump-before=clock_gettime*", f"--callgrind-out-file={out}"]
        run = subprocess.run(["valgrind", *words, *map(str, call)], text=True, capture_output=True)
        if run.returncode:
            return None
        parts, total = parts_of(row, run.stdout.split()[2:])
        counts = [out.with_suffix(f".{2 * place}") for place in range(1, len(parts) + 1)]
        if not counts[-1].exists():
            sys.exit(f"{row.name}: by callgrind a program doesn't look at the clock before and after each part")
        numbers = [int(re.search(r"(?m)^summary: (\d+)$", count.read_text())[1]) for count in counts]
    return dict(zip(parts, numbers)), total


def instructions_of(rows, programs, forms):
    """The instructions of each part of these rows, here and by the original with SHA-256 in software: those of one
    thread, once by each name, where a row is long with less to do."""
    short = {}
    for row in rows:
        if row.name.partition("/")[2] in ("", "1"):
            short.setdefault(row.name, row._replace(count=FEWER.get(row.name, row.count)))
    sides = {side: programs[side] for side in ("here", "soft")}
    found = {}
    for row in short.values():
        by = {side: counted(row, call) for side, call in calls_of(row, sides, forms).items()}
        if None in by.values() or len({total for _, total in by.values()}) > 1:
            sys.exit(f"{row.name}: a program fails by callgrind, or the programs make different keys or claims")
        found[row] = {side: instructions for side, (instructions, _) in by.items()}
    return found


def machine(sides):
    """The machine and what was built by what, as it stands above the table of these sides."""
    model = re.search(r"(?m)^model name\s*: (.*)$", CPU.read_text())[1]
    toolchain, compiler = ran("rt", "version").stdout.strip(), ran("rustc", "--version").stdout.strip()
    text = f"{datetime.date.today()}, {model}, {os.cpu_count()} processors; `{toolchain}`, {compiler}."
    if "hard" not in sides:
        text += " The processor has no SHA instructions, so nothing stands here of the original with them."
    return textwrap.fill(text, 120, break_on_hyphens=False)


def chosen(words):
    """The rows of these names, or all."""
    names = words.split(",") if words else [row.name for row in ROWS]
    if "shared" in names:
        names.remove("shared")
        names += [row.name for row in ROWS if "/" in row.name]
    for name in names:
        if name not in {row.name for row in ROWS}:
            sys.exit(f"no row is called {name}")
    return [row for row in ROWS if row.name in names]


def asked():
    parser = argparse.ArgumentParser(usage=USAGE)
    parser.add_argument("original", nargs="?")
    parser.add_argument("work", nargs="?")
    parser.add_argument("--rounds", type=int, default=9)
    parser.add_argument("--rows")
    for word in ("--instructions", "--print", "--draw"):
        parser.add_argument(word, action="store_true")
    words = parser.parse_args()
    if not words.work and not words.draw:
        parser.error("ORIGINAL and WORK are wanted, or --draw")
    return words


def built(original, work):
    """The program of each side, and the folder of the values that the original reads."""
    forms = work / "forms"
    forms.mkdir(parents=True, exist_ok=True)
    ran(sys.executable, TOP / "tools" / "speed_sums.py", forms)
    programs = {"here": built_here(work / "here")}
    for side in ("hard", "soft") if has_sha(CPU.read_text()) else ("soft",):
        programs[side] = built_original(original, work, side == "soft")
    return programs, forms


def main():
    words = asked()
    if words.draw:
        pictures.draw()
        return
    rows = chosen(words.rows)
    for tool in ("time", "cargo", *(["valgrind"] if words.instructions else [])):
        need(tool)
    programs, forms = built(pathlib.Path(words.original).resolve(), pathlib.Path(words.work).resolve())
    best = best_of(in_rounds(rows, programs, forms, words.rounds), programs)
    tables = {speed_table.TIMES: f"{machine(programs)}\n\n{speed_table.times_table(best, list(programs))}"}
    if words.instructions:
        counts = instructions_of(rows, programs, forms)
        tables[speed_table.INSTRUCTIONS] = speed_table.instructions_table(counts)
    if words.print or words.rows:
        print("\n\n".join(tables.values()))
        return
    speed_table.write(tables)
    pictures.draw()


if __name__ == "__main__":
    main()
