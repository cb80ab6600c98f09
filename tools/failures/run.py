#!/usr/bin/env python3
"""Refuses each request for memory, fails each call of the storage, and reads hostile input; counts how often each error
came.

    tools/failures/run.py [WORK]

Its program is built unproved, as tools/speed/build.py builds one, in a copy of the crates in which the pager's counters
can be set. What refuses is a library before the C library's own allocator (refuse.c).
"""
import pathlib
import re
import shutil
import subprocess
import sys
import tempfile

HERE = pathlib.Path(__file__).resolve().parent
TOP = HERE.parent.parent
sys.dont_write_bytecode = True
sys.path[:0] = [str(HERE.parent / "speed"), str(HERE)]
import build  # noqa: E402
import hostile  # noqa: E402
import middle  # noqa: E402
import pagectl  # noqa: E402
import rows  # noqa: E402
import shared  # noqa: E402
import sweeps  # noqa: E402
import table  # noqa: E402
import typed  # noqa: E402
from driver import Server  # noqa: E402
from naming import Unlike  # noqa: E402

USES = (
    "pagable named_texts pagable_testkit pagable_examples pagable_value_rows pagable_locked_examples pagable_locked"
    " pagable_load pagable_value_spec pagable_traits pagable_codec pagable_core anyhow either futures hex indexmap"
    " serde_json"
)
# (a test's own calls, in the copy alone)
COUNTERS = {
    "pagable_pager/src/pager.rt": "Pager",
    "pagable_calls/src/machine.rt": "Machine",
    "pagable_locked/src/storage_handle.rt": "PagableStorageHandle",
}


def add_counters(crates):
    """Lets the numbers that were given last be seen and set, in a copy of the crates."""
    for file, name in COUNTERS.items():
        body = (HERE / f"counters_of_{name.lower()}.txt").read_text(encoding="utf-8")
        with open(crates / file, "a", encoding="utf-8") as module:
            module.write(f"\nimpl<E: Env<Node: NodeSet<E>>, S: PagableStorage<E>> {name}<E, S> {{\n{body}}}\n")


def add_pagectl(crates, source):
    """Puts the program `pagectl` beside, as a module, but for its `main`."""
    text = (crates / "pagectl" / "src" / "main.rt").read_text(encoding="utf-8")
    text = re.sub(r"^#!\[.*\n", "", text, flags=re.MULTILINE).replace("\nfn run<", "\npub fn run<")
    (source / "pagectl.rt").write_text(text[: text.index("fn main(")], encoding="utf-8")


def built(work):
    """Builds the program and the library: their paths."""
    build.need("cc")
    source = build.source_in(work, TOP, HERE, USES)
    crates = source.parent.parent
    add_counters(crates)
    add_pagectl(crates, source)
    # (the machines of `rows`, and how it looks at them)
    shutil.copy(crates / "rows/src/calls.rt", source)
    library = work / "refuse.so"
    subprocess.run(["cc", "-O2", "-Wall", "-Werror", "-shared", "-fPIC", HERE / "refuse.c", "-o", library], check=True)
    return build.compiled_in(work, source, "-O1"), library


def rows_of_events(server, tally):
    """The rows of events, each undisturbed first."""
    values, worked_rows = rows.worked()
    every = worked_rows + rows.rows_in(HERE / "rows.txt")
    for row in every:
        try:
            sweeps.singly(server, row, tally)
        except Unlike as why:
            tally.fault(f"{row.name}, undisturbed", why)
            continue
        for each in (sweeps.each_request, sweeps.each_call, sweeps.each_number):
            each(server, row, tally)
    hostile.each_request(server, tally, values)
    hostile.table(server, tally)
    hostile.cuts(server, tally)
    hostile.cut_blobs(server, tally, every)


def rows_of_threads(server, tally):
    """The rows of calls on a storage that threads share: of handles, and of typed references."""
    for file, run_of in (("shared.txt", shared.SharedRun), ("typed.txt", typed.TypedRun)):
        for row in shared.rows_in(HERE / file):
            try:
                after = shared.whole(server, tally, row, run_of)
            except Unlike as why:
                tally.fault(f"{run_of.SORT}, {row[0]}, undisturbed", why)
                continue
            for each in (shared.each_request, shared.each_call, shared.each_number):
                each(server, tally, row, after, run_of)


def calls_that_refuse(server, tally):
    """The lists of calls that stand in `rows`, and those of this folder, of whose refusals alone something is
    wanted."""
    for file in (rows.DATA / "calls.txt", rows.DATA / "loads.txt", rows.DATA / "workers.txt", HERE / "refusals.txt"):
        for row in rows.rows_in(file):
            try:
                sweeps.singly(server, row, tally)
            except Unlike as why:
                tally.fault(f"{file.name}, {row.name}", why)


def rows_of_their_own(server, tally):
    """Rows that stand in the code, and those of room."""
    middle.rows(server, tally)
    answer = server.ask("room")
    if answer != "count 11 true true; pending 1 false":
        tally.fault("rows of room", f"`{answer}`")


SECTIONS = (rows_of_events, calls_that_refuse, rows_of_threads, rows_of_their_own)


def tried(program, library):
    """Tries all: what came of it."""
    tally = sweeps.Tally()
    with Server([program], library) as server:
        for section in SECTIONS:
            section(server, tally)
    pagectl.each_request(program, library, tally)
    pagectl.each_reading_and_writing(program, library, tally)
    pagectl.hostile(program, library, tally)
    pagectl.wrong_words(program, tally)
    return tally


def told(tally):
    """Prints how many places were tried, what was refused, and what went wrong; whether nothing did."""
    for name in sorted({name for name, _ in tally.places}, key=str):
        print(f"{name}: " + ", ".join(f"{count} {sort}" for (of, sort), count in tally.places.items() if of == name))
    print(f"begun anew: {tally.anew} loads and workers; refused without being told: {dict(tally.untold)}")
    missing = table.printed(tally.refusals)
    for fault in tally.faults + missing:
        print(f"failures: {fault}", file=sys.stderr)
    return not tally.faults and not missing


def main(words):
    with tempfile.TemporaryDirectory() as folder:
        tally = tried(*built(pathlib.Path(words[0] if words else folder).resolve()))
    if not told(tally):
        sys.exit("failures: not all came out as it has to")


if __name__ == "__main__":
    main(sys.argv[1:])
