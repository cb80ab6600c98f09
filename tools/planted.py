#!/usr/bin/env python3
"""Tries each tool on faults that it has to find, and on the same without them, which it has to pass. Prints a line for
each tool; the status is 1 if one isn't as it should be.

    tools/planted.py [TOOL..]       # with no word: all

A fault is an edit of a copied text, an answer that was changed, or a program that answers wrongly (tools/fakes.py).
Nothing is compiled.
"""
import collections
import contextlib
import importlib
import io
import json
import pathlib
import re
import shutil
import subprocess
import sys
import tempfile
import types
from unittest import mock
from xml.etree import ElementTree

HERE = pathlib.Path(__file__).resolve().parent
TOP = HERE.parent
DATA = TOP / "tools" / "crates" / "rows" / "data"
sys.dont_write_bytecode = True
FOLDERS = ("hostile", "file_blobs", "threads", "programs", "failures", "speed", ".")
sys.path[:0] = [str(HERE / folder) for folder in FOLDERS]
import as_proved  # noqa: E402
import asking  # noqa: E402
import comparing  # noqa: E402
import edits  # noqa: E402
import fakes  # noqa: E402
import fuzz  # noqa: E402
import gate  # noqa: E402
import gate_times  # noqa: E402
import holding  # noqa: E402
import hostile  # noqa: E402
import middle  # noqa: E402
import naming  # noqa: E402
import nightly  # noqa: E402
import original_rows  # noqa: E402
import pagectl  # noqa: E402
import pictures  # noqa: E402
import plain_file  # noqa: E402
import plain_pager  # noqa: E402
import plain_rows  # noqa: E402
import plain_script  # noqa: E402
import plain_tool  # noqa: E402
import plain_values  # noqa: E402
import plainly  # noqa: E402
import power  # noqa: E402
import refusing  # noqa: E402
import rows  # noqa: E402
import shared  # noqa: E402
import speed_sums  # noqa: E402
import speed_table  # noqa: E402
import sweeps  # noqa: E402
import table  # noqa: E402
import tests  # noqa: E402
import typed  # noqa: E402
import wrong_bodies  # noqa: E402
from driver import Server  # noqa: E402


def module_at(name, path):
    """A tool that has another one's name."""
    spec = importlib.util.spec_from_file_location(name, path)
    module = importlib.util.module_from_spec(spec)
    spec.loader.exec_module(module)
    return module


def told(call, *words):
    """What a call prints, and by what it ends, if not at its end."""
    said = io.StringIO()
    with contextlib.redirect_stdout(said), contextlib.redirect_stderr(said):
        try:
            call(*words)
        except (SystemExit, naming.Unlike) as end:
            print(end)
    return said.getvalue()


def ran(*words):
    """What a tool prints, and its status where that isn't 0."""
    how = {"stdout": subprocess.PIPE, "stderr": subprocess.STDOUT, "text": True}
    done = subprocess.run([sys.executable, *map(str, words)], **how)
    return done.stdout + (f"status {done.returncode}\n" if done.returncode else "")


def program(work, sort, fault=""):
    """A program of tools/fakes.py, as a file."""
    file = work / f"{sort} {fault}"
    file.write_text(f"#!/bin/sh\nexec '{sys.executable}' '{HERE / 'fakes.py'}' {sort} '{fault}' \"$@\"\n")
    file.chmod(0o755)
    return file


# ---- texts, and wrong bodies

TWICE = """
pub fn ask_twice<R: Wait>(pager: &Mutex<Pager>, rt: &R) {
    let mut pager = pager.lock(rt);
    pager.flush();
    pager.pending();
}
"""
REFUSES = "\npub fn refuse() -> Result<(), Error> {{\n    Err({})\n}}\n"
# A want of memory that is invented, in the ways to write one.
MEMORY = [
    REFUSES.format("Error::OutOfMemory"),
    "\nfn refuse() -> Result<(), Error> {\n    Err(Error::\n        OutOfMemory)\n}\n",
    "\ntype Refusal = pagable_value_spec::Error;\n",
    "\nuse pagable_value_spec::{DataKey, Error as Refusal};\n",
    "\nuse pagable_value_spec::Error::*;\n",
    "\nuse pagable_value_spec::{DataKey, Error::{self, *}};\n",
    "\nuse pagable_value_spec::Error::OutOfMemory;\n",
    REFUSES.format("OutOfMemory"),
    REFUSES.format("<Error>::OutOfMemory"),
    REFUSES.format("Error::of_library(true, Error::Closed)"),
    "\nfn ask(cause: bool) -> bool {\n    matches!(refuse(Error::OutOfMemory), Err(_))\n}\n",
]
# A lock that is taken by another name than that of its field, and a call that is another one.
TAKEN = "\npub fn flush<R: Wait>(inner: &Inner, rt: &R) {{\n    {}\n}}\n"
LOCKS = [
    TAKEN.format("let state = &inner.pager; state.lock(rt).flush(); state.lock(rt).close()"),
    TAKEN.format("let pager = &inner.pager; lock_briefly(pager, rt).flush()"),
    TAKEN.format("Mutex::lock(&inner.pager, rt).flush()"),
    TAKEN.format("if let Some(pager) = inner.pager.try_lock() { pager.flush() }"),
    TAKEN.format("inner.pager.lock(rt).pending()"),
    "\nuse crate::lock::lock_briefly as take;\n",
    "\ntype Guarded<T> = Mutex<T>;\n",
    "\nstruct Kept<E, S> {\n    state: Mutex<Pager<E, S>>,\n}\n",
]


def check_text(work):
    """A want of memory that is invented, two calls under the lock, a lock by another name, pages with other code than
    the file's, and an item that the index lacks."""
    leave = shutil.ignore_patterns("out", "proofs", "specs", "must-fail")
    for folder in ("crates", "tools/crates", "tools/crate_tests"):
        shutil.copytree(TOP / folder, work / folder, ignore=leave)
    (work / "docs").mkdir()
    pages = [TOP / "README.md", TOP / "crates.txt", *(TOP / "docs").glob("*.md")]
    for file in (HERE / "check_text.py", HERE / "api_index.py", *pages):
        shutil.copy(file, work / file.relative_to(TOP))
    yield "", ran(work / "tools" / "check_text.py")
    faults = [("crates/pagable_core/src/lib.rt", added) for added in MEMORY]
    faults += [("crates/pagable_locked/src/slot.rt", added) for added in [TWICE, *LOCKS]]
    faults = [(file, added, f"{file}:") for file, added in faults]
    shown = ("quick/src/main", "four_threads/src/main", "remote/src/folder_blobs")
    faults += [(f"crates/{file}.rt", "\n// Another line.\n", "docs/GUIDE.md:") for file in shown]
    faults.append(("crates/pagable_core/src/lib.rt", "\n/// Does nothing.\npub fn nothing() {}\n", "docs/INDEX.md:"))
    for file, added, said in faults:
        text = (work / file).read_text(encoding="utf-8")
        (work / file).write_text(text + added, encoding="utf-8")
        yield said, ran(work / "tools" / "check_text.py")
        (work / file).write_text(text, encoding="utf-8")
    text = (work / "docs" / "MIGRATION.md").read_text(encoding="utf-8")
    (work / "docs" / "MIGRATION.md").write_text(text.replace("pin_sync(", "pinned("), encoding="utf-8")
    yield "docs/MIGRATION.md:", ran(work / "tools" / "check_text.py")


def copies(work):
    """Crates that are copied with what they stand on, once, and one that isn't there."""
    copy = lambda *names: ran(HERE / "copy_crates.py", work, *names)
    texts = lambda: (work / "crates.txt").read_text(encoding="utf-8").splitlines()
    yield "copied 2 of 2 crates: pagable_value_spec pagable_flavors", copy("pagable_flavors")
    yield "copied 1 of 3 crates: pagable_codec", copy("pagable_codec")
    yield "", "" if len(texts()) == 3 else f"{texts()}"
    yield "crates.txt has no crate sha2", copy("sha2")


def edit(work, text):
    """The edit of a file with this text, which stands in the folder."""
    (work / "one.edits").write_text(text, encoding="utf-8")
    (found,) = edits.edits_in(work / "one.edits")
    return found


def edits_of_bodies(work):
    """An edit whose old text stands never, or twice."""
    (work / "file.rt").write_text("let a = 1;\nlet b = 1;\n", encoding="utf-8")
    never, twice = ("let c = ⟦1 ⇒ 2⟧;", "stands 0 times"), ("= ⟦1 ⇒ 2⟧;", "stands 2 times")
    for old, why in [("let a = ⟦1 ⇒ 2⟧;", ""), never, twice]:
        texts = {}
        why_not = edit(work, f"file: file.rt\none: {old}\n").apply(texts, work)
        is_made = texts == {"file.rt": "let a = 2;\nlet b = 1;\n"}
        yield why, (why_not or "") + "another text was made" * (is_made == bool(why))


def tried_by(output, work):
    """What is told of the wrong bodies in a folder if the prover says this."""
    counts = []
    with (
        mock.patch.object(wrong_bodies, "EDITS", work),
        mock.patch.object(wrong_bodies, "copied", lambda room, crate: work),
        mock.patch.object(wrong_bodies, "ran", lambda folder, texts, only: output),
    ):
        said = told(lambda: counts.extend(wrong_bodies.try_crate("crate", False)))
    return f"{said}{counts[0]} passed, {counts[1]} failed"


def bodies(work):
    """What is told of the prover's outputs: a wrong body that is proved, that only breaks a caller, or that can't be
    read."""
    (work / "src").mkdir()
    (work / "src" / "lib.rt").write_text("pub fn one() -> u64 {\n    1\n}\n", encoding="utf-8")
    (work / "crate.edits").write_text("file: src/lib.rt\none: ⟦1 ⇒ 2⟧\n", encoding="utf-8")
    yield "1 passed, 0 failed", tried_by("fn crate::one: not proved (1 goal is open)\nlogic=refused\n", work)
    for output, why in [
        ("logic=proved\n", "proved"),
        ("fn crate::one: no proof: it calls crate::two, which has no proof\nlogic=refused\n", "unjudged"),
        ("src/lib.rt:2:5: error: two is not in scope\n", "the edited text can't be read"),
        ("Killed\n", "the check didn't come to the proofs"),
    ]:
        yield (f"crate/one: FAILED: {why}", "0 passed, 1 failed"), tried_by(output, work)


def threads(work):
    """A wrong body whose tests pass, tests that fail or didn't run, and a number that no test wants."""
    run = module_at("run_of_threads", HERE / "threads" / "run.py")
    wrong = edit(work, "file: a\none: b\ntest: calls::first\ntest: calls::second\n")
    said = "test calls::first ... FAILED\ntest calls::second ... {}\n"
    said += "test result: FAILED. {} passed; {} failed; 0 ignored"
    yield "found", run.told_by([wrong], said.format("FAILED", 0, 2))[0]
    yield "passed: calls::second", run.told_by([wrong], said.format("ok", 1, 1))[0]
    yield "no tests ran", run.told_by([wrong], "error: no crate")[0]
    printed, files = ran(HERE / "threads" / "sums.py"), tests.files_of("threads")
    yield "", told(tests.check_sums, printed, files)
    number = re.search(r"\d{20,}", printed)[0]
    yield "no test wants", told(tests.check_sums, printed.replace(number, number[::-1]), files)


def of_tests(_):
    """Tests that fail, or of which nothing is said."""
    for folder, name in tests.NAMES.items():
        texts = {file.stem: file.read_text(encoding="utf-8") for file in tests.files_of(folder)}
        found = [(module, test) for module, text in texts.items() for test in re.findall(r"#\[test\]\nfn (\w+)", text)]
        lines = [f"test {module}::{test} ... ok\n" for module, test in found]
        yield f"tests of {name}: {len(lines)} passed", tests.told(folder, "".join(lines))
        for last in ("", lines[-1].replace("ok", "FAILED")):
            yield f"{len(lines) - 1} of {len(lines)} passed", told(tests.told, folder, "".join([*lines[:-1], last]))


# ---- plain models

def changed(file, work, old, new):
    """A copy of a file of rows, with another answer where this one stood first."""
    text = file.read_text(encoding="utf-8")
    (work / file.name).write_text(text.replace(old, new, 1), encoding="utf-8")
    return work / file.name


def pager(_):
    """A plain pager that counts one pin too many, against the worked rows."""
    yield "", told(rows.worked)
    pins = plain_pager.Machine.pins
    with mock.patch.object(plain_pager.Machine, "pins", lambda self, cell: pins(self, cell) + 1):
        yield "the plain pager answers", told(rows.worked)


def pager_rows(work):
    """A row whose answer is changed."""
    calls = "new_loose 0 hello world; count 1; node_of 1 -> ok 1; ok 1; ok 1"
    for answers, wanted in [(calls, ""), (calls.replace("; ok 1;", "; ok 2;"), "the plain pager answers")]:
        (work / "rows.txt").write_text(f"machine\n{answers}\n", encoding="utf-8")
        yield wanted, told(rows.rows_in, work / "rows.txt")
        answered = ran(HERE / "plain_rows.py", "answers", work / "rows.txt")
        yield "", "" if (answered == (work / "rows.txt").read_text(encoding="utf-8")) == (not wanted) else answered


def unlike(file):
    """The rows of values in a file that the plain rules answer otherwise."""
    return "".join(line for line in file.read_text(encoding="utf-8").split("\n") if plain_values.answered(line) != line)


def values(work):
    """A row of the original's whose answer or value is changed, and rules of which one is changed."""
    original = DATA / "original.txt"
    yield "", unlike(original)
    for old, new in [("bool read 00 01 ", "bool read 00 02 "), ("= false; ok 1 = true", "= true; ok 1 = true")]:
        yield "bool read 0", unlike(changed(original, work, old, new))
    with mock.patch.dict(plain_values.SIMPLE, {"bool": lambda b: plain_values.number("u8")(b)}):
        yield "bool read 00", unlike(original)


def script(_):
    """A plain `pagectl` that counts one pin too many, against the script of tools/failures."""
    def unlike_script():
        plain = plain_script.Script()
        return "".join(f"{line}\n" for line, answer, _ in pagectl.SCRIPT if plain.answer(line.encode()) != answer)

    yield "", unlike_script()
    with mock.patch.object(plain_pager.Machine, "count", lambda self, handle: 7):
        yield "count a", unlike_script()


def original(work):
    """A row that the original answers otherwise, a file without rows, and an answer too many."""
    file, program = work / "original.txt", work / "answers"
    program.write_text("#!/bin/sh\ncat > /dev/null\necho 'ok 2 = 300'\necho 'refused 1'\n")
    program.chmod(0o755)
    for text, wanted in [
        ("# Rows.\nu16 read ac02 80 -> ok 2 = 300; refused 1\n", ("1 rows as the original answers, 0 otherwise",)),
        ("u16 read ac02 80 -> ok 2 = 301; refused 1\n", ("the original: ok 2 = 300; refused 1", "0 rows as")),
        ("u16 read ac02 -> ok 2 = 300\n", ("more answers than there are inputs",)),
    ]:
        file.write_text(text, encoding="utf-8")
        with (
            mock.patch.object(original_rows, "ROWS", file),
            mock.patch.object(original_rows.original_crate, "copied", lambda *_: work),
            mock.patch.object(original_rows.original_crate, "built", lambda *_: program),
        ):
            yield wanted, told(original_rows.main, [str(work), str(work)])


# Check sums of the bytes of a text by FNV-1a, and draws of splitmix64 from a seed, as its authors published them.
FNV = {"": 0xCBF29CE484222325, "a": 0xAF63DC4C8601EC8C, "foobar": 0x85944171F73967E8}
SPLITMIX = (1234567, [6457827717110365317, 3203168211198807973, 9817491932198370423, 4593380528125082431])


def speed(work):
    """A check sum, a draw or a form that is another one, and a number that no row of drawn.txt wants."""
    seed, wanted = SPLITMIX
    yield "", "".join(text for text, number in FNV.items() if speed_sums.sum_of(text.encode()) != number)
    yield "", "" if [draw for draw, _ in zip(speed_sums.draws_of(seed), wanted)] == wanted else "other draws"
    few = {"maps": speed_sums.DRAWN["maps"]}
    with mock.patch.object(speed_sums, "DRAWN", few):
        yield "", told(speed_sums.check, DATA / "drawn.txt")
        wrong = changed(DATA / "drawn.txt", work, "ca411d1d", "da411d1d")
        yield "no row wants: maps", told(speed_sums.check, wrong)


# Two sources with marks, and LLVM's code of what they have.
MARKED = """#[inline(always)]
pub fn spin_loop() {}

impl<T> Iterator for Items<T> {
    #[cold]
    #[inline(never)]
    fn next(&mut self) -> Option<T> {}
}

impl<T> Iterator for &Others<T> {
    fn next(&mut self) -> Option<T> {}
}
"""
CODE = """define internal void @"core::hint::spin_loop"() #0 {
start:
  ret void
}
define internal void @"core::hint::ItemsIterator::next::<i8,20'core::Byte{}>"(ptr noundef %a0) #0 {
define internal void @"core::hint::RefOthersIterator::next"(ptr noundef %a0) #0 {
"""


def marks(work):
    """Code whose functions or whose `spin_loop` have another form, so that no mark or no pause is put in."""
    file = work / "core" / "src" / "hint.rt"
    file.parent.mkdir(parents=True)
    file.write_text(MARKED, encoding="utf-8")
    lines = as_proved.as_proved(CODE, [work]).split("\n")
    wanted = ["() alwaysinline #0 {", "start:", f"  call void @{as_proved.PAUSE}()", "  ret void", "}"]
    wanted += ["(ptr noundef %a0) cold noinline #0 {", "(ptr noundef %a0) #0 {"]
    yield "", "".join(f"{line}\n" for line, end in zip(lines, wanted) if not line.endswith(end))
    for old, new, why in [(" #0 {", " #0 !dbg {", "no function of this code has"), ("start:", "", "no pause was put")]:
        yield why, told(as_proved.as_proved, CODE.replace(old, new), [work])


def in_two_rounds(compare_speed, runs):
    """The best times of two rows where the programs answer so, and in which order they were asked."""
    asked = []

    def once(row, call):
        asked.append(f"{row.name} {call[0]}")
        return runs[call[0]]

    with mock.patch.object(compare_speed, "once", once):
        rows = compare_speed.chosen("items,loads")
        ended = compare_speed.in_rounds(rows, {side: side for side in runs}, None, 2)
    return compare_speed.best_of(ended, runs), "; ".join(asked)


def by_callgrind(compare_speed, counts):
    """The instructions of the parts of a row where callgrind writes these counts."""
    def run(words, **_):
        for place, count in enumerate(counts, 1):
            pathlib.Path(f"{words[3].partition('=')[2]}.{place}").write_text(f"events: Ir\nsummary: {count}\n")
        return types.SimpleNamespace(stdout="items 2000 out 1.0 in 1.0", returncode=0)

    with mock.patch.object(compare_speed.subprocess, "run", run):
        return compare_speed.counted(compare_speed.chosen("items")[0], ["here"])


def compare(_):
    """A row that isn't there, other parts, programs that come to other sums, one that fails, and counts that lack."""
    compare_speed = module_at("compare_speed", HERE / "compare_speed.py")
    yield "no row is called celsl", told(compare_speed.chosen, "cells,celsl")
    yield "", told(compare_speed.chosen, "cells,shared")
    (items,) = compare_speed.chosen("items")
    for parts, why in [("out 1 in 1 sum 7", ""), ("in 1 out 1", "tells the parts in, out")]:
        yield why, told(compare_speed.parts_of, items, parts.split())
    others = [("7", "8", "different keys"), ("7", None, "different keys"), (None, "8", "fails")]
    for ours, theirs, why in [("7", "7", ""), *others]:
        runs = {"here": ours and ({"out": 1.0}, 9, ours), "soft": ({"out": 2.0}, 9, theirs)}
        yield why, told(in_two_rounds, compare_speed, runs)
    a_run, first = ({"out": 1.0}, 9, "7"), "items here; items soft; loads here; "
    for soft, second in [(a_run, "items here; items soft; loads here"), (None, "items here; loads here")]:
        _, asked = in_two_rounds(compare_speed, {"here": a_run, "soft": soft})
        yield "", "" if asked == first + second else asked
    yield "", "" if by_callgrind(compare_speed, [5, 10, 6, 20, 7]) == ({"out": 10, "in": 20}, None) else "other counts"
    yield "doesn't look at the clock", told(by_callgrind, compare_speed, [5, 10, 6])
    are_told = [compare_speed.has_sha(f"flags\t: fpu {flag}\n") for flag in ("sha_ni", "ssse3")]
    yield "", "" if are_told == [True, False] else "SHA instructions"


def page_of(sides):
    """A page with a table of these sides, and its times."""
    times = lambda row: ({part: row.count * 7e-5 for part in row.parts}, 1024)
    has = lambda row, side: side == "here" or row.name not in speed_table.OURS
    best = {row: {side: times(row) if has(row, side) else None for side in sides} for row in speed_table.ROWS}
    begin, end = speed_table.TIMES
    return f"{begin}\n2026-11-30, a machine; built.\n\n{speed_table.times_table(best, sides)}\n{end}\n", best


def table_of_speed(_):
    """A written table that is read otherwise, and one that lacks a row, a column or its end or has another row."""
    for sides in (["here", "soft"], list(speed_table.SIDES)):
        page, best = page_of(sides)
        read = speed_table.table_in(page)
        yield "", "" if (read.sides, read.above) == (sides, "2026-11-30, a machine; built.") else f"{read[:2]}"
        for (name, count, part), its in read.times.items():
            by = best[speed_table.Row(name, count, next(row.parts for row in best if row.name == name))]
            is_alike = all(abs((its[side] or 0) - (by[side][0][part] if by[side] else 0)) < 1e-9 for side in sides)
            yield "", "" if is_alike else f"{name} at {count}, {part}: {its}"
    line = re.search(r"(?m)^\| `tree` \| 19 \| in \|.*\n", page)[0]
    higher = line + line.replace("19", "20")
    for old, new, why in [
        (line, "", "no row: `tree` at 19, in"), (line, higher, "another row: `tree` at 20, in"),
        ("| Here |", "| There |", "no column `Here`"), (speed_table.TIMES[1], "", "0 times"),
    ]:
        yield why, told(speed_table.table_in, page.replace(old, new))


def drawing(_):
    """Pictures beside a table that has another time, and a table that lacks a row."""
    page = speed_table.PAGE.read_text(encoding="utf-8")
    yield "", "".join(pictures.stale(page, pictures.FOLDER))
    for row, others in [
        ("`maps` | 400 | read", []), ("`cells` | 1,000 | out", ["speed_by_size.svg"]),
        ("`locked_calls/4` | 100,000 | pin", ["speed_by_threads.svg"]),
    ]:
        slower = page.replace(f"| {row} | ", f"| {row} | 9")
        found = list(pictures.stale(slower, pictures.FOLDER))
        yield "speed_by_row.svg", found[0] if found == ["speed_by_row.svg", *others] else f"{found}"
        name, count, part = row.split(" | ")
        lacking = re.sub(rf"(?m)^\| {re.escape(row)} \|.*\n", "", page)
        yield f"no row: {name} at {count}, {part}", told(pictures.drawn, lacking)
    for text in pictures.drawn(page_of(["here", "soft"])[0]).values():
        names = [part.tag.rpartition("}")[2] for part in ElementTree.fromstring(text)]
        yield "", "" if names[:3] == ["title", "desc", "rect"] else f"{names[:3]}"
        yield "Both sides have SHA-256 in software", text


# ---- failures

CALLS = "new_loose 0 x; clone 1; count 2; new_shared 0 x; store 0178; read 1209 0; step 1 2"


def faults(section, *words):
    """What a part of tools/failures tells as faults."""
    tally = sweeps.Tally()
    said = told(section, *words, tally)
    return "".join(f"{fault}\n" for fault in tally.faults) or said or ("nothing was tried" if not tally.places else "")


def sweep(server, tally):
    """A row undisturbed, and with each request, each call and each number refused."""
    row = rows.row_of("planted", "", [(CALLS, None)])
    for part in (sweeps.each_request, sweeps.each_call, sweeps.each_number):
        part(server, row, tally)


def served(fault, section):
    """What is told of a program with this fault."""
    with Server([sys.executable, HERE / "fakes.py", "rows", fault], "") as server:
        return faults(section, server)


def driver(_):
    """A state that differs after a refusal, another refusal, an answer that differs, and a program that ends."""
    yield "", served("", sweep)
    yield "in the place of `pending", served("does what it refuses", sweep)
    yield "in the place of `pending", served("does what it refuses, and not again", sweep)
    yield "`refused 21 back` in the place of", served("refuses by another error", sweep)
    yield "`refused 22` in the place of `refused 22 back`", served("gives nothing back", sweep)
    yield "read 2 = y", served("reads another text", sweep)
    with Server(["/bin/false"], "") as server:
        yield "the program ended at", faults(sweep, server)


ROW = ("planted", [("new_loose 0 x", "", "ok $a"), ("clone $a", "", "ok $b"), ("count $b", "", "ok 2")])


def shared_rows(run_of, row, server, tally):
    """A row of calls on a shared storage, with each request refused."""
    shared.each_request(server, tally, row, shared.whole(server, tally, row, run_of), run_of)


def of_shared(_):
    """The same of calls on a storage that threads share, by handles and by typed references."""
    for run_of in (shared.SharedRun, typed.TypedRun):
        part = lambda server, tally: shared_rows(run_of, ROW, server, tally)
        wrong = (ROW[0], [*ROW[1][:2], ("count $b", "", "ok 3")])
        yield "", faults(part, fakes.Program())
        yield "after the refused `new_loose 0 x`", faults(part, fakes.Program("does what it refuses"))
        yield "in the place of `ok 3`", told(shared_rows, run_of, wrong, fakes.Program(), sweeps.Tally())


def cut_input(server, tally):
    """Inputs that are cut, and a blob."""
    with mock.patch.object(hostile, "inputs", lambda: [("u16", b"\xac\x02\x05"), ("String", b"\1x")]):
        hostile.cuts(server, tally)
    hostile.each_request(server, tally, {1: [("String read 0178", 'ok 2 = "x"')]})
    hostile.read_blob(server, tally, "0178", 0)


def hostile_input(_):
    """A number that is read though it is cut, a value that is another one after a refusal, a blob of another text."""
    yield "", faults(cut_input, fakes.Program())
    yield "`u16` of ac", faults(cut_input, fakes.Program("reads what is cut"))
    yield "refused 1", faults(cut_input, fakes.Program("forgets what it refused"))
    yield "read 2 = y", faults(cut_input, fakes.Program("reads another text"))


class Answering:
    """A server that gives these answers in turn, whatever is asked."""

    def __init__(self, answers):
        self.answers = iter(answers)

    def ask(self, _):
        return next(self.answers)


FETCHES = ["", "ok 1", "ok", "ok", "refused 23 7", "ok 0", "yes", "ok 2 = hello world", "ok 2"]


def rows_in_the_middle(_):
    """A pin that fails as its fetch does, but leaves a pin, or has its text no second time."""
    for place, answer in [(0, ""), (5, "ok 1"), (7, "refused 16 1")]:
        answers = [*FETCHES[:place], answer, *FETCHES[place + 1:]]
        answered = Answering([answers[0], *(f"free {it}" for it in answers[1:])])
        yield f"`{answer}`" if place else "", told(middle.failed_fetch, answered, sweeps.Tally())


def names(_):
    """A number that stands for two things, and a handle that is left."""
    known = naming.Names()
    yield "", told(known.compare, "clone 1", "ok 2", "ok 3")
    yield "handle 3 in the place of", told(known.compare, "clone 1", "ok 4", "ok 3")
    look = "pending 0; 2: 1 1 0 here = x"
    yield "", told(known.compare_looks, look, look.replace("2:", "3:"))
    yield "in the place of", told(known.compare_looks, look, "pending 0; 3: 1 1 0 here = x; 4: 1 1 0 here = x")
    yield "nothing stands for", told(known.compare_looks, look, "pending 0; 3: 1 2 0 here = x")


def refusals(_):
    """A refusal that never came, one that can't come and came, and a fault that was told."""
    asked = {(call, number) for call, numbers in table.wanted() for number in numbers}
    came = collections.Counter(asked - table.NEVER.keys())
    missing = []
    told(lambda: missing.extend(table.printed(came)))
    yield "", "".join(missing)
    del came["clone", 18]
    told(lambda: missing.extend(table.printed(came)))
    yield "clone was never refused with NoSuchHandle", "".join(missing)
    missing.clear()
    came["fetch", 22] = came["clone", 18] = 1
    told(lambda: missing.extend(table.printed(came)))
    yield "fetch was refused with OutOfMemory, which can't come", "".join(missing)
    run = module_at("run_of_failures", HERE / "failures" / "run.py")
    tally = sweeps.Tally()
    told(tally.fault, "planted", "a fault")
    yield "failures: planted: a fault", told(run.told, tally)


def scripts(work):
    """`pagectl` that does what it refuses, or cuts an answer."""
    with mock.patch.object(pagectl, "SCRIPT", pagectl.SCRIPT[:6]):
        for fault, why in [("", ""), ("does what it refuses", "to `new a hello world` again")]:
            yield why, faults(pagectl.each_request, program(work, "texts", fault), "")
    for fault, why in [("", ""), ("cuts at NUL", "lines that are no lines")]:
        yield why, faults(pagectl.hostile, program(work, "texts", fault), "")


# ---- drawn input, and programs

def first_difference(sort):
    """What is told of the first drawn input of a sort that differs, of a few."""
    said = ""
    for seed in range(30):
        said = said or told(fuzz.tried, sort, seed)
    return said


def is_smallest(sort, said):
    """Whether the input that is shown needs each of its parts to differ."""
    parts = said.rpartition("\nMachines, seed")[0].split("\n")
    return all(sort.differs(parts[:place] + parts[place + 1:]) is None for place in range(len(parts)))


def drawn_scripts(answer):
    """Scripts of a `pagectl` that answers so."""
    def run(words, input, **_):
        plain = plain_script.Script()
        answers = [answer(plain, line) for line in input.split(b"\n")]
        said = "".join(f"{it}\n" for it in answers if it is not None)
        return types.SimpleNamespace(stdout=said.encode(), returncode=0)

    with mock.patch.object(fuzz.subprocess, "run", run):
        return first_difference(fuzz.Scripts("pagectl"))


def fuzzed(_):
    """A machine, a value and a script that are answered otherwise, each down to its smallest input."""
    yield "", first_difference(fuzz.Machines(fakes.Program()))
    sort = fuzz.Machines(fakes.Program("reads another text"))
    said = first_difference(sort)
    yield "by the plain pager", said
    yield "", "" if is_smallest(sort, said) else f"a part of these isn't needed: {said}"
    yield "", first_difference(fuzz.Values(fakes.Program()))
    yield ("read -\n", "by the plain rules"), first_difference(fuzz.Values(fakes.Program("reads what is cut")))
    yield "", drawn_scripts(plain_script.Script.answer)
    other = lambda plain, line: "0 " if line == b"pending" else plain.answer(line)
    yield "pending\nScripts, seed", drawn_scripts(other)


def programs(work):
    """A file that is read although it was changed; a cache that keeps nothing, takes another entry, trims the newest."""
    run = module_at("run_of_programs", HERE / "programs" / "run.py")
    for fault, why in [("", ""), ("reads what was changed", "in place of")]:
        folder = work / f"texts {fault}"
        folder.mkdir()
        yield why, told(run.remote, program(work, "remote", fault), folder)
    faults = {"": "", "keeps nothing": "build runs 12", "takes another": "in place of", "trims the newest": "entry"}
    for fault, why in faults.items():
        folder = work / f"builds-{fault.replace(' ', '-')}"
        folder.mkdir()
        yield why, run.caching.fault_of(program(work, "cached", fault), "make", folder) or ""


def proved(work, text, status):
    """What the gate counts if `rt` says this and ends with this status."""
    rt = work / "rt"
    rt.write_text(f"#!/bin/sh\ncat <<END\n{text}END\nexit {status}\n")
    rt.chmod(0o755)
    counts = []
    with mock.patch.dict(gate.os.environ, {"PATH": f"{work}:{gate.os.environ['PATH']}", "RT_JOBS": "1"}):
        said = told(lambda: counts.extend(gate.prove([], gate_times.Usage(), gate.Ended())))
    return f"{said}{counts}"


def of_gate(work):
    """Proofs that fail, don't count or are cut off; a tool that fails; a program that isn't there; checks that have no
    room."""
    yield "[3, 0]", proved(work, "3 passed, 0 failed\n", 0)
    fails, is_cut_off = ("2 passed, 1 failed\n", 1, "[2, 1]"), ("Killed\n", 0, "[0, 1]")
    for text, status, counts in [("3 passed, 0 failed\n", 1, "[3, 1]"), fails, is_cut_off]:
        yield counts, proved(work, text, status)
    for words, holds in [(["true"], "True"), (["false"], "False")]:
        yield holds, str(gate.run_tool(("a tool", words, None), gate_times.Usage(), gate.Ended())[0])
    with mock.patch.object(gate.shutil, "which", lambda name: None if name == "cc" else name):
        yield "there is no cc: install gcc or clang", "".join(gate.missing())
    below = {"low": set(), "high": {"low"}, "other": set()}
    most = [gate.most_at_once({"low": 5, "high": 4, "other": 2}, below, count) for count in (1, 2, 3)]
    yield "", "" if most == [5, 7, 0] else f"at most {most}"


def of_times(work):
    """A log of a gate that took earlier results, and one that was cut off."""
    row = "times: pagable_core                1.5 min    900 MB\n"
    end = "times: in all 1.5 processor minutes, 1.0 by the clock\n"
    yield "| `pagable_core` | 1.5 | 900 |", gate_times.docs_table(f"{gate_times.ALL_DONE}\n{row}{end}", TOP)
    for log in (f"{row}{end}", f"{gate_times.ALL_DONE}\n{row}"):
        yield "of no gate that proved everything", told(gate_times.docs_table, log, TOP)


def files(work):
    """A file that lacks the name or the blobs of a flush, or has a flaw; a file that isn't there."""
    lines, roots = asking.chain(6, 10, 3)
    faults = {"": "", "forgets names": "the root is", "forgets blobs": "blobs of", "has a flaw": "fsck"}
    for fault, why in faults.items():
        blobctl, file = program(work, "blobs", fault), work / f"file {fault}"
        said = asking.serve(blobctl, file, lines)
        yield why, asking.lost(blobctl, file, roots, asking.flushes(said.stdout), 3) or ""
    yield "", asking.lost(blobctl, work / "none", roots, 0, 3) or ""


def power_cuts(_):
    """A run that lacks a sync: that of a batch, that of its gate, that of the file's name."""
    blob = plain_file.blob(b"one")
    batch = plain_file.batch([blob], [(b"main", blob[0])])
    sync, shut = ("sync", "file", 1), plain_file.SHUT
    made = [("make", "/f", 1), ("sync", "folder", "/"), ("write", 1, 0, plain_file.HEADER + shut), sync]
    events = [*made, ("write", 1, 17, batch[1:] + shut), sync, ("write", 1, 16, b"\1"), sync, ("answer", "flushed\n")]
    for left_out, why in [(None, ""), (5, "is damaged"), (7, "blobs"), (1, "blobs")]:
        asking.DRAWN.seed(1)
        cuts = power.Cuts([it for at, it in enumerate(events) if at != left_out], "/f", power.answers).run(20)
        yield why, f"{cuts.bad[0]}" if cuts.bad else ""


def refused_calls(work):
    """A run that forgets what it answered, one that answers otherwise, and one that names another cause."""
    key, file = asking.key_of(b"\1"), work / "file"
    whole, asked = plain_file.file_of(plain_file.batch([plain_file.blob(b"\1")])), ["put 01", "flush"]
    runs = [
        (whole, [key, "flushed"], ""), (plain_file.file_of(), [key, "error: the disk failed"], ""),
        (plain_file.file_of(), [key, "flushed"], "the file shows"), (whole, [key[::-1], "flushed"], "is answered"),
        (whole, [key, "error: it failed"], "says"), (whole, [key], "1 answers"),
    ]
    for content, said, why in runs:
        file.write_bytes(content)
        done = types.SimpleNamespace(stdout="".join(f"{line}\n" for line in said), stderr="", returncode=0)
        again = lambda *_, done=done, **more: file.write_bytes(whole) and done  # noqa: E731
        with mock.patch.object(refusing, "serve", again):
            yield why, refusing.checked(work, file, plain_file.file_of(), asked, done, refusing.plain_state(file)
                                        if content == whole else ({key: (0, b"\1")}, {})) or ""


def plain_answers(_):
    """An answer that isn't the plain one, and one too many."""
    asked, key = ["put 01", "stat", "what"], asking.key_of(b"\1")
    told = [key, "1 blobs, 1 bytes, 0 names", "bad line", ""]
    other = [key, "1 blobs, 2 bytes, 0 names", "bad line", ""]
    for said, why in [(told, ""), (other, "in place of"), ([*told, "more"], "more lines")]:
        yield why, plainly.compared(asked, "\n".join(said)) or ""


def compared_roots(_):
    """A difference that lacks a key, tells one of both roots, or is right with another status; a document that isn't
    the plain one."""
    tool = plain_tool.PlainTool()
    leaves = [tool.put_hex(word).strip() for word in ("01", "02", "03")]
    for name, words in (("one", leaves[:2]), ("two", leaves[1:])):
        tool.root(name, tool.put_hex(" ".join([f"{len(name)}{len(words)}{leaves.index(words[0])}0", *words])).strip())
    right = tool.diff("one", "two")
    less, more = right.partition("\n")[2], right + f"+ {tool.line(leaves[0])}"
    cases = [(right, right, 1, ""), (right, right, 0, "in place of"), (less, right, 1, "in place of"),
             (right, less, 1, "alone"), (right, more, 1, "alone"), (right, "no line", 1, "no line")]
    for exact, near, status, why in cases:
        answer = lambda *words, it=(exact, near), by=status: types.SimpleNamespace(  # noqa: E731
            returncode=by, stdout=it["--exact" not in words], stderr="")
        with mock.patch.object(comparing, "run", answer):
            yield why, comparing.compared("", "file", tool, ("one", "two"))[0] or ""
    shared = [[leaves[1]], [leaves[1]]]
    yield "alone", comparing.fault_of_near(tool, ("one", "two"), shared) or ""
    yield "of both", comparing.fault_of_near(tool, ("one", "one"), shared) or ""
    for text, wanted in [('{"blobs":5}\n', "(0, {'blobs': 5}, '')"), ('{"blobs":5}', "'{\"blobs\":5}'")]:
        done = types.SimpleNamespace(returncode=0, stdout=text, stderr="")
        with mock.patch.object(comparing, "run", lambda *_, done=done: done):
            yield wanted, str(comparing.as_json("", "file", "stat"))


def held_files(work):
    """A command that writes though another process has the file, one that is refused and writes, one that only looks
    and is refused."""
    file = work / "file"
    refused = types.SimpleNamespace(returncode=3, stdout="", stderr=f"blobctl: {file}: {holding.IN_USE}")
    done = types.SimpleNamespace(returncode=0, stdout="", stderr="")
    for writing, looking, grows, why in [(refused, done, False, ""), (done, done, False, "beside a process"),
                                         (refused, done, True, "beside a process"), (refused, refused, False, "['ls']")]:
        file.write_bytes(b"all")

        def answer(_, own, *words, it=(writing, looking), does_write=grows, **more):
            if does_write:
                own.write_bytes(own.read_bytes() + b"more")
            return it[words == ("ls",)]

        with mock.patch.object(holding, "run", answer):
            yield why, holding.refused_beside("", file, [["put"]], [["ls"]]) or ""


def host_files(work):
    """An open that takes no lock, and a look that writes."""
    check = module_at("check_of_host_files", HERE / "host_files" / "check.py")
    for fault, why in [("", ""), ("takes no lock", "second open"), ("writes when it looks", "file beside others")]:
        found, folder = check.Faults(), work / f"files {fault}"
        folder.mkdir()
        for case in (check.makes_and_writes, check.beside):
            case(program(work, "hosted", fault), folder, found)
        yield why, "\n".join(found)


def plain_files(_):
    """A file of blobs whose sum, name or header is another one, or whose gate is shut."""
    first = plain_file.blob(b"one")
    content = plain_file.file_of(plain_file.batch([first], [(b"main", first[0])]))
    yield "", "" if plain_file.PlainFile(content).roots() == [f"main {first[0]} 1 versions"] else "other names"
    for at, why in [(0, "none of blobs"), (33, "is damaged"), (len(content) - 2, "is damaged"), (16, "no blob")]:
        try:
            read = plain_file.PlainFile(content[:at] + b"?" + content[at + 1 :])
            yield why, f"{read.blobs or 'no blob'}"
        except plain_file.Refused as refused:
            yield why, str(refused)


def declarations(work):
    """A `pagable_derive` that names the line behind the fault, and one that writes a folder behind it."""
    check = module_at("check_of_declarations", HERE / "declarations" / "check.py")
    rows = {text: (line, reason) for text, line, reason in check.fault_rows()}

    def program(later, folder_is_written):
        def run(file, _, folder):
            line, reason = rows[file.read_bytes()]
            if folder_is_written:
                folder.mkdir()
            return 2, "", f"{file}:{line + later}: {reason}\n"
        return run

    faults = [(0, False, ""), (1, False, "in place of"), (0, True, "a folder after a fault")]
    for later, folder_is_written, why in faults:
        yield why, told(check.check_faults, program(later, folder_is_written), work)


def hostile_run(work):
    """An input that comes to something else, and one that comes too late."""
    run = module_at("run_of_hostile", HERE / "hostile" / "run.py").Run(work)
    for came, seconds, wrong in [("refused 1", 0.1, ""), ("refused 2", 0.1, "WRONG"), ("refused 1", 2, "WRONG")]:
        said = told(run.tell, "an input", came, seconds, "refused 1", 1)
        yield wrong, said if wrong else said.partition(" s")[2].strip()


def data_rows(work):
    """A row of values that expects something else, and a program that prints something else."""
    run = module_at("run_of_rows", HERE / "rows" / "run.py")
    shutil.copytree(run.CRATE, work / "rows")
    wanted = (run.CRATE / "stdout").read_text(encoding="utf-8")
    with mock.patch.object(run, "CRATE", work / "rows"):
        for printed, status, why in [(wanted, 0, "all are"), (wanted, 1, "status 1"), ("", 0, "isn't what is")]:
            done = types.SimpleNamespace(stdout=printed, stderr="", returncode=status)
            with mock.patch.object(run, "told", lambda _, done=done: done):
                yield why, told(run.main, [])
        changed(DATA / "by_hand.txt", work / "rows" / "data", "ok 2 = 300", "ok 2 = 301")
        yield "by the plain rules", told(run.main, [])


def of_night(work):
    """A part that fails."""
    for words, verdict in [(["true"], "stood"), (["false"], "FAILED")]:
        yield verdict, told(nightly.run, "a part", words, work / "log")


# What is tried on a tool: one after the other, words that have to be told of a fault, or none, and what is told.
TOOLS = {
    "check_text.py": check_text, "copy_crates.py": copies, "edits.py": edits_of_bodies, "wrong_bodies.py": bodies,
    "threads": threads, "tests.py": of_tests, "plain_pager.py": pager, "plain_rows.py": pager_rows,
    "plain_values.py": values, "plain_script.py": script, "original_rows.py": original, "speed_sums.py": speed,
    "compare_speed.py": compare, "speed/as_proved.py": marks, "speed/speed_table.py": table_of_speed,
    "speed/pictures.py": drawing, "failures/driver.py": driver, "failures/shared.py": of_shared,
    "failures/hostile.py": hostile_input, "failures/middle.py": rows_in_the_middle, "failures/naming.py": names,
    "failures/table.py": refusals, "failures/pagectl.py": scripts, "fuzz.py": fuzzed, "programs": programs,
    "gate.py": of_gate, "gate_times.py": of_times, "file_blobs": files, "host_files": host_files,
    "file_blobs/power.py": power_cuts, "file_blobs/refusing.py": refused_calls,
    "file_blobs/comparing.py": compared_roots, "file_blobs/holding.py": held_files,
    "file_blobs/plainly.py": plain_answers, "file_blobs/plain_file.py": plain_files,
    "declarations": declarations, "hostile": hostile_run, "rows": data_rows, "nightly.py": of_night,
}


def is_as_it_should_be(name):
    """Tries a tool, and prints what came of it; whether all was as it should be."""
    found, wrong = 0, []
    with tempfile.TemporaryDirectory() as work:
        for words, said in TOOLS[name](pathlib.Path(work)):
            words = (words,) if isinstance(words, str) else words
            is_right = all(word in said for word in words) if any(words) else not said
            found += is_right and any(words)
            wrong += [] if is_right else [f"{words} in `{said[-500:]}`"]
    print(f"{name}: " + ("; ".join(wrong) or f"{found} found"), flush=True)
    return found and not wrong


def main(names):
    are_right = [is_as_it_should_be(name) for name in names or TOOLS]
    sys.exit(0 if all(are_right) else "planted: a tool isn't as it should be")


if __name__ == "__main__":
    main(sys.argv[1:])
