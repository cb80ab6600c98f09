"""The rows of the table of speed in docs/SPEED.md, and the table as text, written and read. tools/compare_speed.py
measures it, and pictures.py draws it.
"""
import collections
import pathlib
import re
import sys

PAGE = pathlib.Path(__file__).resolve().parents[2] / "docs" / "SPEED.md"
# What stands before and behind the table of times in the page, and before and behind that of instructions.
TIMES = ("<!-- table -->", "<!-- end of the table -->")
INSTRUCTIONS = ("<!-- instructions -->", "<!-- end of the instructions -->")
# Who is timed, with the heading of the column: this repository, and the original with SHA-256 by the processor's
# instructions and in software.
SIDES = {"here": "Here", "hard": "Original, SHA instructions", "soft": "Original, SHA software"}
Row = collections.namedtuple("Row", "name count parts")
Table = collections.namedtuple("Table", "above sides times")
VALUES = {"numbers": 1_000_000, "bytes": 1_000_000, "texts": 200_000, "maps": 400, "ordered": 100_000}
SIZES = [1_000, 10_000, 100_000, 1_000_000]
THREADS = [1, 2, 4]
OUT_AND_IN = ("out", "in")
# Rows of a storage that threads share; behind the slash of their names stands how many threads there are.
SHARED = [
    Row("locked_calls", 100_000, ("clone", "unpin", "pin", "release")),
    Row("locked_cells", 10_000, OUT_AND_IN),
    Row("worker_items", 20_000, ("out",)),
    Row("worker_trees", 300, ("out",)),
    Row("worker_texts", 100_000, ("out",)),
]
# Each row with its count and its parts; the count of `tree` is that of its levels.
ROWS = [
    *(Row(name, count, ("read", "write")) for name, count in VALUES.items()),
    *(Row("cells", count, OUT_AND_IN) for count in SIZES),
    Row("items", 20_000, OUT_AND_IN),
    Row("trees", 30, OUT_AND_IN),
    Row("cell_trees", 30, OUT_AND_IN),
    Row("tree", 19, OUT_AND_IN),
    Row("chain", 100_000, OUT_AND_IN),
    Row("wide_shared", 20_000, OUT_AND_IN),
    Row("wide_loose", 20_000, OUT_AND_IN),
    Row("wide_item", 20_000, OUT_AND_IN),
    *(Row("calls", count, ("make", "clone", "unpin and pin", "release")) for count in SIZES),
    *(Row("falls", count, ("fall",)) for count in SIZES),
    Row("loads", 16_000, ("begin", "end")),
    Row("fronts", 100_000, ("take",)),
    Row("backwards", 20_000, ("make",)),
    # (once more with tables that the processor's caches hold)
    Row("locked_calls/1", 4_000, ("clone", "unpin", "pin", "release")),
    *(Row(f"{row.name}/{threads}", row.count, row.parts) for row in SHARED for threads in THREADS),
]
# What the original has no call for.
OURS = {"loads", "fronts", "backwards"}
# What is told by the call.
CALLS = {"calls", "falls", "loads", "fronts", "locked_calls"}
TIME = re.compile(r"([\d,.]+) (ms|ns each)")


def time_text(seconds, row):
    if row.name.partition("/")[0] in CALLS:
        return f"{seconds * 1e9 / row.count:,.0f} ns each"
    return f"{seconds * 1000:,.2f} ms"


def seconds_of(text, count):
    """The time that a cell of the table tells, or None."""
    told = TIME.fullmatch(text)
    if not told:
        return None
    number = float(told[1].replace(",", ""))
    return number / 1000 if told[2] == "ms" else number * count / 1e9


def table_text(headings, lines):
    """A table, as pages spell one."""
    head, *rest = [f"| {' | '.join(cells)} |" for cells in (headings, *lines)]
    return "\n".join([head, "|---" * len(headings) + "|", *rest])


def times_table(best, sides):
    """The table of times of these sides: of each row and side it takes the seconds of each part and the peak of memory
    in KiB, or None where that side doesn't do the row."""
    lines = []
    for row, by in best.items():
        told = [by[side] for side in sides]
        undone = "no call" if row.name in OURS else "stack overflow"
        peaks = [f"{one[1] / 1024:,.1f} MiB" if one else "" for one in told[:2]]
        for part in row.parts:
            times = [time_text(one[0][part], row) if one else undone for one in told]
            lines.append([f"`{row.name}`", f"{row.count:,}", part, *times, *peaks])
    headings = [SIDES[side] for side in sides]
    return table_text(["Row", "Count", "Part", *headings, "Peak of memory, here", "Original"], lines)


def instructions_table(counts):
    """The table of instructions: of each row it takes those of each part, here and by the original if it has the call.
    """
    lines = []
    for row, by in counts.items():
        for part in row.parts:
            here, there = by["here"][part], by["soft"][part] if "soft" in by else None
            theirs = [f"{there / 1e6:,.2f} million", f"{here / there:.2f}"] if there else ["no call", ""]
            lines.append([f"`{row.name}`", f"{row.count:,}", part, f"{here / 1e6:,.2f} million", *theirs])
    return table_text(["Row", "Count", "Part", "Instructions here", "Original", "Here over original"], lines)


def within(page, marks):
    """What stands between two marks of a page."""
    for mark in marks:
        if page.count(mark) != 1:
            sys.exit(f"the page has the mark {mark} {page.count(mark)} times")
    return page.split(marks[0])[1].split(marks[1])[0]


def write(tables):
    """Writes tables into the page, each between its two marks."""
    page = PAGE.read_text(encoding="utf-8")
    for marks, table in tables.items():
        page = page.replace(f"{marks[0]}{within(page, marks)}", f"{marks[0]}\n{table}\n")
    PAGE.write_text(page, encoding="utf-8")


def table_in(page):
    """The table of times in a page: what stands above it, the sides that it has, and by the name, the count and the
    part of each row the seconds of each side, or None. Ends the program where a row isn't there, or another one is."""
    above, _, table = within(page, TIMES).strip().partition("\n\n")
    headings, _, *rows = ([cell.strip(" `") for cell in row[1:-1].split("|")] for row in table.splitlines())
    for side in ("here", "soft"):
        if SIDES[side] not in headings:
            sys.exit(f"the table has no column `{SIDES[side]}`")
    sides = [side for side, heading in SIDES.items() if heading in headings]
    times = {}
    for cells in (dict(zip(headings, row)) for row in rows):
        count = int(cells["Count"].replace(",", ""))
        its_times = {side: seconds_of(cells[SIDES[side]], count) for side in sides}
        times[cells["Row"], count, cells["Part"]] = its_times
    wanted = {(row.name, row.count, part) for row in ROWS for part in row.parts}
    for why, rows in (("no row", wanted - set(times)), ("another row", set(times) - wanted)):
        for name, count, part in sorted(rows)[:1]:
            sys.exit(f"the table has {why}: `{name}` at {count:,}, {part}")
    return Table(above, sides, times)
