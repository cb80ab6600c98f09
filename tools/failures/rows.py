"""Rows of events, with what the plain pager answers to each and what it leaves."""

import pathlib
import sys
from dataclasses import dataclass, field

HERE = pathlib.Path(__file__).resolve().parent
DATA = HERE.parent / "crates/rows/data"
sys.path.insert(0, str(HERE.parent))
from plain_rows import Rows  # noqa: E402

OF_VALUES = ("write", "drawn", "read", "cut", "weigh", "find", "serve", "reason")


@dataclass
class Step:
    """One event of a row, or so many steps of a load or a worker: what is wanted of it, and how all stands after
    it."""

    event: str
    wanted: str
    look: str
    listed: list = field(default_factory=list)

    @property
    def name(self):
        return self.event.partition(" ")[0]


@dataclass
class Row:
    """A row of events on a new machine over this storage."""

    name: str
    storage: str
    steps: list
    calls: int = 0
    last: int = 0

    def events(self):
        """The steps that aren't looks, each with its place."""
        return [(place, step) for place, step in enumerate(self.steps) if step.name != "look"]

    def stride(self):
        """Of how many places one is tried, since a long row has more than 2,000."""
        return 17 if len(self.steps) > 100 else 1

    def look(self):
        return f"look {2 * self.last + 400}"

    def before(self, place):
        """How all stands before a step."""
        return self.steps[place - 1].look if place else "pending 0"


def is_of_values(line):
    """Whether a line is about values, and not a list of events."""
    words = line.split(" ")
    return len(words) > 1 and words[1] in OF_VALUES and not words[0].endswith(";")


def single(part):
    """The events of a part of a line: a chain is as many births."""
    if not part.startswith("chain "):
        return [part]
    _, *birth, kind, times = part.split(" ")
    birth = " ".join(birth)
    return [birth] + [f"{birth} {kind}:{place}:{place}" for place in range(1, int(times))]


def look_of(plain, event):
    """How all stands, but after a birth among many, which would take long."""
    if event.startswith("new_") and plain.pager.last_handle > 40:
        return None
    return plain.look(plain.pager.last_handle)


def loose_handle(pager, number):
    """An unpinned loose handle of the caller's of the same cell as another handle, or 0."""
    cell = pager.handles[number].cell
    of_cell = [other for other, handle in pager.handles.items() if handle.cell is cell]
    own = (other for other in of_cell if pager.handles[other].owner == "caller")
    return next((other for other in own if pager.handles[other].mode == "loose unpinned"), 0)


def newly_listed(before, plain):
    """By which handles the cells can be listed that were listed since."""
    return [loose_handle(plain.pager, number) for number in plain.pager.list if number not in before]


def entry_of(plain, event):
    """By which handle the cell can be listed whose entry a worker is to take."""
    name, _, words = event.partition(" ")
    if name != "listed" or int(words.split(" ")[1]) >= plain.pager.pending():
        return []
    return [loose_handle(plain.pager, plain.pager.list[int(words.split(" ")[1])])]


def row_of(name, storage, lines):
    """A row of lines of events, each with the answer that is stored, or None: it has to be the plain pager's. One
    behind `last` has the answer of its last event alone."""
    plain, steps = Rows(), []
    plain.answer(f"machine {storage}".strip())
    for line, stored in lines:
        only_last, line = line.startswith("last "), line.removeprefix("last ")
        answers = []
        for event in (event for part in line.split(";") for event in single(part.strip())):
            before, entry = set(plain.pager.list), entry_of(plain, event)
            wanted = "; ".join(plain.answers(event)) if not event.startswith("look ") else plain.answer(event)
            answers.append(wanted)
            steps.append(Step(event, wanted, look_of(plain, event), entry or newly_listed(before, plain)))
        told = answers[-1].rpartition("; ")[2] if only_last else "; ".join(answers)
        if stored is not None and told != stored:
            sys.exit(f"row {name}: the plain pager answers `{told}`, and `{stored}` is stored")
    return Row(name, storage, steps, storage_calls(plain, storage), plain.pager.last_handle)


def storage_calls(plain, storage):
    """How many calls on the storage the row makes, where none fails."""
    return -1 - plain.pager.calls_before if not storage.isdigit() else 0


def worked():
    """The lines of the worked rows about values, by row, and the rows of events."""
    values, rows, open_row = {}, [], None
    for line in (DATA / "worked.txt").read_text(encoding="utf-8").splitlines():
        if line.startswith("#"):
            continue
        number, _, rest = line.partition(": ")
        asked, _, wanted = rest.partition(" ->")
        if is_of_values(asked):
            values.setdefault(int(number), []).append((asked, wanted.strip()))
            continue
        word, _, storage = asked.partition(" ")
        if word == "machine" or open_row is None or open_row[0] != number:
            open_row = (number, storage if word == "machine" else "", [])
            rows.append(open_row)
        if word != "machine":
            open_row[2].append((asked, wanted.strip()))
    return values, [row_of(f"row {number}", storage, lines) for number, storage, lines in rows]


def rows_in(file):
    """The rows of a file, each on a new machine. One begins with `= NAME`, and behind ` | ` its storage; or, as
    `rows` reads a file, with `machine` and its storage."""
    rows = []
    for line in file.read_text(encoding="utf-8").splitlines():
        word, _, rest = line.partition(" ")
        if word in ("=", "machine"):
            name, _, storage = (f"machine {len(rows) + 1} | {rest}" if word == "machine" else rest).partition(" | ")
            rows.append((name, storage, []))
        elif line and not line.startswith("#"):
            asked, _, wanted = line.partition(" -> ")
            rows[-1][2].append((asked, wanted or None))
    return [row_of(*row) for row in rows]
