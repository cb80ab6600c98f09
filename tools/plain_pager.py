"""A plain pager and its machine: short and slow, written from the rules of cells and not from the crates, for
plain_rows.py to compare with them. What can be counted or looked up is counted and looked up anew each time. Memory is
always there.
"""

import hashlib
from dataclasses import dataclass, field
from functools import partial, partialmethod

UNEXPECTED_END, BAD_VARINT, BAD_BOOL, BAD_UTF8, TOO_LONG, TOO_DEEP = 1, 2, 3, 4, 6, 7
NO_MORE_KEYS, NO_DATA, WRONG_KIND, NO_SUCH_HANDLE, WRONG_MODE, NOT_YOURS = 15, 16, 17, 18, 19, 20
STORAGE, KEY_TAKEN, CLOSED, CUSTOM = 23, 24, 25, 26
# (no refusal of a call: another worker's failure)
ALREADY_FAILED = 0
ORDER = (NO_SUCH_HANDLE, NOT_YOURS, WRONG_MODE, WRONG_KIND)
LOOSE_PINNED, LOOSE_UNPINNED, PINNED, SHARED = "loose pinned", "loose unpinned", "Pinned", "Shared"
LOOSE = (LOOSE_PINNED, LOOSE_UNPINNED)
ALL_MODES = (*LOOSE, PINNED, SHARED)
CALLER, LIST = "caller", "list"
DEEPEST = 128


@dataclass(eq=False)
class Refused(Exception):
    """A refusal, by its number; `told` is the key or code that it carries, `back` whether a value comes back with it."""

    number: int
    told: object = None
    back: bool = False

    def text(self):
        return f"refused {self.number}" + ("" if self.told is None else f" {self.told}") + " back" * self.back


def need(is_so, number, told=None, back=False):
    """Refuses what isn't so."""
    if not is_so:
        raise Refused(number, told, back)


def refuse_first(causes, back=False):
    """Of several causes the first in their order is told."""
    for number in ORDER:
        need(number not in causes, number, back=back)


def type_of(kind):
    return kind // 3


def is_lazy(kind):
    return kind % 3 == 1


def modes_of(kind):
    """The modes that a handle may have where a reference of the kind names it. The last is that of the handles that a reading makes."""
    return ((SHARED,), LOOSE, (PINNED,))[kind % 3]


@dataclass
class Blob:
    """A value as it is stored: bytes, and the keys of what it refers to."""

    data: bytes
    arcs: tuple = ()

    def preimage(self):
        return len(self.arcs).to_bytes(8, "little") + self.data + b"".join(arc.to_bytes(16, "little") for arc in self.arcs)

    def key(self, by_sha256):
        """The hash of the preimage, by SHA-256 or by weighing it: the sum of each byte times its place, counted from 1."""
        if by_sha256:
            return int.from_bytes(hashlib.sha256(self.preimage()).digest()[:16], "little") or 1
        return sum(place * byte for place, byte in enumerate(self.preimage(), 1)) % 2**128 or 1

    def text(self):
        arcs = ":" + ",".join(map(str, self.arcs)) if self.arcs else ""
        return (self.data.hex() or "-") + arcs


@dataclass
class Value:
    """What a node holds: content of its type, and its references in their order, each a kind and a handle."""

    node_type: int
    content: object
    references: list = field(default_factory=list)


def varint(number):
    return bytes([number]) if number < 128 else bytes([number % 128 + 128]) + varint(number // 128)


# Of a number of so many bits: how many bytes there are at most, and how large the last of so many may be.
WIDTHS = {16: (3, 3), 32: (5, 15), 64: (10, 1), 128: (19, 3)}


class Bytes:
    """Bytes that are read from the front."""

    def __init__(self, data):
        self.data, self.place = data, 0

    def take(self, count):
        need(len(self.data) - self.place >= count, UNEXPECTED_END)
        self.place += count
        return self.data[self.place - count:self.place]

    def varint(self, bits):
        longest, greatest = WIDTHS[bits]
        front = self.data[self.place:self.place + longest]
        length = next((place for place, byte in enumerate(front, 1) if byte < 128), None)
        need(length is not None or len(front) == longest, UNEXPECTED_END)
        need(length is not None and (length < longest or front[-1] <= greatest), BAD_VARINT)
        return sum((byte & 127) << 7 * place for place, byte in enumerate(self.take(length)))

    def length(self):
        length = self.varint(64)
        need(length < 2**32, TOO_LONG)
        return length

    def bool(self):
        byte = self.take(1)[0]
        need(byte <= 1, BAD_BOOL)
        return byte == 1

    def text(self):
        try:
            return self.take(self.length()).decode()
        except UnicodeDecodeError:
            raise Refused(BAD_UTF8) from None


class RowTypes:
    """The values of the rows. 0 and 1 are texts, of which the latter's writer refuses; 2 a byte and five lists of references, each of a kind; 3 and 4
    at most one reference of its own, loose or shared; 5 shared references to texts; 6 one of these, without a byte; 7 two bytes."""

    NAME, NOTE, MIXED, LINK, ARC_LINK, NAMES, HOLDER, BYTES, END = range(9)
    KINDS = {MIXED: (6, 7, 8, 1, 0), LINK: (10,), ARC_LINK: (12,), NAMES: (0,), HOLDER: (0,), BYTES: ()}
    # How many bytes come first, which are the content.
    FIRST = {MIXED: 1, BYTES: 2}

    @classmethod
    def write(cls, value):
        need(value.node_type != cls.NOTE, CUSTOM)
        if value.node_type == cls.NAME:
            return varint(len(value.content.encode())) + value.content.encode()
        kinds = [kind for kind, _ in value.references]
        counted = () if value.node_type == cls.HOLDER else cls.KINDS[value.node_type]
        return value.content + b"".join(varint(kinds.count(kind)) for kind in counted)

    @classmethod
    def read(cls, node_type, blob, get):
        """Gets a handle for each reference by its kind and key, by steps, and ends in the value. What is left over is accepted."""
        need(node_type < cls.END, WRONG_KIND)
        taken, keys, references = Bytes(blob.data), list(blob.arcs), []
        if node_type <= cls.NOTE:
            return Value(node_type, taken.text())
        content = taken.take(cls.FIRST.get(node_type, 0))
        counts = {cls.LINK: taken.bool, cls.ARC_LINK: taken.bool, cls.HOLDER: lambda: 1}
        for kind in cls.KINDS[node_type]:
            for _ in range(counts.get(node_type, taken.length)()):
                need(keys, NO_MORE_KEYS)
                references.append((kind, (yield from get(kind, keys.pop(0)))))
        return Value(node_type, content, references)


@dataclass(eq=False)
class Cell:
    """A node, which owns what its value refers to; the value is None where it is away."""

    node_type: int
    key: int
    value: Value
    number: int = 0


@dataclass
class Handle:
    cell: Cell
    mode: str
    owner: object


@dataclass(eq=False)
class Load:
    """An open load, which owns its handles: who began it; its root; by which handle of which cell it was begun, or by neither; and how far it has got by
    steps: its walk and how many."""

    owner: object
    key: int
    node_type: int
    begun_by: int
    cell: Cell
    walk: object = None
    steps: int = 0


class Machine:
    """A pager that is driven by events: blobs, cells, handles, the list, the cache and open loads by their numbers, tables and workers, the steps that
    calls share, and a method for each call and for each other event. Its storage is closed, hashes by SHA-256, or fails once after so many calls."""

    def __init__(self, storage=""):
        self.blobs, self.closed, self.by_sha256 = {}, storage == "closed", storage == "sha256"
        self.calls_before = int(storage) if storage.isdigit() else -1
        self.cells, self.handles, self.loads, self.cache, self.list, self.tables, self.workers = {}, {}, {}, {}, [], [], []
        self.last_node = self.last_handle = self.last_load = 0
        # Who calls: the caller, or a worker in its steps.
        self.me = CALLER

    # ---- what is looked up

    def live(self, number):
        need(number in self.handles, NO_SUCH_HANDLE)
        return self.handles[number]

    @staticmethod
    def foreign(found, owner):
        """Why a handle or a load isn't there for an owner, or None."""
        return NO_SUCH_HANDLE if found is None else NOT_YOURS if found.owner != owner else None

    def cause(self, number, owner, modes, node_type=None):
        """Why a handle isn't such a one, or None."""
        handle = self.handles.get(number)
        if fault := self.foreign(handle, owner):
            return fault
        if handle.mode not in modes:
            return WRONG_MODE
        return None if node_type in (None, handle.cell.node_type) else WRONG_KIND

    def cause_of_references(self, owner, references):
        """The first faulty reference decides. A handle that is named again is faulty at its second place."""
        numbers = [number for _, number in references]
        causes = (NOT_YOURS if number in numbers[:place] else self.cause(number, owner, modes_of(kind), type_of(kind))
                  for place, (kind, number) in enumerate(references))
        return next(filter(None, causes), None)

    def own(self, number, *modes):
        """A handle of who calls, of one of these modes."""
        refuse_first([self.cause(number, self.me, modes)])
        return self.handles[number]

    def open(self, number):
        """A load of who calls."""
        refuse_first([self.foreign(self.loads.get(number), self.me)])
        return self.loads[number]

    def owned(self, owner):
        return [number for number, handle in self.handles.items() if handle.owner == owner]

    def pins(self, cell):
        return sum(handle.cell is cell and handle.mode != LOOSE_UNPINNED for handle in self.handles.values())

    # ---- what changes

    def give(self, cell, mode, owner=None):
        self.last_handle += 1
        self.handles[self.last_handle] = Handle(cell, mode, owner or self.me)
        return self.last_handle

    def insert_node(self, cell, mode, owner=None):
        """A new node with one handle. What its value refers to moves to it."""
        cell.number = self.last_node = self.last_node + 1
        self.cells[cell.number] = cell
        self.hand_in(cell)
        return self.give(cell, mode, owner)

    def hand_in(self, cell):
        for _, number in cell.value.references if cell.value else []:
            self.handles[number].owner = cell

    def cached(self, kind, key, owner=None):
        """A handle of the node that the cache has, if it is live and, for a Pinned reference, in memory; else None."""
        cell, mode = self.cells.get(self.cache.get((kind, key))), modes_of(kind)[-1]
        gone = cell is None or mode == PINNED and cell.value is None
        return None if gone else self.give(cell, mode, owner)

    def cached_or_born(self, kind, key, value, owner):
        """A handle of what the cache has, and then the value is dropped; or of a new node, which the cache gets to know."""
        if number := self.cached(kind, key, owner):
            self.drop(value)
            return number
        mode = modes_of(kind)[-1]
        number = self.insert_node(Cell(type_of(kind), None if mode == SHARED else key, value), mode, owner)
        if not self.closed:
            self.cache[kind, key] = self.last_node
        return number

    def fall(self, number):
        """A handle is given up. A node without handles is gone, and what its value refers to falls too."""
        handle = self.handles[number]
        if handle.mode in (LOOSE_PINNED, PINNED):
            handle.mode = LOOSE_UNPINNED
            self.settle(handle.cell)
        del self.handles[number]
        if all(other.cell is not handle.cell for other in self.handles.values()):
            self.drop(self.cells.pop(handle.cell.number).value)

    def drop(self, value):
        """What a value refers to falls, the last first. The order is open: it tells alone in which order cells are listed."""
        for _, number in reversed(value.references if value else []):
            self.fall(number)

    def settle(self, cell):
        """Where nothing pins a cell, its value goes if it has a key, and else the cell is listed until the pager is closed."""
        if self.pins(cell) == 0 and cell.key is not None:
            value, cell.value = cell.value, None
            self.drop(value)
        elif self.pins(cell) == 0 and not self.closed:
            self.list.append(self.give(cell, LOOSE_UNPINNED, LIST))

    def pin_through(self, handle):
        handle.mode = LOOSE_PINNED
        return self.give(handle.cell, PINNED)

    def close_load(self, number):
        for handle in self.owned(self.loads.pop(number)):
            self.fall(handle)

    # ---- the calls on the storage

    def flush(self):
        self.calls_before -= 1
        need(self.calls_before != -1, STORAGE, 7)

    def fetch(self, key):
        self.flush()
        need(key in self.blobs, NO_DATA, key)
        return self.blobs[key]

    def store(self, blob):
        self.flush()
        need(not self.closed, CLOSED)
        key = blob.key(self.by_sha256)
        need(self.blobs.setdefault(key, blob) == blob, KEY_TAKEN)
        return key

    # ---- the calls on loads

    def load_begin(self, number):
        cell = self.own(number, *LOOSE).cell
        if cell.value is not None:
            return "memory"
        begun = self.load_key(cell.key, cell.node_type, number, cell)
        self.give(cell, LOOSE_UNPINNED, self.loads[self.last_load])
        return begun

    def load_key(self, key, node_type=None, begun_by=None, cell=None):
        """The load of a key is told the type of its root only if it goes by steps."""
        self.last_load += 1
        self.loads[self.last_load] = Load(self.me, key, node_type, begun_by, cell)
        return "load", self.last_load, key

    def load_fetch(self, load, kind=None, key=None):
        """The root's blob, if no kind is told. Else a handle of what the cache has, or the blob under the key."""
        row = self.open(load)
        return self.fetch(row.key) if kind is None else self.cached(kind, key, row) or self.fetch(key)

    def load_adopt(self, load, kind, key, value):
        """A handle of a node for a reference that is read with its value."""
        row = self.loads.get(load)
        causes = [self.foreign(row, self.me), WRONG_MODE if is_lazy(kind) else None, None if value.node_type == type_of(kind) else WRONG_KIND]
        refuse_first([*causes, self.cause_of_references(row, value.references)], back=True)
        return self.cached_or_born(kind, key, value, row)

    def load_lazy(self, load, kind, key):
        """A handle of a cell that isn't fetched."""
        row = self.open(load)
        need(is_lazy(kind), WRONG_KIND)
        return self.cached_or_born(kind, key, None, row)

    def load_end(self, load, value):
        """What the load's row says is looked at first, and gives the value back; then the handle that began it."""
        need(load in self.loads, NO_SUCH_HANDLE, back=True)
        row = self.loads[load]
        root = WRONG_MODE if row.begun_by is None else None if row.node_type == value.node_type else WRONG_KIND
        refuse_first([self.foreign(row, self.me), root, self.cause_of_references(row, value.references)], back=True)
        try:
            handle = self.own(row.begun_by, *ALL_MODES)
            if row.cell.value is None:
                row.cell.value = value
                self.hand_in(row.cell)
            return self.pin_through(handle)
        finally:
            self.close_load(load)

    def load_take(self, load, *numbers):
        row = self.loads.get(load) or self.open(load)
        causes = [self.foreign(row, self.me), *(self.cause(number, row, ALL_MODES) for number in numbers)]
        refuse_first([*causes, NOT_YOURS if len(set(numbers)) < len(numbers) else None, None if row.begun_by is None else WRONG_MODE])
        for number in numbers:
            self.handles[number].owner = CALLER
        self.close_load(load)

    def load_drop(self, load):
        self.open(load)
        self.close_load(load)

    # ---- the other calls

    def birth(self, value, mode):
        refuse_first([self.cause_of_references(CALLER, value.references)], back=True)
        return self.insert_node(Cell(value.node_type, None, value), mode)

    new_loose = partialmethod(birth, mode=LOOSE_PINNED)
    new_pinned = partialmethod(birth, mode=PINNED)
    new_shared = partialmethod(birth, mode=SHARED)

    def new_paged_out(self, node_type, key):
        return self.insert_node(Cell(node_type, key, None), LOOSE_UNPINNED)

    def clone(self, number):
        handle = self.live(number)
        return self.give(handle.cell, handle.mode)

    def pin(self, number):
        handle = self.own(number, *LOOSE)
        return ("needs", handle.cell.key) if handle.cell.value is None else self.pin_through(handle)

    def unpin(self, number):
        handle = self.own(number, *LOOSE)
        if handle.mode == LOOSE_PINNED:
            handle.mode = LOOSE_UNPINNED
            self.settle(handle.cell)

    def release(self, number):
        self.own(number, *ALL_MODES)
        self.fall(number)

    def into_pagable(self, number):
        self.own(number, PINNED).mode = LOOSE_PINNED
        return number

    def set_data_key(self, number, key):
        handle = self.own(number, *ALL_MODES)
        if handle.mode in LOOSE:
            handle.cell.key = key
            self.settle(handle.cell)

    def count(self, number):
        return self.pins(self.live(number).cell)

    def key(self, number):
        key = self.live(number).cell.key
        return "none" if key is None else key

    def is_paged_out(self, number):
        return "yes" if self.live(number).cell.value is None else "no"

    def node_of(self, number):
        return self.live(number).cell.number

    def node_live(self, node):
        return self.cells[node].node_type if node in self.cells else "none"

    def value(self, number):
        handle = self.live(number)
        return None if handle.mode == LOOSE_UNPINNED else handle.cell.value

    def schedule_for_paging(self, number):
        """Once the pager is closed the handle falls."""
        self.own(number, LOOSE_UNPINNED).owner = LIST
        self.list.append(number)
        if self.closed:
            self.fall(self.list.pop())

    def pending(self):
        return len(self.list)

    def take_pending(self, place):
        if place >= len(self.list):
            return "none"
        number = self.list.pop(place)
        self.handles[number].owner = self.me
        return number

    def cache_get(self, kind, key):
        return self.cached(kind, key) or "none"

    def on_arc_deserialized(self, kind, key, number):
        """None, and the node is recorded; or a handle of what the cache has, and then the other falls. Once the pager is closed, the handle itself."""
        refuse_first([self.cause(number, CALLER, modes_of(kind), type_of(kind))])
        if self.closed:
            return number
        if found := self.cached(kind, key):
            self.fall(number)
            return found
        self.cache[kind, key] = self.node_of(number)
        return "none"

    def cache_clear(self):
        self.cache = {}

    def reserve(self, count):
        """There is room for any number."""

    def close(self):
        """Nothing is stored, cached or listed any more. What loads and callers own stays."""
        self.closed, self.blobs, self.cache = True, {}, {}
        while self.list:
            self.fall(self.list.pop(0))

    # ---- the events that are no calls: a load by steps, and page-out by workers on tables

    start, read = load_begin, load_key

    def table(self):
        """By identity the worker that claimed it and what another finds: "waiting", and then a key with its height, or "failed"."""
        self.tables.append({})
        return len(self.tables)

    def worker(self, table, entry=None, item=None):
        need(0 < table <= len(self.tables), NO_SUCH_HANDLE)
        self.workers.append(Worker(self, self.tables[table - 1], entry, item))
        return len(self.workers)

    def item(self, table, *item):
        return self.worker(table, item=item)

    def listed(self, table, place):
        need(0 < table <= len(self.tables) and place < self.pending(), NO_SUCH_HANDLE)
        # A kind is a number of 32 bits.
        need(3 * self.handles[self.list[place]].cell.node_type + 1 < 2**32, WRONG_KIND)
        number = self.worker(table, entry=self.list[place])
        self.handles[self.list.pop(place)].owner = self.workers[-1]
        return number

    def work(self, number):
        need(0 < number <= len(self.workers) and not self.workers[number - 1].is_done, NO_SUCH_HANDLE)
        return self.workers[number - 1].step()

    def step(self, load):
        """How many steps there were, and a handle, a value or a refusal if this one ended the load, as each refusal does. A load that has no type for its
        root makes none."""
        row = self.open(load)
        need(row.node_type is not None, WRONG_MODE)
        row.steps, row.walk = row.steps + 1, row.walk or self.root(load, row)
        try:
            return row.steps, next(row.walk)
        except Refused as refusal:
            if load in self.loads:
                self.close_load(load)
            return row.steps, refusal

    def root(self, load, row):
        """The steps of a load: it fetches its root's blob, reads that, and ends. Each gives None, and the last what ended the load."""
        blob = self.load_fetch(load)
        yield None
        value = yield from RowTypes.read(row.node_type, blob, partial(self.get, load, 1))
        if row.begun_by is None:
            self.load_take(load, *[number for _, number in value.references])
            yield value
        else:
            yield self.load_end(load, value)

    def get(self, load, level, kind, key):
        """The steps for a reference: a lazy one gets its handle, and for another the cache or the storage is asked, and what a blob reads as is adopted
        by one more. A path has at most 128 blobs below the root's."""
        found = self.load_lazy(load, kind, key) if is_lazy(kind) else self.load_fetch(load, kind, key)
        if isinstance(found, Blob):
            need(level <= DEEPEST, TOO_DEEP)
            yield None
            value = yield from RowTypes.read(type_of(kind), found, partial(self.get, load, level + 1))
            found = self.load_adopt(load, kind, key, value)
        yield None
        return found


class Worker:
    """A walk of page-out by steps: an item's, or that of a listed cell by its entry. `walk` makes one step each time that it is asked."""

    def __init__(self, pager, slots, entry=None, item=None):
        self.pager, self.slots, self.entry, self.steps, self.is_done, self.clones, self.waits = pager, slots, entry, 0, False, {}, None
        self.walk = self.task(entry, item)

    def step(self):
        """Makes a step: how many there were, but for those that don't count, its kind, whom it was about, what its call answered, and how the worker
        ended if it did."""
        self.pager.me = self
        kind, identity, told, counts, end = next(self.walk)
        self.pager.me = CALLER
        self.steps, self.is_done = self.steps + counts, end is not None
        words = [self.steps, kind, ":".join(map(str, identity)), told, f"-> {end}" if self.is_done else ""]
        return " ".join(str(word) for word in words if word != "")

    def task(self, entry, item):
        """The steps of an entry or of an item. After one that was refused, or a claim that met a failure, comes one that fails what this worker claimed
        and holds."""
        try:
            if item is None:
                node = self.pager.node_of(entry)
                yield from self.page_out(3 * self.pager.node_live(node) + 1, node, entry, 0)
            else:
                keys, _ = yield from self.children(item[1], 0)
                yield from self.do("store", (), lambda: self.store(item[0], keys), is_last=True)
        except Refused as refusal:
            self.fail()
            yield "fail", (), "", True, "already" if refusal.number == ALREADY_FAILED else f"failed {refusal.number}"

    def do(self, kind, identity, call, counts=True, is_last=False):
        """One step, which makes a call and tells what it answers; what the walk uses of that comes back. A walk answers what its last step gives. Waiting
        and the steps of a load don't count."""
        try:
            result, told = call()
        except Refused as refusal:
            yield kind, identity, f"refused {refusal.number}", counts, None
            raise
        yield kind, identity, told, counts and told != "waiting", f"ok {result}" if is_last else None
        return result

    def children(self, references, place):
        """The keys of references, first to last, and the height above them. A path goes on through those that aren't lazy."""
        keys, height = [], 0
        for kind, node, number in references:
            key, its_height = yield from self.page_out(kind, node, number, 0 if is_lazy(kind) else place + 1)
            keys.append(key)
            height = max(height, 0 if is_lazy(kind) else its_height + 1)
        return keys, height

    def page_out(self, kind, node, number, place):
        """The key and height of a node: known, or by all steps of its identity, which is then this worker's. An entry is released in any case."""
        identity, is_entry, found = (kind, node), number == self.entry, "waiting"
        while found == "waiting":
            found = yield from self.do("claim", identity, lambda: self.look(kind, node, number, place))
        need(found != "failed", ALREADY_FAILED)
        is_mine = found == "claimed"
        if is_mine:
            found = yield from self.claimed(identity, number, place)
        if is_entry or is_mine:
            yield from self.do("release", identity, lambda: (self.give_up(node) or found[0], ""), is_last=is_entry)
        return found

    def claimed(self, identity, number, place):
        """All steps of a claimed identity but the last: key and height."""
        held = yield from self.do("pin", identity, lambda: self.pin(identity, number))
        while isinstance(held, tuple):
            held = yield from self.do("pin", identity, lambda: self.load_on(held), False)
        if number == self.entry:
            self.entry = None
        data, references = yield from self.do("write", identity, lambda: self.write(self.pager.value(held)))
        keys, height = yield from self.children(references, place)
        key = yield from self.do("store", identity, lambda: self.store(data, keys))
        # (a key is set only where the kind is lazy, by the clone that the worker made)
        yield from self.do("set", identity, lambda: (is_lazy(identity[0]) and self.pager.set_data_key(self.clones[identity], key), ""))
        yield from self.do("publish", identity, lambda: (self.slots.update({identity: (self, (key, height))}), f"{key} {height}"))
        return key, height

    def look(self, kind, node, number, place):
        """What a claim finds. The reference is looked at first, then its place on the path, then the slot."""
        at, self.waits = self.pager.handles.get(number), None
        refuse_first([NO_SUCH_HANDLE if at is None or at.cell.number != node else self.pager.cause(number, at.owner, modes_of(kind), type_of(kind))])
        worker, found = self.slots.get((kind, node), (self, "claimed"))
        key, height = found if isinstance(found, tuple) else (None, 0)
        need(place + height <= DEEPEST and not (found == "waiting" and self.waits_for_me(worker)), TOO_DEEP)
        if found == "claimed":
            self.slots[kind, node] = (self, "waiting")
        elif found == "waiting":
            self.waits = (kind, node)
        return found, found if key is None else f"known {key} {height}"

    def waits_for_me(self, worker):
        """Whether a worker is this one, or waits, by way of others that wait, for this one."""
        found = "waiting"
        while worker is not self and found == "waiting":
            worker, found = self.slots.get(worker.waits, (None, None))
        return worker is self and found == "waiting"

    def pin(self, identity, number):
        """A clone of the reference, or of the entry, and of a loose one a pin of the clone, or the begin of its load."""
        own = self.clones[identity] = self.pager.clone(number)
        pinned = self.pager.pin(own) if self.pager.handles[own].mode in LOOSE else own
        if isinstance(pinned, int):
            return pinned, f"held {pinned}"
        begun = self.pager.load_begin(own)
        return begun, f"load {begun[1]}"

    def load_on(self, begun):
        _, end = self.pager.step(begun[1])
        if isinstance(end, Refused):
            raise end
        return (begun, "went") if end is None else (end, f"held {end}")

    def write(self, value):
        data, references = RowTypes.write(value), [(kind, self.pager.node_of(number), number) for kind, number in value.references]
        told = ",".join(":".join(map(str, reference)) for reference in references)
        return (data, references), f"0x{data.hex()}:{told}"

    def store(self, data, keys):
        return (self.pager.store(Blob(data, tuple(keys))),) * 2

    def give_up(self, node=None):
        """What the worker holds of a node, or of all, falls: the cells in their order, which is open."""
        for number in sorted(self.pager.owned(self), key=self.pager.node_of):
            if node in (None, self.pager.node_of(number)):
                self.pager.fall(number)

    def fail(self):
        """An entry whose cell was never pinned goes back to the list's end. A load that the worker began is closed: only its own step can refuse."""
        claimed = [identity for identity, slot in self.slots.items() if slot == (self, "waiting")]
        self.slots.update(dict.fromkeys(claimed, (self, "failed")))
        entry, self.pager.me = self.pager.handles.get(self.entry), CALLER
        if entry:
            entry.owner = CALLER
        self.give_up()
        if entry:
            self.pager.schedule_for_paging(self.entry)
