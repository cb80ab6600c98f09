#!/usr/bin/env python3
"""Rows of events, as the program `rows` reads them: answers them by a plain pager, or draws them from a seed.

    plain_rows.py answers FILE      prints the file, each row that has an answer with that of the plain pager
    plain_rows.py draw SEED COUNT   prints a new machine, COUNT drawn lists of events and a look

A row is one line: a new machine, a look, or calls separated by semicolons. docs/TESTS.md tells its words, of which
`chain` stands in worked rows alone.
"""

import random
import sys
from functools import partial

sys.dont_write_bytecode = True
from plain_pager import CALLER, LOOSE_PINNED, Blob, Machine, Refused, RowTypes, Value, modes_of, type_of


def references(words):
    """References as they are spelled, each by kind, node and handle."""
    return [tuple(map(int, word.split(":"))) for word in words.split(",") if word]


class Rows:
    """Answers rows, over the machine that stands."""

    def __init__(self):
        self.pager = Machine()

    def answer(self, row):
        """The answer to a row, if it has one."""
        name, _, rest = row.partition(" ")
        if name == "machine":
            self.pager = Machine(rest)
            return ""
        if name == "look":
            return self.look(int(rest))
        if name == "last":
            return self.answer(rest).rpartition("; ")[2]
        return "; ".join(answer for call in row.split(";") for answer in self.answers(call.strip()))

    def answered(self, line):
        """A line of a file, with the answer behind it in the place of the one that stands there."""
        asked = line.partition(" ->")[0]
        answer = "" if asked[:1] in ("", "#") else self.answer(asked)
        return f"{asked} -> {answer}" if answer else line

    def answers(self, call):
        """The answer to a call, or to each of so many steps."""
        name, *rest = call.split(" ")
        times = int(rest.pop()) if name in ("step", "work") and len(rest) == 2 else 1
        return [self.call(" ".join([name, *rest])) for _ in range(times)]

    def call(self, call):
        name, _, rest = call.partition(" ")
        try:
            answer = getattr(self.pager, name)(*self.arguments(name, rest))
        except Refused as refusal:
            return refusal.text()
        if name == "step":
            return self.stepped(*answer)
        if isinstance(answer, Blob):
            return "0x" + answer.data.hex()
        if isinstance(answer, tuple):
            return " ".join(map(str, answer))
        return "ok" if answer is None else f"ok {answer}" if isinstance(answer, int) else answer

    def stepped(self, steps, end):
        """A load's step, with what ended the load."""
        if isinstance(end, Refused):
            return f"refused {steps} {end.number}"
        if isinstance(end, Value):
            return f"read {steps} = {self.spelled(end)}"
        return f"more {steps}" if end is None else f"pinned {steps} {end}"

    def arguments(self, name, rest):
        """The numbers of a call, and the value, blob or item that stands last. A text may be empty and may hold spaces."""
        if name in ("store", "item"):
            *numbers, blob = rest.split(" ")
            data, _, behind = blob.partition(":")
            data = bytes.fromhex(data.strip("-"))
            return [int(*numbers), data, references(behind)] if numbers else [Blob(data, tuple(map(int, filter(None, behind.split(",")))))]
        numbers = {"new_loose": 1, "new_pinned": 1, "new_shared": 1, "load_end": 2, "load_adopt": 4}.get(name)
        if numbers is None:
            return list(map(int, rest.split()))
        words = rest.split(" ", numbers) + [""]
        *others, node_type = map(int, words[:numbers])
        return others + [self.value(node_type, words[numbers])]

    def value(self, node_type, content):
        """A text, two bytes in hex, or references as `7:1:2,8:3:4`; before those of lists stand a byte and a stroke, if it isn't 0."""
        if node_type <= RowTypes.NOTE:
            return Value(node_type, content)
        if node_type == RowTypes.BYTES:
            return Value(node_type, bytes.fromhex(content))
        tag, _, words = content.rpartition("/")
        # A handle that isn't of the node that is told counts as none.
        nodes = {number: handle.cell.number for number, handle in self.pager.handles.items()}
        found = [(kind, number if nodes.get(number) == node else 0) for kind, node, number in references(words)]
        return Value(node_type, bytes([int(tag or 0)] * RowTypes.FIRST.get(node_type, 0)), found)

    def spelled(self, value):
        """A value as rows spell it, but for its type."""
        if value.node_type <= RowTypes.NOTE:
            return value.content
        if value.node_type == RowTypes.BYTES:
            return value.content.hex()
        tag = f"{value.content[0]}/" if any(value.content) else ""
        return tag + ",".join(f"{kind}:{self.pager.node_of(number)}:{number}" for kind, number in value.references)

    def look(self, last):
        """How long the list is, and for each live handle up to this number its node, count and key, and what it pins."""
        pager, words = self.pager, [f"pending {self.pager.pending()}"]
        for number in (number for number in range(1, last + 1) if number in pager.handles):
            cell, value = pager.live(number).cell, pager.value(number)
            told = [cell.number, pager.pins(cell), cell.key or 0, "away" if cell.value is None else "here"]
            words.append(f"{number}: {' '.join(map(str, told))}" + ("" if value is None else f" = {self.spelled(value)}"))
        return "; ".join(words)


def number_in(answer):
    """The number that an answer gives, or None where it is a refusal or a word."""
    told, *numbers = answer.split(" ")
    return int(numbers[0]) if told in ("ok", "load") and numbers else None


class Draw(random.Random):
    """Draws lists of events that fit the pager as it stands, mostly: births with references and their page-out by calls, stored blobs that refer
    to others, cells of their keys, loads by steps, between which calls come that evict, release, clear the cache, take what a load got, or end it,
    and workers on tables, which take turns; and some that fit nothing."""

    TEXTS = ["", "x", "al", "lb", "hello world", "\u00e9t\u00e9"]
    # Cut short; not UTF-8; a byte left over; a child key; two blobs with one key; nothing.
    BLOBS = ["0261", "01ff", "017800", "0178:5", "0009", "0a00", "-"]
    STORAGES = ["", "", "", "", "", "", " 0", " 4", " 9", " 11", " 23", " 41", " closed"]
    TYPES = [RowTypes.NAME, RowTypes.NAME, RowTypes.NOTE, *[RowTypes.MIXED] * 3, *range(RowTypes.LINK, RowTypes.END)]
    LISTS = RowTypes.KINDS[RowTypes.MIXED]
    # How many plans are under way at most, how often one begins where there are fewer, and how often a call is of none.
    MOST, BEGINS, ALONE = 4, 0.5, 0.3
    OF_HANDLE = ["clone", "into_pagable", *["pin"] * 2, *["unpin"] * 2, *["release"] * 2, "schedule_for_paging", "count", "key", "is_paged_out", "node_of"]

    def __init__(self, seed):
        super().__init__(seed)
        self.plain, self.plans, self.keys, self.types, self.head = Rows(), [], [1209], {1209: 0}, "machine" + self.choice(self.STORAGES)
        self.plain.answer(self.head)
        self.pager = self.plain.pager

    def rows(self, count):
        """A new machine; lists of one to twelve events each, the first of which stores a text, since a second word `read` would make a row one of
        values; and a look. All are made."""
        yield self.head
        for _ in range(count):
            yield "; ".join([self.make("store 0178")[0], *(self.next() for _ in range(self.randint(1, 12)))])
        yield f"look {self.pager.last_handle + 1}"

    def next(self):
        """The next call of one of the plans that are under way, or a single one. It is made."""
        if len(self.plans) < self.MOST and self.random() < self.BEGINS:
            plan = self.choice(self.PLANS)(self)
            first = next(plan, None)
            self.plans += [] if first is None else [[plan, first]]
        if not self.plans or self.random() < self.ALONE:
            return self.make(self.single())[0]
        plan = self.choice(self.plans)
        call, answer = self.make(plan[1])
        try:
            plan[1] = plan[0].send(answer)
        except StopIteration:
            self.plans.remove(plan)
        return call

    def make(self, event):
        """An event and its answer. Steps are as many as it takes to the end, if these are fewer."""
        name, *words = event.split(" ")
        if name not in ("step", "work") or len(words) < 2:
            answer = self.plain.call(event)
            if name == "store" and number_in(answer):
                self.keys.append(number_in(answer))
            return event, answer
        for steps in range(1, int(words[1]) + 1):
            answer = self.plain.call(f"{name} {words[0]}")
            if "->" in answer or name == "step" and not answer.startswith("more"):
                break
        return f"{name} {words[0]} {steps}", answer

    def kind(self):
        """A kind of references: mostly one that stands in values."""
        return self.choice([*self.LISTS, 10, 12]) if self.random() < 0.7 else self.randrange(3 * RowTypes.END + 1)

    def key(self):
        """Mostly one of the last keys that can be read."""
        keys, chance = list(self.types), self.random()
        return 5 if chance < 0.03 else self.choice(self.keys if chance < 0.1 else keys[-5:] if chance < 0.6 else keys)

    def key_of(self, node_type):
        """Mostly a key that reads as a value of this type."""
        keys = [key for key, found in self.types.items() if found == node_type]
        return self.choice(keys[-3:]) if keys and self.random() < 0.95 else self.key()

    def typed(self):
        """A key and a type, mostly that as which it can be read."""
        key = self.key()
        return key, self.types.get(key, 2) if self.random() < 0.95 else self.choice([0, 2, 3, 300])

    def own(self, owner):
        """The handles of an owner, in some order."""
        handles = self.pager.owned(owner)
        self.shuffle(handles)
        return handles

    def handle(self):
        """A handle: mostly one of the caller's, or any live one; one time out of ten any number that was given, or will be next."""
        chance = self.random()
        own = self.own(CALLER) if chance < 0.8 else list(self.pager.handles)
        return self.choice(own) if own and chance < 0.9 else self.randrange(self.pager.last_handle + 3)

    def reference(self, owner, kinds=range(3 * RowTypes.END)):
        """A handle in one of these kinds: mostly one of the owner's that fits."""
        fitting = [number for number in self.own(owner) if self.kind_of_handle(number) in kinds]
        number = fitting[0] if fitting and self.random() < 0.9 else self.handle()
        handle, kind = self.pager.handles.get(number), self.kind_of_handle(number)
        if kind not in kinds or self.random() < 0.05:
            kind = self.choice(kinds)
        return f"{kind}:{handle.cell.number if handle and self.random() < 0.95 else self.randrange(self.pager.last_node + 2)}:{number}"

    def kind_of_handle(self, number):
        """The kind in which a handle can stand in a value, or None for no handle."""
        handle = self.pager.handles.get(number)
        return handle and 3 * handle.cell.node_type + next(sort for sort in range(3) if handle.mode in modes_of(sort))

    def value(self, owner=CALLER, wanted=None):
        """A value: mostly of the type that is wanted, if one is. References are mostly handles of the owner's, in a kind that fits."""
        node_type = self.choice([wanted] if self.random() < 0.9 and wanted is not None else self.TYPES)
        if node_type >= RowTypes.END:
            node_type = RowTypes.NAME
        return f"{node_type} {self.content(node_type, owner)}".strip()

    def content(self, node_type, owner):
        if node_type <= RowTypes.NOTE:
            return self.choice(self.TEXTS)
        if node_type == RowTypes.BYTES:
            return self.choice(["0009", "0a00", "0178"])
        kinds = RowTypes.KINDS[node_type]
        counts = {RowTypes.MIXED: [0, 1, 1, 2, 3], RowTypes.HOLDER: [1], RowTypes.NAMES: [0, 1, 2]}.get(node_type, [0, 1, 1])
        found = [self.reference(owner, kinds) for _ in range(self.choice(counts))]
        found.sort(key=lambda word: kinds.index(int(word.partition(":")[0])))
        return (self.choice(["", "", "5/"]) if node_type == RowTypes.MIXED else "") + ",".join(found)

    def blob(self, node_type):
        """A value's blob, over keys that are stored, most of them as what they are."""
        if node_type <= RowTypes.NOTE:
            return Blob(RowTypes.write(Value(RowTypes.NAME, self.choice(self.TEXTS))))
        if node_type == RowTypes.BYTES:
            return Blob(bytes([self.randrange(3), self.randrange(11)]))
        kinds = sorted((self.choice(self.LISTS) for _ in range(self.choice([0, 1, 1, 2, 2, 3]))), key=self.LISTS.index)
        if node_type != RowTypes.MIXED:
            kinds = RowTypes.KINDS[node_type] * (1 if node_type == RowTypes.HOLDER else self.choice([0, 1, 1]))
        first = bytes([self.choice([0, 0, 5])] * RowTypes.FIRST.get(node_type, 0))
        data = RowTypes.write(Value(node_type, first, [(kind, 0) for kind in kinds]))
        return Blob(data, tuple(self.key_of(type_of(kind)) for kind in kinds))

    def asking(self, load):
        """A load asks for a reference, or makes a node of one."""
        kind = self.kind()
        asked = f"{load} {kind} {self.key()}"
        value = self.value(self.pager.loads.get(load), type_of(kind))
        return self.choice([f"load_fetch {asked}", f"load_lazy {asked}", f"load_adopt {asked} {value}"])

    def single(self):
        load, key, kind = self.randrange(self.pager.last_load + 2), self.key(), self.kind()
        rare = [f"node_live {self.randrange(self.pager.last_node + 2)}", "pending", f"take_pending {len(self.pager.list)}",
                f"store {self.choice(self.BLOBS)}", f"fetch {key}", f"set_data_key {self.handle()} {key}", "cache_clear", "flush", "reserve 3",
                f"load_fetch {load}", f"load_drop {load}", f"load_end {load} {self.value()}", f"load_take {load} {self.handle()}",
                f"load_begin {self.handle()}", self.asking(load), f"cache_get {kind} {key}", f"on_arc_deserialized {kind} {key} {self.handle()}"]
        if self.random() < 0.01:
            rare = ["close"]
        new = [f"{call} {self.value()}" for call in ("new_loose", "new_pinned", "new_shared")]
        new.append(f"new_paged_out {self.choice([0, 0, 1, 2, 2, 3, 4, 9])} {key}")
        of_handle = f"{self.choice(self.OF_HANDLE)} {self.handle()}"
        return self.choice([self.choice(rare), self.choice(new), self.choice(new), of_handle, of_handle])

    def meddling(self, number, load):
        """A call on a load that goes by steps, or on the handle by which it was begun."""
        begun_by, got = load.begun_by or 1, self.own(load)
        return self.choice([f"load_drop {number}", f"load_fetch {number}", *(self.asking(number) for _ in range(3)), f"release {begun_by}",
                            f"unpin {begun_by}", f"set_data_key {begun_by} {self.key()}", f"release {(got or [1])[0]}",
                            f"load_end {number} {self.value(load, load.node_type)}", " ".join(map(str, ["load_take", number, *got[:2]]))])

    def page_out(self):
        """A listed cell is paged out by calls."""
        if entry := number_in((yield f"take_pending {self.randrange(self.pager.pending() + 1)}")):
            if pinned := number_in((yield f"pin {entry}")):
                if key := number_in((yield f"store {self.choice(['0178', '02616c', '026c62', '00'])}")):
                    yield f"set_data_key {entry} {key}"
                yield f"release {pinned}"
            yield f"release {entry}"

    def load(self, of_key=False):
        """A load of a cell, which gets a value, or of a key, of which some handles are taken."""
        if load := number_in((yield f"load_key {self.key()}" if of_key else f"load_begin {self.handle()}")):
            for _ in range(self.randrange(5 if of_key else 3)):
                yield self.asking(load)
            if of_key:
                yield " ".join(map(str, ["load_take", load, *self.own(self.pager.loads.get(load))[:self.randrange(4)]]))
            else:
                yield f"load_fetch {load}"
                row = self.pager.loads.get(load)
                yield f"load_end {load} {self.value(row, row and row.node_type)}"

    def grow(self):
        """A blob is stored. Few are cut or have a byte left over, and few lack a key."""
        node_type = self.choice(self.TYPES)
        blob = self.blob(node_type)
        if self.random() < 0.04:
            blob = Blob(self.choice([blob.data[:-1], blob.data + b"\x07"]), blob.arcs)
        if self.random() < 0.03:
            blob = Blob(blob.data, blob.arcs[:-1])
        if key := number_in((yield f"store {blob.text()}")):
            self.types[key] = node_type

    def loading(self):
        """A load of a cell that is away, by a loose handle or a new one, or of a key: step by step, up to its end if no other call ends it before."""
        call, away = "read {} {}", []
        if self.choice([True, True, False]):
            call, away = "new_paged_out {1} {0}", [number for number in self.own(CALLER) if self.pager.live(number).cell.value is None]
        begun = yield f"start {away[0]}" if away and self.random() < 0.6 else call.format(*self.typed())
        if begun.startswith("ok"):
            begun = yield f"start {number_in(begun)}"
        load = number_in(begun)
        while row := self.pager.loads.get(load):
            steps = self.choice(["", "", "", " 2", " 3", " 5"])
            yield self.meddling(load, row) if self.random() < 0.1 else f"step {load}{steps}"

    def settling(self):
        """A cell that the caller pins is stored by calls with all below it, gets its key, and loses its pins."""
        if loose := [number for number in self.own(CALLER) if self.pager.handles[number].mode == LOOSE_PINNED]:
            key = yield from self.stored(self.pager.handles[loose[0]], 4)
            if key is not None:
                yield f"set_data_key {loose[0]} {key}"
            for number in self.own(CALLER):
                handle = self.pager.handles.get(number)
                if handle and handle.cell is self.pager.handles.get(loose[0], handle).cell:
                    yield f"{'unpin' if handle.mode == LOOSE_PINNED else 'release'} {number}"

    def stored(self, handle, levels):
        """Stores what a handle's node holds over its children's keys: the key, or None where it is gone, too deep or refused."""
        value = handle.cell.value
        if value is None or levels == 0 or value.node_type == RowTypes.NOTE:
            return handle.cell.key
        keys = []
        for _, number in value.references:
            child = self.pager.handles.get(number)
            keys.append(child and (yield from self.stored(child, levels - 1)))
        if None in keys:
            return None
        if key := number_in((yield f"store {Blob(RowTypes.write(value), tuple(keys)).text()}")):
            self.types[key] = value.node_type
        return key

    def listing(self):
        """A new cell, mostly of references, is unpinned."""
        if born := number_in((yield f"new_loose {self.value()}")):
            yield f"unpin {born}"

    def working(self):
        """A worker on a new table or on one that is there, up to its answer, if it doesn't wait for ever."""
        if not self.pager.tables or self.random() < 0.3:
            yield "table"
        table, pending = max(1, len(self.pager.tables) - self.choice([0, 0, 0, 1])), self.pager.pending()
        references = ",".join(self.reference(CALLER) for _ in range(self.choice([0, 1, 1, 2, 3])))
        item = f"item {table} {self.choice(['-', '2a', '0100', '07'])}:{references}"
        made = yield f"listed {table} {self.randrange(pending + 1)}" if pending and self.random() < 0.6 else item
        number, waited, answer = number_in(made), 0, ""
        while number and "->" not in answer and waited < 12:
            answer = yield f"work {number} {self.choice([1, 1, 2, 3, 5, 8])}"
            waited += answer.endswith("waiting")

    PLANS = [page_out, *[load] * 2, *[partial(load, of_key=True)] * 2, *[grow] * 2, *[loading] * 3, settling, *[listing] * 2, *[working] * 3]


def main(words):
    if len(words) == 2 and words[0] == "answers":
        rows = Rows()
        with open(words[1], encoding="utf-8") as lines:
            print("\n".join(rows.answered(line) for line in lines.read().splitlines()))
    elif len(words) == 3 and words[0] == "draw":
        print("# rows: 0", *Draw(int(words[1])).rows(int(words[2])), sep="\n")
    else:
        sys.exit(__doc__)


if __name__ == "__main__":
    main(sys.argv[1:])
