"""Rows of calls on a storage that threads share, while a request for memory or a call of the storage fails."""

import functools
import re

from driver import GIVING, MEMORY, NUMBERS, STORAGE, does_refuse, pending_in
from naming import Unlike
from sweeps import MOST, in_turn, short_of

NAME = re.compile(r"\$(\w+)")
# These may do a part before they are refused: keys are set, entries are worked off.
PARTLY = ("page_out_pending", "page_out_item", "page_out_all")
# These are counted by a name of their own, since a pager's call of the name does something else.
SHARED = {"pin": "pin_shared", "read": "read_shared"}


def rows_in(file):
    """The rows of a file: names with calls, the handles by which a cell is listed, and answers."""
    rows = []
    for line in file.read_text(encoding="utf-8").splitlines():
        if line.startswith("= "):
            rows.append((line[2:], []))
        elif line and not line.startswith("#"):
            call, _, wanted = line.partition(" -> ")
            call, _, loose = call.partition(" ! ")
            rows[-1][1].append((call, loose, wanted))
    return rows


class SharedRun:
    """One run of such a row on a new storage."""

    # how rows of this sort are called, and the words to the program for a new storage, a call and a look
    SORT, OVER, CALL, PEEK = "shared", "over", "lock", "peek"

    def __init__(self, server, tally, number, storage=""):
        self.server, self.tally, self.number, self.names = server, tally, number, {}
        server.ask(f"{self.OVER} {storage}".strip())

    def ask(self, call, place=0):
        call = NAME.sub(lambda m: self.names[m[1]], call)
        met, _, answer = self.server.ask(f"{self.CALL} {place} {call}").partition(" ")
        self.tally.count(self.counted_as(call.partition(" ")[0]), answer)
        return met == "met", answer

    def counted_as(self, name):
        """The name under which a call's refusals are counted."""
        return SHARED.get(name, name)

    def compare(self, call, wanted, answer):
        """Names what is answered where it has no name yet, and else compares."""
        pattern, new = "", []
        for place, part in enumerate(NAME.split(wanted)):
            if place % 2 == 0:
                pattern += re.escape(part)
            elif part in self.names:
                pattern += re.escape(self.names[part])
            elif part in new:
                pattern += f"(?P={part})"
            else:
                new.append(part)
                pattern += f"(?P<{part}>\\d+)"
        found = re.fullmatch(pattern, answer)
        if not found:
            raise Unlike(f"`{answer}` to `{call}` in the place of `{wanted}`")
        self.names.update(found.groupdict())

    def peek(self):
        return self.server.ask(self.PEEK)

    def step(self, call, loose, wanted, place=0):
        """A call, and what has to follow it where it is refused: whether a request was refused, and whether it was
        told."""
        before = self.peek() if place else None
        met, answer = self.ask(call, place)
        name = call.partition(" ")[0]
        if name == "page_out_all" and (met or does_refuse(answer, self.number)):
            return met, self.all_again(call, wanted, answer)
        if not does_refuse(answer, self.number) or does_refuse(wanted, self.number):
            self.compare(call, wanted, answer)
            self.list_anew(loose, met)
            return met, False
        if name in GIVING:
            self.list_anew(loose, True)
            return met, True
        if before is not None and name not in PARTLY and self.peek() != before:
            raise Unlike(f"`{self.peek()}` after the refused `{call}`, and `{before}` before it")
        if name in PARTLY and self.number == NUMBERS:
            self.list_unlisted(loose.split())
        self.compare(call, wanted, self.ask(call)[1])
        return met, True

    def list_anew(self, loose, is_asked):
        """A cell that couldn't be listed is listed now."""
        if not loose or not is_asked or pending_in(self.peek()) == self.pending_wanted:
            return
        self.list_by(loose)

    def list_unlisted(self, handles):
        """Lists the cells of these loose handles that have neither a pin nor a key: a page-out that had pinned them
        found no number by which to list them again."""
        for handle in handles:
            if f"; {self.names[handle[1:]]}: 0 0 here" in self.peek():
                self.list_by(handle)

    def list_by(self, loose):
        """Lists the cell of this loose handle."""
        _, made = self.ask(f"clone {loose}")
        self.ask(f"schedule_for_paging {made.split()[1]}")

    pending_wanted = -1

    def all_again(self, call, wanted, answer):
        """Several workers of whom one was refused memory: each item has its key or a refusal, and the same again has
        the keys."""
        keys = wanted.split("; ")[1:]
        if answer != f"refused {self.number}":
            for key, found in zip(keys, answer.split("; ")[1:], strict=True):
                if found != key and found != "already" and not found.startswith(f"refused {self.number}"):
                    raise Unlike(f"`{found}` of an item whose key is `{key}`")
        self.compare(call, wanted, self.ask(call)[1])
        return str(self.number) in answer


def whole(server, tally, row, run_of):
    """A row without a refusal: how the list's length and each live handle stand after each call."""
    run, after = run_of(server, tally, 0), []
    for step in row[1]:
        run.step(*step)
        after.append(run.peek())
    return after


def disturbed(server, tally, row, after, at, run_of, number, place):
    """A row of which one call has a request refused, or too few numbers: whether it was refused."""
    run = run_of(server, tally, number)
    for step in row[1][:at]:
        run.step(*step)
    run.pending_wanted = pending_in(after[at])
    met, is_told = run.step(*row[1][at], place)
    if not met and not is_told:
        return False
    if not is_told:
        tally.untold[row[1][at][0].partition(" ")[0]] += 1
    for step in row[1][at + 1:]:
        run.step(*step)
    stands(run, after)
    return True


def stands(run, after):
    """At the end all stands as without a refusal, but for the numbers of handles."""
    wanted, found = (re.sub(r"; \d+:", ";", peek) for peek in (after[-1], run.peek()))
    if sorted(wanted.split("; ")) != sorted(found.split("; ")):
        raise Unlike(f"`{found}` at the end, and `{wanted}` without a refusal")


def each_request(server, tally, row, after, run_of):
    """Refuses each request of each call in turn."""
    for at, (call, _, _) in enumerate(row[1]):
        is_met = functools.partial(disturbed, server, tally, row, after, at, run_of, MEMORY)
        in_turn(tally, f"{run_of.SORT}, {row[0]}", call, "requests", range(1, MOST), is_met)


def each_call(server, tally, row, after, run_of):
    """Fails each call of the storage in turn, until none is left."""
    name = f"{run_of.SORT}, {row[0]}"
    for call in range(1000):
        try:
            run = run_of(server, tally, STORAGE, call)
            told = [run.step(*step)[1] for step in row[1]]
            stands(run, after)
        except Unlike as why:
            tally.fault(f"{name}, call {call + 1} of the storage", why)
            return
        if not any(told):
            return
        tally.places[name, "calls"] += 1


def each_number(server, tally, row, after, run_of):
    """Leaves no number, then one, and so on, of each sort, at each call."""
    for at, (call, _, _) in enumerate(row[1]):
        is_met = functools.partial(disturbed, server, tally, row, after, at, run_of, NUMBERS)
        for words in short_of(call.partition(" ")[0]):
            in_turn(tally, f"{run_of.SORT}, {row[0]}", call, "numbers", words, is_met)
