"""Refuses every request for memory of a row in turn, fails every call of its storage in turn, and lets its numbers run
out."""

import functools
import re
from collections import Counter

from driver import GIVING, MEMORY, NUMBERS, STORAGE, Run
from naming import Unlike

# More places than any step has.
MOST = 5000


class Tally:
    """How often each refusal came of each call; how many places were tried of each row; how many loads and workers
    were begun anew; what was refused without being told."""

    def __init__(self):
        self.refusals, self.places, self.anew, self.untold, self.faults = Counter(), Counter(), 0, Counter(), []

    def count(self, event, answer):
        """Counts what is refused in the answer to one event."""
        name = event.partition(" ")[0]
        if ";" in event:
            return
        for part in answer.split("; "):
            if part == "nothing done":
                self.refusals["run", MEMORY] += 1
            elif found := re.match(r"(?:\d+ )?(claim|pin|write|store|set)\b.* refused (\d+)", part):
                self.refusals["work-" + found[1], int(found[2])] += 1
            elif found := re.match(r"refused (?:\d+ )?(\d+)$" if name == "step" else r"refused (\d+)", part):
                self.refusals[name, int(found[1])] += 1

    def fault(self, where, why):
        self.faults.append(f"{where}: {why}")
        print(f"FAULT {where}: {why}", flush=True)


def singly(server, row, tally):
    """The row without a refusal, event by event."""
    run = Run(server, row, 0, tally)
    for at in range(len(row.steps)):
        run.step(at)
    run.end()


def in_turn(tally, name, event, sort, words, is_met):
    """Disturbs an event of a row in each of these ways in turn, as long as something is refused."""
    for word in words:
        try:
            if not is_met(word):
                return
            tally.places[name, sort] += 1
        except Unlike as why:
            tally.fault(f"{name}, `{event}`, {word}", why)
            return


def short_of(name, first=0, stride=1):
    """The ways in which no number of one sort is left to a call, then one, and so on: those of each sort."""
    for word in ("{},-,-,-", "-,0,-,-", "-,-,{},-", "-,-,-,{}"):
        # A number near the end that stays in use would stand before those that come once the counters are back.
        is_single = "{" not in word or name in GIVING
        yield map(word.format, range(first, first + 1 if is_single else MOST, stride))


def tried(server, row, number, tally, at, words):
    """One place of a row, at this step: whether a request was refused there, or a refusal told."""
    run = Run(server, row, number, tally)
    run.prefix(at)
    met, is_told = run.step(at, words)
    if met or is_told:
        run.rest(at + 1)
        run.end()
    if met and not is_told:
        tally.untold[row.steps[at].name] += 1
    return met or is_told


def each_request(server, row, tally):
    """Refuses each request of each step in turn, and then each with all that follow it in that step."""
    stride = row.stride()
    for at, step in row.events():
        is_met = functools.partial(tried, server, row, MEMORY, tally, at)
        for sort, sign in (("requests", ""), ("requests and all after", "-")):
            words = (f"ask {sign}{place}" for place in range(at % stride + 1, MOST, stride))
            in_turn(tally, row.name, step.event, sort, words, is_met)


def each_number(server, row, tally):
    """Leaves no number, then one, and so on, of each sort, at each step."""
    stride = row.stride()
    for at, step in row.events():
        is_met = functools.partial(tried, server, row, NUMBERS, tally, at)
        for lefts in short_of(step.name, at % stride, stride):
            in_turn(tally, row.name, step.event, "numbers", (f"short {left}" for left in lefts), is_met)


def each_call(server, row, tally):
    """Fails each call of the row's storage in turn."""
    for call in range(0, row.calls, row.stride()):
        try:
            run = Run(server, row, STORAGE, tally, f"{row.storage} {call}".strip())
            told = [run.step(at)[1] for at in range(len(row.steps))]
            run.end()
            if told.count(True) != 1:
                tally.fault(f"{row.name}, call {call + 1} of the storage", "its failure isn't told once")
            tally.places[row.name, "calls"] += 1
        except Unlike as why:
            tally.fault(f"{row.name}, call {call + 1} of the storage", why)
