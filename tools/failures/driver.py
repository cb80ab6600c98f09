"""Runs a row while something fails in its middle: what is answered, what is left, and the same row again."""

import contextlib
import re
import subprocess

from naming import Names, Unlike

MEMORY, STORAGE, NUMBERS = 22, 23, 21
# Refused so, they have given up what they were to give up; only a cell wasn't listed.
GIVING = ("unpin", "release", "set_data_key", "load_drop")
# A refusal of these gives the value back.
GIVING_BACK = ("new_pinned", "new_loose", "new_shared", "load_adopt", "load_end")
ENDS = re.compile(r"-> (ok \d+|failed \d+|already)")


class Server:
    """The program that answers lines, with the library that refuses."""

    def __init__(self, words, library, env=(), **more):
        env = {"LD_PRELOAD": str(library), **dict(env)}
        pipes = {"stdin": subprocess.PIPE, "stdout": subprocess.PIPE, "encoding": "utf-8"}
        self.running = subprocess.Popen(words, env=env, **pipes, **more)

    def __enter__(self):
        return self

    def __exit__(self, *_):
        with contextlib.suppress(BrokenPipeError):
            self.running.stdin.close()
        self.running.wait()

    def ask(self, line):
        with contextlib.suppress(BrokenPipeError):
            self.running.stdin.write(line + "\n")
            self.running.stdin.flush()
        answer = self.running.stdout.readline()
        if not answer:
            raise Unlike(f"the program ended at `{line}`")
        return answer.rstrip("\n")


def does_refuse(answer, number, name=""):
    """Whether an answer is this refusal, or a load's step that ended by it: that tells before it which step it was."""
    words = rf"refused \d+ {number}(;|$)" if name == "step" else rf"(refused|failed) {number}\b"
    return re.search(words, answer) is not None


def pending_in(look):
    """How long the list is, by a look."""
    return int(look.split("; ")[0].split()[1])


def nodes_in(look):
    """The node of each live handle, by a look."""
    if look.endswith("; out of step"):
        raise Unlike(f"`{look}`")
    parts = (part.split(" ") for part in look.split("; ")[1:])
    return {int(words[0].rstrip(":")): int(words[1]) for words in parts}


class Run:
    """One run of a row on a new machine, of which one event is disturbed: by a refused request for memory, by
    counters that stand near their end, or, from the start, by a storage that fails once."""

    def __init__(self, server, row, number, tally, storage=None):
        self.server, self.row, self.number, self.tally = server, row, number, tally
        self.names, self.redone, self.is_shifted = Names(), set(), False
        server.ask(f"machine {row.storage if storage is None else storage}".strip())

    def told(self, event, words="ask 0", is_renamed=False):
        """What is answered to an event, in this run's numbers, and whether a request was refused meanwhile."""
        event = event if is_renamed else self.names.event(event)
        met, _, answer = self.server.ask(f"{words} {event}").partition(" ")
        if met not in ("met", "free"):
            raise Unlike(f"`{met} {answer}` to `{event}`")
        self.tally.count(event, answer)
        return met == "met", answer

    def looked(self):
        return self.server.ask(self.row.look())

    def at_once(self, steps):
        """What is wanted of these steps, and what is answered to them as one list, without looks."""
        steps = [step for step in steps if step.name != "look"]
        wanted = "; ".join(step.wanted for step in steps)
        return wanted, self.told("; ".join(step.event for step in steps), is_renamed=True)[1] if steps else ""

    def prefix(self, place):
        """The events before a step, as one list."""
        wanted, answer = self.at_once(self.row.steps[:place])
        if answer != wanted:
            raise Unlike(f"undisturbed: `{answer}` in the place of `{wanted}`")

    def rest(self, place):
        """The steps from this place on: as one list as long as no number differs."""
        if self.names.are_same() and not self.redone and not self.is_shifted:
            wanted, answer = self.at_once(self.row.steps[place:])
            if answer != wanted:
                self.names.compare("", wanted, answer)
            return
        for at in range(place, len(self.row.steps)):
            self.step(at)

    def step(self, at, words="ask 0"):
        """One step and what has to follow it where it is refused: whether a request was refused, and whether it was
        told."""
        step = self.row.steps[at]
        if step.name == "look":
            self.names.compare_looks(step.look, self.looked())
            return False, False
        met, answer = self.told(step.event, words)
        if answer == "nothing done":
            return met, self.again_whole(at)
        if step.name == "work" and self.is_apart(step.event):
            return met, self.worked_apart(at, answer)
        if does_refuse(answer, self.number, step.name) and not does_refuse(step.wanted, self.number, step.name):
            self.refused(at, answer)
            return met, True
        self.names.compare(step.event, step.wanted, answer)
        # (a number near the end may have stayed in use, where numbers were short)
        if self.number != NUMBERS:
            self.list_anew(at)
        return met, False

    def end(self):
        """At the end all stands as without a refusal, but for the numbers."""
        wanted = self.row.steps[-1].look
        if wanted is not None:
            self.names.compare_looks(wanted, self.looked())

    # ---- what follows a refusal

    def refused(self, at, answer):
        """The state is whole, and the same again comes out as it has to."""
        step = self.row.steps[at]
        if step.name == "step":
            return self.load_anew(at)
        if step.name == "work":
            return self.work_anew(at, answer)
        if step.name in GIVING:
            return self.list_anew(at)
        told = f"refused {self.number}" + " 7" * (self.number == STORAGE) + " back" * (step.name in GIVING_BACK)
        if answer != told:
            raise Unlike(f"`{answer}` in the place of `{told}`")
        before = self.row.before(at)
        if before is not None:
            self.names.compare_looks(before, self.looked())
        _, again = self.told(step.event)
        self.names.compare(step.event, step.wanted, again)

    def again_whole(self, at):
        """There was no memory for the replies: nothing was done, and the same list again has its answers."""
        if self.row.before(at) is not None:
            self.names.compare_looks(self.row.before(at), self.looked())
        self.step(at)
        return self.number == MEMORY

    def list_anew(self, at):
        """Cells that couldn't be listed are listed now, each by a clone of a loose handle."""
        step = self.row.steps[at]
        if not step.listed or step.look is None or step.name == "listed":
            return
        wanted, found = nodes_in(step.look), nodes_in(self.looked())
        if 0 in step.listed and len(wanted) != len(found):
            raise Unlike("a cell without a handle of the caller's couldn't be listed")
        for handle in dict.fromkeys(filter(None, step.listed)):
            there = found.get(self.names.number("handle", handle))
            missing = list(wanted.values()).count(wanted[handle]) - list(found.values()).count(there)
            for _ in range(missing):
                self.is_shifted = True
                _, made = self.told(f"clone {handle}")
                self.told(f"schedule_for_paging {made.split()[1]}", is_renamed=True)

    def load_anew(self, at):
        """A load that was refused has left nothing, and is begun anew."""
        number = self.row.steps[at].event.split(" ")[1]
        begun = max(place for place in range(at) if re.match(f"load {number}( |$)", self.row.steps[place].wanted))
        _, answer = self.told(self.row.steps[begun].event)
        if not answer.startswith("load "):
            raise Unlike(f"`{answer}` to the load that is begun anew")
        self.names.moved("load", int(number), int(answer.split()[1]))
        self.tally.anew += 1
        for place in range(begun + 1, at + 1):
            again = self.row.steps[place]
            if again.event.split(" ")[:2] == ["step", number]:
                _, answer = self.told(again.event)
                self.names.compare(again.event, again.wanted, answer)

    # ---- workers

    def works_of(self, worker, at):
        works = (step for step in self.row.steps[: at + 1] if step.name == "work")
        return [step for step in works if step.event.split(" ")[1] == worker]

    def made_at(self, worker):
        """Where a worker was made, if it was."""
        made = [place for place, step in enumerate(self.row.steps) if step.name in ("item", "listed")]
        return next((place for place in made if self.row.steps[place].wanted == f"ok {worker}"), None)

    def is_apart(self, event):
        """Whether a worker's table isn't as in the row any more, since another worker on it was begun anew."""
        made = self.made_at(event.split(" ")[1])
        return made is not None and self.row.steps[made].event.split(" ")[1] in self.redone

    def to_end(self, worker, answer):
        """A worker's answer, up to which it makes its steps."""
        for _ in range(100):
            if found := ENDS.search(answer):
                return found[1]
            _, answer = self.told(f"work {worker} 50")
        raise Unlike("a worker without an end")

    def work_anew(self, at, answer):
        """A worker that was refused fails. Its like on a new table comes to the row's answer."""
        worker = self.row.steps[at].event.split(" ")[1]
        if self.to_end(worker, answer) != f"failed {self.number}":
            raise Unlike(f"`{answer}` of a worker that was refused")
        self.again(worker, at)

    def again(self, worker, at):
        step = self.row.steps[self.made_at(worker)]
        made = step.event
        self.redone.add(made.split(" ")[1])
        self.tally.anew += 1
        _, new = self.told("table")
        name, _, *words = self.names.event(made).split(" ")
        if name == "listed":
            self.entry_back(step, at)
            words = [str(pending_in(self.looked()) - 1)]
        _, begun = self.told(" ".join([name, new.split()[1], *words]), is_renamed=True)
        if not begun.startswith("ok "):
            raise Unlike(f"`{begun}` to the worker that is begun anew")
        self.names.moved("worker", int(worker), int(begun.split()[1]))
        if wanted := ENDS.search(" ".join(step.wanted for step in self.works_of(worker, at))):
            if (ended := self.to_end(worker, "")) != wanted[1]:
                raise Unlike(f"`{ended}` of the worker that is begun anew, in the place of `{wanted[1]}`")
            return
        for step in self.works_of(worker, at):
            self.told(step.event)

    def entry_back(self, made, at):
        """The entry of a listed cell that was paged out stands at the list's end again; but where the cell had a key
        and was pinned already, it is gone, and is listed anew."""
        step = self.row.steps[at]
        # (a worker that failed has listed its cell)
        if pending_in(self.looked()) <= pending_in(step.look) - len(step.listed):
            self.is_shifted = True
            _, clone = self.told(f"clone {made.listed[0]}")
            self.told(f"schedule_for_paging {clone.split()[1]}", is_renamed=True)

    def worked_apart(self, at, answer):
        """Another worker on the table of one that failed: it comes to the row's answer too, where it has to end
        here."""
        worker, wanted = self.row.steps[at].event.split(" ")[1], ENDS.search(self.row.steps[at].wanted)
        if wanted:
            ended = self.to_end(worker, answer)
            if ended != wanted[1]:
                if wanted[1] == "already" and ended.startswith("failed"):
                    return False
                if ended not in ("already", f"failed {self.number}"):
                    raise Unlike(f"`{ended}` in the place of `{wanted[1]}`")
                self.again(worker, at)
        return does_refuse(answer, self.number)
