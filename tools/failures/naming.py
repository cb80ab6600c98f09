"""Answers and looks up to the numbers in them: a disturbed run gives other numbers to what it makes later."""

import re

HANDLE_GIVEN = (
    "new_loose new_pinned new_shared new_paged_out clone pin into_pagable take_pending load_end cache_get"
    " on_arc_deserialized load_adopt load_lazy load_fetch"
).split()
# What the second word of an answer `ok N` counts, by the call.
GIVEN = {
    "node_of": "node", "table": "table", "item": "worker", "listed": "worker", **dict.fromkeys(HANDLE_GIVEN, "handle"),
}
# Which of a call's words are numbers, by the call: the rest is plain.
OF_HANDLE = (
    "clone pin unpin release into_pagable schedule_for_paging load_begin count key is_paged_out node_of set_data_key"
    " start"
)
OF_LOAD = "load_fetch load_lazy load_adopt load_end load_drop step"
TAKEN = {
    "node_live": "n", "load_take": "lhhhhhhhh", "item": "t", "listed": "t", "work": "w", "on_arc_deserialized": "--h",
    **dict.fromkeys(OF_HANDLE.split(), "h"), **dict.fromkeys(OF_LOAD.split(), "l"),
}
SORTS = {"h": "handle", "n": "node", "l": "load", "t": "table", "w": "worker"}
REFERENCE = re.compile(r"\b(\d+):(?P<node>\d+):(?P<handle>\d+)\b")
# The numbers in an answer, and those in what a look tells of a handle.
IN_ANSWER = (
    re.compile(r"\bload (?P<load>\d+)"),
    re.compile(r"\bheld (?P<handle>\d+)"),
    re.compile(r"\bpinned \d+ (?P<handle>\d+)"),
    re.compile(r"(claim|pin|write|store|set|publish|release) \d+:(?P<node>\d+)(?![:\d])"),
    REFERENCE,
)
IN_LOOK = (re.compile(r"^(?P<handle>\d+): (?P<node>\d+)"), REFERENCE)


class Unlike(Exception):
    """An answer that is another one."""


class Names:
    """Which number of the disturbed run stands for which of the other, for each sort of numbers."""

    def __init__(self):
        self.there = {sort: {} for sort in SORTS.values()}
        self.back = {sort: {} for sort in SORTS.values()}

    def meet(self, sort, wanted, found):
        """Two numbers are the same thing from now on, if neither is another one already."""
        if self.there[sort].setdefault(wanted, found) != found or self.back[sort].setdefault(found, wanted) != wanted:
            raise Unlike(f"{sort} {found} in the place of {self.there[sort][wanted]}")

    def moved(self, sort, wanted, found):
        """Another number stands for this one from now on, as for a load that was begun anew."""
        self.back[sort].pop(self.there[sort].pop(wanted, None), None)
        self.meet(sort, wanted, found)

    def are_same(self):
        return all(wanted == found for names in self.there.values() for wanted, found in names.items())

    def number(self, sort, wanted):
        return self.there[sort].get(wanted, wanted)

    def event(self, event):
        """An event in the numbers of the disturbed run."""
        name, *words = event.split(" ")
        for place, sort in enumerate(TAKEN.get(name, "")[: len(words)]):
            if sort != "-" and words[place].isdigit():
                words[place] = str(self.number(SORTS[sort], int(words[place])))
        if name == "item":
            data, _, references = words[1].partition(":")
            return f"item {words[0]} {data}:{REFERENCE.sub(self.reference, references)}"
        return REFERENCE.sub(self.reference, " ".join([name, *words]))

    def reference(self, match):
        kind, node, handle = match.groups()
        return f"{kind}:{self.number('node', int(node))}:{self.number('handle', int(handle))}"

    def compare(self, event, wanted, found):
        """An answer has to be the wanted one but for its numbers."""
        self.same_marks(marks(event, wanted), marks(event, found), wanted, found)

    def same_marks(self, wanted_marks, found_marks, wanted, found):
        (plain, numbers), (other, others) = wanted_marks, found_marks
        if plain != other or len(numbers) != len(others):
            raise Unlike(f"`{found}` in the place of `{wanted}`")
        for (sort, number), (_, given) in zip(numbers, others):
            self.meet(sort, number, given)

    def compare_looks(self, wanted, found):
        """A look has to be the wanted one but for its numbers, and for the order of what the list owns: handles that
        are known stand for each other, and the others where they are of one node."""
        (pending, *parts), (length, *others) = wanted.split("; "), found.split("; ")
        if pending != length or len(parts) != len(others):
            raise Unlike(f"`{found}` in the place of `{wanted}`")
        for part in sorted(parts, key=lambda part: handle_in(part) not in self.there["handle"]):
            other = next((other for other in others if self.may_be(part, other)), None)
            if other is None:
                raise Unlike(f"nothing stands for `{part}` in `{found}`")
            others.remove(other)
            self.same_marks(without_numbers(part, IN_LOOK), without_numbers(other, IN_LOOK), part, other)

    def may_be(self, part, other):
        """Whether what a look tells of one handle may be what it tells of another."""
        (plain, numbers), (found, others) = without_numbers(part, IN_LOOK), without_numbers(other, IN_LOOK)
        pairs = [(sort, number, given) for (sort, number), (_, given) in zip(numbers, others)]
        there = all(self.there[sort].get(number, given) == given for sort, number, given in pairs)
        back = all(self.back[sort].get(given, number) == number for sort, number, given in pairs)
        return plain == found and there and back


def handle_in(part):
    """The handle of which a part of a look tells."""
    return int(part.partition(":")[0])


def without_numbers(text, patterns):
    """A text without the numbers that these patterns find, and these with their sorts, in order."""
    numbers = []

    def without(match):
        kept, end = "", match.start()
        for sort, number in match.groupdict().items():
            numbers.append((sort, int(number)))
            kept += text[end:match.start(sort)] + "#"
            end = match.end(sort)
        return kept + text[end:match.end()]

    for pattern in patterns:
        text = pattern.sub(without, text)
    return text, numbers


def marks(event, answer):
    """An answer without its numbers, and these."""
    given = GIVEN.get(event.split(" ")[0])
    own = [re.compile(rf"^ok (?P<{given}>\d+)$")] if given else []
    return without_numbers(answer, [*own, *IN_ANSWER])
