"""`pagectl` as a plain program over the plain pager, for fuzz.py to compare with it; and drawn scripts."""

import re

from plain_pager import Machine, Refused, Value

LONGEST = 65_536
NAME = r"[0-9A-Za-z]{1,16}"
# A line's form: what it asks, a name, and what stands behind.
FORMS = {
    rf"new ({NAME})(?: (.*))?": "new", rf"(pin|clone) ({NAME}) ({NAME})": "of_two", "pending": "pending", "pageout": "pageout",
    rf"(release|unpin|loose|count|key|out) ({NAME})": "of_one",
}
CALLS = {"unpin": "unpin", "loose": "into_pagable", "count": "count", "key": "key", "out": "is_paged_out"}


class Script:
    """Answers lines, as bytes without their LF."""

    def __init__(self):
        self.pager, self.names = Machine(), {}

    def answer(self, line):
        """The answer to a line, or None to an empty one."""
        if not line:
            return None
        try:
            text = line.decode()
        except UnicodeDecodeError:
            return "bad line"
        for form, verb in FORMS.items() if len(line) <= LONGEST else ():
            if found := re.fullmatch(form, text, re.DOTALL):
                try:
                    return str(getattr(self, verb)(*found.groups()))
                except Refused as refusal:
                    return f"error {refusal.number}"
                except KeyError:
                    return "no name"
                except NameError:
                    return "bad name"
        return "bad line"

    def free(self, name):
        if name in self.names:
            raise NameError

    def new(self, name, text):
        self.free(name)
        self.names[name] = self.pager.new_loose(Value(0, text or ""))
        return "ok"

    def of_two(self, verb, name, new):
        handle = self.names[name]
        self.free(new)
        if verb == "clone":
            self.names[new] = self.pager.clone(handle)
            return "ok"
        self.names[new] = self.pin(handle)
        return self.pager.value(self.names[new]).content

    def pin(self, handle):
        answer = self.pager.pin(handle)
        if isinstance(answer, int):
            return answer
        load = self.pager.start(handle)[1]
        while True:
            end = self.pager.step(load)[1]
            if isinstance(end, Refused):
                raise end
            if end is not None:
                return end

    def of_one(self, verb, name):
        handle = self.names[name]
        if verb == "release":
            del self.names[name]
        answer = getattr(self.pager, CALLS.get(verb, verb))(handle)
        return "ok" if answer is None or verb == "loose" else answer

    def pending(self):
        return self.pager.pending()

    def pageout(self):
        for place in reversed(range(self.pager.pending())):
            if self.pager.handles[self.pager.list[place]].cell.key is not None:
                self.pager.release(self.pager.take_pending(place))
                continue
            worker, answer = self.pager.listed(self.pager.table(), place), ""
            while "->" not in answer:
                answer = self.pager.work(worker)
            if "-> failed" in answer:
                return f"error {answer.rpartition(' ')[2]}"
        return "ok"


def drawn(draw, count):
    """So many lines: mostly such as fit."""
    names, lines = ["a", "b", "c", "d", "Zz9"], []
    texts = [b"", b"x", b"hello world", b"\x00\x09", b"\x00", "\u00e9".encode(), b"a b  c", b"x\r"]
    odd = [
        b"", b"pending\r", b"\xff", b"new", b"new a_b x", b"pin a", b"pin a b c", b"PAGEOUT", b" pending", b"\r", b"clone a a",
        b"x" * 70_000, b"new a " + b"y" * 65_530, b"new a " + b"y" * 65_531, b"count abcdefghijklmnopq",
    ]
    for _ in range(count):
        first, second = (draw.choice(names).encode() for _ in range(2))
        word = draw.choice([b"unpin", b"unpin", b"release", b"loose", b"count", b"key", b"out"])
        likely = [b"new " + first + b" " + draw.choice(texts), b"pin " + first + b" " + second, b"clone " + first + b" " + second]
        likely += [word + b" " + first] * 3 + [b"pageout", b"pending"]
        lines.append(draw.choice(odd) if draw.random() < 0.02 else draw.choice(likely))
    return lines
