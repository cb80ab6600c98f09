#!/usr/bin/env python3
"""Draws machines, values and scripts, runs them against the plain models, and shrinks the first difference to its
smallest input.

    tools/fuzz.py SEED COUNT [WORK]

It builds the program of tools/failures, in a folder of its own or in WORK, and draws COUNT inputs of each sort from
SEED on. It ends at the first difference, with status 1, and prints its smallest input.
"""
import pathlib
import random
import subprocess
import sys
import tempfile

HERE = pathlib.Path(__file__).resolve().parent
sys.dont_write_bytecode = True
sys.path[:0] = [str(HERE / "failures"), str(HERE)]
import plain_script  # noqa: E402
import plain_values  # noqa: E402
from driver import Server  # noqa: E402
from plain_rows import Draw, Rows  # noqa: E402
from run import built  # noqa: E402


def smallest(parts, differs):
    """The parts without those that the difference doesn't need, tried by halves, quarters and so on, down to one
    part."""
    size = max(1, len(parts) // 2)
    while True:
        at, was_cut = 0, False
        while at < len(parts):
            fewer = parts[:at] + parts[at + size:]
            if len(fewer) < len(parts) and differs(fewer):
                parts, was_cut = fewer, True
            else:
                at += size
        if size == 1 and not was_cut:
            return parts
        size = max(1, size // 2)


class Machines:
    """Lists of events, by the plain pager."""

    def __init__(self, server):
        self.server = server

    def draw(self, draw):
        rows = list(Draw(draw.randrange(2**32)).rows(draw.randint(1, 60)))
        events = [event for row in rows[1:] for event in row.split("; ")]
        return [rows[0], *events]

    def differs(self, parts):
        """The answers that differ first, or None. Without its head a list is of another machine."""
        head = parts[0] if parts and parts[0].startswith("machine") else "machine"
        plain = Rows()
        plain.answer(head)
        self.server.ask(head)
        for event in parts:
            if event.startswith("machine"):
                continue
            if event.startswith("look "):
                wanted, found = plain.answer(event), self.server.ask(event)
            else:
                wanted, found = "; ".join(plain.answers(event)), self.server.ask(f"ask 0 {event}").partition(" ")[2]
            if wanted != found:
                return f"`{event}`: `{found}`, and `{wanted}` by the plain pager"
        return None

    def shown(self, parts):
        return "\n".join(parts)


class Values:
    """Bytes of a type, by the plain rules: forms that were drawn, with a few bytes changed, cut or added."""

    def __init__(self, server):
        self.server, self.name = server, ""

    def draw(self, draw):
        self.name = draw.choice(plain_values.TYPES)
        bytes_drawn = [0, 1, 1, 2, 3, 4, 5, 97, 0x7F, 0x80, 0xC3, 0xA9, 0xFF]
        return [draw.choice([*bytes_drawn, draw.randrange(256)]) for _ in range(draw.randint(0, 24))]

    def differs(self, parts):
        data = bytes(parts)
        wanted = plain_values.answer(self.name, data)
        found = self.server.ask(f"small {self.name} {data.hex() or '-'}").removeprefix("free ")
        return None if wanted == found else f"`{self.name}`: `{found}`, and `{wanted}` by the plain rules"

    def shown(self, parts):
        return f"{self.name} read {bytes(parts).hex() or '-'}"


class Scripts:
    """Scripts of `pagectl`, by the plain one."""

    def __init__(self, program):
        self.program = program

    def draw(self, draw):
        return plain_script.drawn(draw, draw.randint(1, 80))

    def differs(self, parts):
        plain = plain_script.Script()
        wanted = [answer for answer in map(plain.answer, parts) if answer is not None]
        done = subprocess.run([self.program, "weigh"], input=b"\n".join(parts), capture_output=True)
        found = done.stdout.decode().removesuffix("\n").split("\n") if done.stdout else []
        if not done.returncode and wanted == found:
            return None
        same = next((place for place, (a, b) in enumerate(zip(wanted, found)) if a != b), min(len(wanted), len(found)))
        told = f"`{found[same:same + 1]}`, and `{wanted[same:same + 1]}` by the plain program"
        return f"answer {same + 1}: {told}; status {done.returncode}"

    def shown(self, parts):
        return b"\n".join(parts).decode(errors="backslashreplace")


def tried(sort, seed):
    """Draws one input, and ends the program where it differs."""
    parts = sort.draw(random.Random(seed))
    if sort.differs(parts):
        parts = smallest(parts, lambda fewer: sort.differs(fewer) is not None)
        sys.exit(f"{sort.shown(parts)}\n{type(sort).__name__}, seed {seed}: {sort.differs(parts)}")


def main(words):
    if len(words) not in (2, 3):
        sys.exit(__doc__)
    seed, count = int(words[0]), int(words[1])
    with tempfile.TemporaryDirectory() as folder:
        program, library = built(pathlib.Path(words[2] if len(words) > 2 else folder).resolve())
        with Server([program], library) as server:
            for sort in (Machines(server), Values(server), Scripts(program)):
                for each in range(seed, seed + count):
                    tried(sort, each)
                print(f"{type(sort).__name__}: {count} drawn, no difference", flush=True)


if __name__ == "__main__":
    main(sys.argv[1:])
