"""Scripts of `pagectl` while a request for memory is refused, a reading or a writing fails, or a line is malformed."""

import contextlib
import functools
import struct
import subprocess
import tempfile

from driver import Server
from naming import Unlike
from sweeps import MOST, in_turn

# Lines and their answers; behind a `!` the name of a loose handle of the cell that the line may leave unlisted.
LINES = """
new a hello world -> ok
unpin a -> ok ! a
pending -> 1
key a -> none
out a -> no
pageout -> ok
pending -> 0
key a -> 16879
out a -> yes
pin a b -> hello world
count a -> 2
clone b c -> ok
count a -> 3
loose c -> ok
release b -> ok
unpin c -> ok
count c -> 1
release a -> ok
out c -> yes
new d x -> ok
unpin d -> ok ! d
pin d e -> x
release e -> ok
unpin d -> ok ! d
pending -> 2
pageout -> ok
pending -> 0
key d -> 1209
release d -> ok
count d -> no name
"""


def script_lines():
    """The lines, each with its answer and that handle's name, if it has one."""
    for line in LINES.strip().splitlines():
        line, _, loose = line.partition(" ! ")
        yield (*line.split(" -> "), loose)


SCRIPT = list(script_lines())


class Counts:
    """A file in which the library counts: requests, refused ones, readings and writings."""

    def __init__(self):
        self.file = tempfile.NamedTemporaryFile()
        self.file.write(bytes(32))
        self.file.flush()

    def told(self):
        self.file.seek(0)
        return struct.unpack("4Q", self.file.read())


def answered(program, library, script, **env):
    """What a program answers to a script, with which status, and how many requests, refused ones, readings and writings
    there were."""
    counts = Counts()
    env = {"LD_PRELOAD": library, "COUNTS": counts.file.name, **env}
    env = {name: str(value) for name, value in env.items()}
    done = subprocess.run([program, "weigh"], input=script, capture_output=True, env=env)
    return done.stdout, done.returncode, counts.told()


def each_request(program, library, tally):
    """Refuses each request in turn: the line's answer is `error 22`, or the program ends with 1; the same line again
    has its answer."""
    is_met = functools.partial(one_request, program, library, tally)
    in_turn(tally, "pagectl", "the script", "requests", range(1, MOST), is_met)


def one_request(program, library, tally, place):
    counts = Counts()
    server = Server([program, "weigh"], library, env={"REFUSE_AT": str(place), "COUNTS": counts.file.name})
    is_open = all(line_again(server, tally, *step) for step in SCRIPT)
    with contextlib.suppress(BrokenPipeError):
        server.running.stdin.close()
    rest, status, refused = server.running.stdout.read(), server.running.wait(), counts.told()[1]
    if rest or status != (0 if is_open else 1) or (not is_open and not refused):
        raise Unlike(f"status {status}, and `{rest}` behind")
    tally.refusals["pagectl-buffers", 22] += not is_open
    return refused > 0


def line_again(server, tally, line, wanted, loose):
    """A line, and the same again where it is refused; whether the program goes on."""
    try:
        answer = server.ask(line)
    except (Unlike, BrokenPipeError):
        return False
    if answer != wanted:
        if answer != "error 22":
            raise Unlike(f"`{answer}` to `{line}`")
        tally.refusals["pagectl-" + line.partition(" ")[0], 22] += 1
        if not line.startswith(("unpin", "release")):
            answer = server.ask(line)
            if answer != wanted:
                raise Unlike(f"`{answer}` to `{line}` again")
        elif loose:
            for again in (f"pin {loose} zz", "release zz", f"unpin {loose}"):
                server.ask(again)
    return True


def each_reading_and_writing(program, library, tally):
    """Fails each reading and each writing in turn: status 1, and nothing is printed behind."""
    script = "".join(line + "\n" for line, _, _ in SCRIPT).encode()
    whole, status, (_, _, reads, writes) = answered(program, library, script, SHORT_READ=7, SHORT_WRITE=3)
    wanted = "".join(answer + "\n" for _, answer, _ in SCRIPT).encode()
    if (whole, status) != (wanted, 0):
        tally.fault("pagectl, short readings and writings", f"status {status}")
    for name, calls in (("READ", reads), ("WRITE", writes)):
        for place in range(1, calls + 1):
            env = {"FAIL_" + name: place, "SHORT_READ": 7, "SHORT_WRITE": 3}
            out, status, counts = answered(program, library, script, **env)
            lines = script[: 7 * (place - 1)].count(b"\n")
            front = b"".join(answer.encode() + b"\n" for _, answer, _ in SCRIPT[:lines])
            is_right = out == front if name == "READ" else whole.startswith(out) and counts[3] == place
            if status != 1 or not is_right:
                tally.fault(f"pagectl, {name.lower()} {place}", f"status {status}, `{out[-40:]}` at the end")
            tally.places["pagectl", name.lower() + "s"] += 1


LONG = b"x" * 10_000_000
BAD = b"bad line"
HOSTILE = [
    (b"new a \x00", b"ok"), (b"pin a b", b"\x00"), (b"pending\r", BAD), (b"new c x\r", b"ok"), (b"pin c d", b"x\r"),
    (b"\r", BAD), (b"\xff", BAD), (b"new e \xc3", BAD), (b"new e " + LONG, BAD), (LONG, BAD), (b"\x00", BAD),
    (b"", None), (b"count a", b"2"), (b"pageout " + LONG, BAD),
]


def hostile(program, library, tally):
    """Lines that are no lines, the last without an LF, with each request above a MiB refused."""
    script = b"\n".join(line for line, _ in HOSTILE)
    out, status, (_, refused, *_) = answered(program, library, script, REFUSE_ABOVE=1 << 20)
    if (out, status, refused) != (b"".join(answer + b"\n" for _, answer in HOSTILE if answer), 0, 0):
        tally.fault("pagectl, lines that are no lines", f"status {status}, {refused} large requests, `{out[:200]}`")
    tally.places["pagectl", "hostile lines"] += len(HOSTILE)


WRONG_WORDS = [["weigh", "more"], ["weight"], ["-h"], [""], ["weigh", ""], [b"\xff"], [b"weigh", b"\xff"]]
USAGE = (b"", b"usage: pagectl weigh|sha256\n", 2)


def wrong_words(program, tally):
    """Command lines that are none: the usage on standard error alone, and the status 2."""
    for words in WRONG_WORDS:
        done = subprocess.run([program, *words], input=b"pending\n", capture_output=True)
        if (done.stdout, done.stderr, done.returncode) != USAGE:
            told = f"status {done.returncode}, `{done.stdout[:200]}`, `{done.stderr[:200]}`"
            tally.fault(f"pagectl, a call with {words}", told)
    tally.places["pagectl", "wrong command lines"] += len(WRONG_WORDS)
