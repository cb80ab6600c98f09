"""Cuts the power: replays what the program asked of the system, to each moment, with each write that wasn't synced
lost, kept or torn, and looks at what such a cut leaves.

The calls come from strace. What counts as durable is what POSIX promises alone: a file's bytes from its own sync on, a
name from the sync of its folder on. Before that each write may be lost, kept whole, or kept in part, and of the changes
of names the first few may be kept.
"""
import pathlib
import re
import subprocess

from asking import DRAWN, chain, key_of, removed, run
from plain_file import PlainFile, Refused

CALLS = ("openat", "open", "creat", "close", "fcntl", "dup", "dup2", "dup3", "write", "pwrite64", "writev", "pwritev",
         "pwritev2", "ftruncate", "truncate", "fallocate", "fsync", "fdatasync", "sync_file_range", "rename",
         "renameat", "renameat2", "link", "linkat", "unlink", "unlinkat", "copy_file_range", "sendfile")
LINE = re.compile(r"(?:\d+ +)?(\w+)\((.*)\) += (-?\d+)")
TEXT = re.compile(r'"((?:\\x[0-9a-f]{2})*)"')
NUMBER = re.compile(r"^(-?\d+)<")


class Odd(Exception):
    """The trace has a call that the replay doesn't know."""


def texts_of(words):
    """The texts among the words of a call."""
    return [bytes.fromhex(text.replace("\\x", "")) for text in TEXT.findall(words)]


class Trace:
    """The events of a run, in order: writes and syncs of files, changes of names, and what was answered."""

    def __init__(self, folder):
        self.folder, self.open, self.names, self.events, self.count = folder, {}, {}, [], 0

    def is_inside(self, path):
        """Whether a path is the folder or in it."""
        return path == self.folder or path.startswith(self.folder + "/")

    def read(self, text):
        """Reads what strace wrote of one more run."""
        self.open = {}
        for line in text.splitlines():
            found = LINE.match(line)
            if found:
                self.call(found[1], found[2], int(found[3]))
            elif "unfinished" in line or "resumed" in line:
                raise Odd(line[:200])
        return self

    def call(self, name, words, answer):
        """Notes one call."""
        if answer < 0:
            return
        handle = NUMBER.match(words)
        handle = int(handle[1]) if handle else None
        if name in ("openat", "open", "creat"):
            self.opened(texts_of(words)[0].decode(), words, answer)
        elif name == "close":
            self.open.pop(handle, None)
        elif name in ("fcntl", "dup", "dup2", "dup3"):
            if handle in self.open and (name != "fcntl" or "F_DUPFD" in words):
                self.open[answer] = self.open[handle]
        elif name in ("rename", "renameat", "renameat2"):
            self.renamed(*[text.decode() for text in texts_of(words)])
        elif name in ("unlink", "unlinkat"):
            self.removed(texts_of(words)[0].decode())
        elif handle is not None:
            self.touched(name, handle, words, answer)

    def opened(self, path, words, handle):
        """Notes that a file or a folder was opened, and whether it was made."""
        if not self.is_inside(path):
            return
        if "O_DIRECTORY" in words or pathlib.Path(path).is_dir() and path not in self.names:
            self.open[handle] = ("folder", path)
            return
        if "O_TRUNC" in words:
            raise Odd(words[:200])
        if path not in self.names:
            self.count += 1
            self.names[path] = self.count
            self.events.append(("make", path, self.count))
        self.open[handle] = ("file", self.names[path])

    def renamed(self, old, new):
        """Notes that a file took another name."""
        if self.is_inside(old):
            self.names[new] = self.names.pop(old)
            self.events.append(("rename", old, new))

    def removed(self, path):
        """Notes that a name was taken away."""
        if self.is_inside(path):
            self.names.pop(path, None)
            self.events.append(("remove", path))

    def touched(self, name, handle, words, answer):
        """Notes a write to a file, a sync, or an answer."""
        kind, what = self.open.get(handle, ("answer" if handle == 1 else None, None))
        if kind is None:
            return
        if kind == "answer" and name == "write":
            self.events.append(("answer", texts_of(words)[0].decode()))
        elif kind == "answer":
            raise Odd(f"{name}({words[:200]}")
        elif name in ("fsync", "fdatasync"):
            self.events.append(("sync", kind, what))
        elif name == "pwrite64" and kind == "file":
            data, place = texts_of(words)[0][:answer], int(words.rsplit(", ", 1)[1])
            self.events.append(("write", what, place, data))
        elif name == "ftruncate" and kind == "file":
            self.events.append(("cut", what, int(words.rsplit(", ", 1)[1])))
        else:
            raise Odd(f"{name}({words[:200]}")


def traced(program, folder, words, text):
    """The events of a run of the program."""
    log = folder.parent / "trace"
    calls = ["strace", "-f", "-y", "-xx", "-s", "100000000", "-e", f"trace={','.join(CALLS)}", "-e", "signal=none",
             "-o", log, program, *words]
    done = subprocess.run([*map(str, calls)], input=text, capture_output=True, text=True, check=False, timeout=300)
    if done.returncode:
        raise Odd(f"{done.stdout[-200:]}{done.stderr[-200:]}")
    return log.read_text(encoding="ascii")


def written(content, write):
    """What a file holds behind a write, or behind a change of its length."""
    if write[0] == "cut":
        return content[: write[1]].ljust(write[1], b"\0")
    _, place, data = write
    return content.ljust(place, b"\0")[:place] + data + content[place + len(data) :]


def torn(write):
    """A part of a write that a cut may leave: the front, the end, or some pieces of it."""
    _, place, data = write
    size = DRAWN.choice((1, 16, 512, 4096))
    pieces = [(at, data[at : at + size]) for at in range(0, len(data), size)]
    kept = DRAWN.choice((pieces[: DRAWN.randrange(len(pieces) + 1)], pieces[DRAWN.randrange(len(pieces) + 1) :],
                         [it for it in pieces if DRAWN.random() < 0.5]))
    return [("write", place + at, piece) for at, piece in kept]


def left_of(write, how):
    """What a cut leaves of a write."""
    how = DRAWN.choice(("lost", "kept", "torn")) if how == "drawn" else how
    if how == "torn" and write[0] == "write":
        return torn(write)
    return [] if how == "lost" else [write]


class Disk:
    """What a disk holds: what is durable, and what was asked since."""

    def __init__(self):
        self.durable, self.writes, self.names, self.changes = {}, {}, {}, []

    def take(self, event):
        """Takes one event of a trace."""
        kind, *words = event
        if kind in ("make", "rename", "remove"):
            self.changes.append(event)
            if kind == "make":
                self.durable[words[1]], self.writes[words[1]] = b"", []
        elif kind in ("write", "cut"):
            self.writes[words[0]].append((kind, *words[1:]))
        elif event[:2] == ("sync", "file"):
            self.durable[words[1]] = self.image(words[1], "kept")
            self.writes[words[1]] = []
        elif event[:2] == ("sync", "folder"):
            self.names, self.changes = self.named(len(self.changes)), []

    def image(self, file, how):
        """What a cut leaves of a file, if each write that wasn't synced is lost, kept or torn, or as is drawn."""
        content = self.durable[file]
        for write in self.writes[file]:
            for part in left_of(write, how):
                content = written(content, part)
        return content

    def named(self, count):
        """The files by their names, if so many of the changes are kept."""
        names = dict(self.names)
        for kind, *words in self.changes[:count]:
            if kind == "make":
                names[words[0]] = words[1]
            elif kind == "rename":
                names[words[1]] = names.pop(words[0])
            else:
                names.pop(words[0], None)
        return names

    def cut(self, path, how):
        """What the file of a path holds behind a cut, or None if there is none."""
        count = {"lost": 0, "kept": len(self.changes)}.get(how, DRAWN.randrange(len(self.changes) + 1))
        file = self.named(count).get(path)
        return None if file is None else self.image(file, how)


def shown(content):
    """What a file with this content shows: its blobs and names, or why it isn't opened."""
    try:
        plain = PlainFile(content or b"")
    except Refused as refused:
        return str(refused)
    return plain.blobs, plain.names


def reached(state):
    """What names reach in a file that shows this."""
    blobs, names = state
    plain = PlainFile(b"")
    plain.blobs = blobs
    keys = set().union(*(plain.reached(key) for key in names.values()))
    return {key: blobs[key] for key in keys}, names


class Cuts:
    """Cuts of a trace at each moment, and what they may leave of the file of a path."""

    def __init__(self, events, path, is_answer):
        self.events, self.path, self.is_answer, self.bad, self.images = events, path, is_answer, [], {}

    def states(self):
        """What the file showed at each answer, in order, from none on."""
        disk, states = Disk(), [({}, {})]
        for event in self.events:
            disk.take(event)
            if self.is_answer(event):
                states.append(shown(disk.cut(self.path, "kept")))
        return states

    def run(self, draws):
        """Cuts behind each event, in all ways: all lost, all kept, and so many that are drawn."""
        disk, states, answered = Disk(), self.states(), 0
        for place, event in enumerate([None, *self.events]):
            if event:
                disk.take(event)
                answered += bool(self.is_answer(event))
            for how in ("lost", "kept", "torn", *["drawn"] * draws):
                self.look(place, disk.cut(self.path, how), states[answered : answered + 2])
        return self

    def look(self, place, content, allowed):
        """Looks at what a cut left: it has to show what was answered last, or what is asked next."""
        found = shown(content)
        if found not in allowed:
            self.bad.append((place, found if isinstance(found, str) else f"{len(found[0])} blobs, names {found[1]}"))
        if content is not None:
            self.images[content] = found


def without(events, number):
    """The events without some syncs: every second one of a file from the first or second on, or those of folders."""
    left, turn = [], 0
    for event in events:
        is_sync = event[:2] == ("sync", "folder" if number == 2 else "file")
        turn += is_sync
        if not is_sync or number < 2 and turn % 2 == number:
            left.append(event)
    return left


def opened(program, file, content, wanted):
    """What is wrong where the program looks at such a file, opens it to write, and looks again; or None."""
    file.write_bytes(content)
    for words in (["ls", "--all"], ["serve"], ["ls", "--all"]):
        done = run(program, file, *words)
        if words[0] == "ls" and done.stdout.splitlines() != wanted.listed() or done.returncode:
            return f"'{words[0]}': {done.stdout[-200:]}{done.stderr[-200:]}"
    test = run(program, file, "ls").stdout.splitlines()
    return None if sorted(test) == wanted.roots() else f"roots: {test}"


def by_program(program, file, images, most):
    """Opens some of the images by the program: it has to show what plain_file.py reads of them."""
    drawn = DRAWN.sample(sorted(images, key=lambda it: (len(it), it)), min(most, len(images)))
    for content in drawn:
        fault = opened(program, file, content, PlainFile(content))
        if fault:
            return len(drawn), f"of {len(content)} bytes: {fault}"
    return len(drawn), None


def flushes_of(program, folder):
    """The events of runs that make a file, flush, and go on with it in a later process."""
    file, trace = folder / "cut.blobs", Trace(str(folder))
    lines, roots = chain(9, 400, 3)
    first, rest = lines.split("flush\n")[0] + "flush\n", "flush\n".join(lines.split("flush\n")[1:])
    below = f"root side {roots[0]}\nput 00 {roots[-1]}\nput ff\nflush\ndrop side\nput {'ab' * 5000}\nflush\n"
    for text in (first, rest, below):
        trace.read(traced(program, folder, [file, "serve"], text))
    return file, trace


def garbage_of(program, folder):
    """The events of a run that makes a file of which some is garbage, and of one that collects that."""
    file, trace = folder / "collected.blobs", Trace(str(folder))
    lines, _ = chain(6, 300, 6)
    more = f"put {'cd' * 700}\n{lines}put 01\nroot one {key_of(bytes([1]))}\nflush\n"
    trace.read(traced(program, folder, [file, "serve"], more))
    trace.read(traced(program, folder, [file, "gc"], ""))
    return file, trace


def answers(event):
    """Whether an event answers a flush, or a gc."""
    return event[0] == "answer" and event[1].endswith(("flushed\n", " blobs kept\n"))


def power(program, folder, draws):
    """Cuts the power in flushes, in a gc and while a file is made."""
    inner = folder / "power"
    inner.mkdir()
    told = []
    for name, (file, trace) in (("flushes", flushes_of(program, inner)), ("gc", garbage_of(program, inner))):
        cuts = Cuts(trace.events, str(file), answers).run(draws)
        if cuts.bad:
            return f"power, {name}: {len(cuts.bad)} cuts, {cuts.bad[:3]}"
        if reached(cuts.states()[-1]) != reached(cuts.states()[-2]) and name == "gc":
            return "power, gc: what names reach has changed"
        many, fault = by_program(program, removed(inner / "image"), cuts.images, 12 * draws)
        if fault:
            return f"power, {name}: an image {fault}"
        blind = [kind for kind in (0, 1, 2) if not Cuts(without(trace.events, kind), str(file), answers).run(draws).bad]
        told.append((name, len(trace.events), len(cuts.images), many, blind))
    if any(blind for *_, blind in told):
        return f"power: runs without some syncs look as safe: {told}"
    for name, count, images, many, _ in told:
        print(f"power, {name}: cuts behind each of {count} calls, {images} images: each shows what was answered;"
              f" {many} were opened")
    return None
