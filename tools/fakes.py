#!/usr/bin/env python3
"""Programs that answer as those of the repository do, by the plain models, but for a fault if one is named: planted.py
tries the tools on them.

    tools/fakes.py rows FAULT                              # the program of tools/failures
    tools/fakes.py texts FAULT weigh                       # `pagectl`
    tools/fakes.py blobs FAULT FILE COMMAND..              # `blobctl`
    tools/fakes.py cached FAULT STORE cache COMMAND..      # the cache of `blobctl`
    tools/fakes.py hosted FAULT COMMAND PATH..             # the program of tools/host_files
    tools/fakes.py remote FAULT FOLDER COMMAND WORD..      # `remote`
"""
import fcntl
import hashlib
import os
import pathlib
import pickle
import struct
import sys

HERE = pathlib.Path(__file__).resolve().parent
sys.dont_write_bytecode = True
sys.path[:0] = [str(HERE / folder) for folder in ("programs", "failures", "file_blobs", ".")]
import asking  # noqa: E402
import models  # noqa: E402
import plain_script  # noqa: E402
import plain_values  # noqa: E402
from driver import GIVING_BACK  # noqa: E402
from plain_rows import Rows  # noqa: E402


class Program:
    """The program of tools/failures, in which each event makes one request for memory."""

    def __init__(self, fault=""):
        self.fault, self.plain, self.done = fault, Rows(), {}

    def ask(self, line):
        """The answer to a line."""
        word, _, rest = line.removeprefix("typed-").partition(" ")
        if word in ("machine", "over"):
            self.plain = Rows()
            return self.plain.answer(f"machine {rest}".strip())
        if word in ("look", "peek"):
            return self.plain.look(self.plain.pager.last_handle)
        if word in ("ask", "lock", "typed"):
            place, _, events = rest.partition(" ")
            return self.asked(int(place), events)
        if word == "short":
            return self.asked(0, rest.partition(" ")[2])
        if word in ("small", "value"):
            return self.value(*rest.split(" ")[-3:])
        return "refused 7"

    def asked(self, place, events):
        """The answer to events, of which this request is refused, and all that follow it if the number is negative."""
        # (a refused step would have to give its load up)
        if abs(place) != 1 or events.startswith("step"):
            done = self.done.pop(events, None)
            return self.answered(done or "; ".join(self.plain.answer(event) for event in events.split("; ")))
        if self.fault == "does what it refuses":
            self.plain.answer(events)
        if self.fault == "does what it refuses, and not again":
            self.done[events] = self.plain.answer(events)
        number = 21 if self.fault == "refuses by another error" else 22
        is_back = events.startswith(GIVING_BACK) and self.fault != "gives nothing back"
        return f"met refused {number}" + " back" * is_back

    def answered(self, answer):
        """An answer, or another one by the fault."""
        return "free " + (answer.replace(" = x", " = y") if self.fault == "reads another text" else answer)

    def value(self, *words):
        """What is read of bytes, and of a value also again, and written, with this request being refused."""
        name, data = words[-2:]
        answer = plain_values.answer(name, bytes.fromhex(data.strip("-")))
        if self.fault == "reads what is cut" and answer == "refused 1":
            answer = "ok"
        if len(words) == 2:
            return f"free {answer}"
        answer = answer.partition(" = ")[0]
        again = "refused 1" if self.fault == "forgets what it refused" else answer
        return f"{'met refused 22' if words[0] == '1' else 'free ' + answer} | {again} | free ok | ok"


def rows(fault):
    """Answers lines, each at once."""
    program = Program(fault)
    for line in sys.stdin:
        print(program.ask(line.rstrip("\n")), flush=True)
    return 0


def texts(fault, _):
    """Answers a script, of which the line that REFUSE_AT names, of those that aren't to give up, has no memory."""
    script, left = plain_script.Script(), int(os.environ.get("REFUSE_AT", 0))
    for line in sys.stdin.buffer:
        line = line.removesuffix(b"\n")
        left -= not line.startswith((b"unpin", b"release"))
        is_refused = left == 0 and not line.startswith((b"unpin", b"release"))
        answer = None if is_refused and fault != "does what it refuses" else script.answer(line)
        if is_refused:
            pathlib.Path(os.environ["COUNTS"]).write_bytes(struct.pack("4Q", 1, 1, 0, 0))
            answer = "error 22"
        if fault == "cuts at NUL" and answer:
            answer = answer.partition("\0")[0]
        if answer is not None:
            sys.stdout.buffer.write(answer.encode() + b"\n")
            sys.stdout.buffer.flush()
    return 0


class Blobs:
    """The blobs and names of a file, each with what was flushed of it."""

    def __init__(self):
        self.blobs, self.names = {}, {}

    def answer(self, word, words):
        """The answer to a command."""
        if word == "put":
            key = asking.key_of(bytes.fromhex(words[0]), words[1:])
            self.blobs[key] = words[1:]
            return key
        if word == "root":
            self.names[words[0]] = words[1]
            return "set"
        if word == "ls":
            return "\n".join(" ".join([*it, "1 versions"]) for it in self.names.items())
        if word == "tree":
            below = self.blobs.get(words[0], [])
            return "\n".join([words[0], *(self.answer("tree", [key]) for key in below)])
        return "flushed" if word == "flush" else f"{len(self.blobs)} blobs, 0 flaws"


def blobs(fault, file, *words):
    """Runs a command, or for `serve` those of the input, over a file, which keeps what was flushed."""
    file = pathlib.Path(file)
    state = pickle.loads(file.read_bytes()) if file.exists() else Blobs()
    for line in sys.stdin.read().splitlines() if words == ("serve",) else [" ".join(words)]:
        word, *rest = line.split(" ")
        print(state.answer(word, rest))
        if word == "flush":
            forgotten = {"forgets names": state.names, "forgets blobs": state.blobs}.get(fault, {})
            forgotten.clear()
            file.write_bytes(pickle.dumps(state))
    return int(fault == "has a flaw" and words == ("fsck",))


def cached(fault, store, _, word, *words):
    """Runs a command of the cache of `blobctl` over a folder beside the store, which is as long as all that is kept. An
    entry is a file that begins with its status."""
    store, folder = pathlib.Path(store), pathlib.Path(f"{store}.entries")
    entries = sorted(folder.glob("*"), key=lambda it: it.stat().st_mtime_ns)
    sizes = [it.stat().st_size - 4 for it in entries]
    if word == "put":
        folder.mkdir(exist_ok=True)
        data = sys.stdin.buffer.read() if words[1] == "-" else pathlib.Path(words[1]).read_bytes()
        part = store.parent / f"{store.name}-{os.getpid()}"
        part.write_bytes(struct.pack("<I", int(words[3]) if len(words) > 2 else 0) + data)
        part.rename(folder / words[0].lower())
        store.write_bytes(bytes(sum(sizes) + len(data)))
        return 0
    if word == "stat":
        print(f"{len(entries)} entries, {sum(sizes)} bytes")
        return 0
    if word == "trim":
        count = next(it for it in range(len(sizes) + 1) if sum(sizes[it:]) <= int(words[0]))
        for file in entries[-count:] if fault == "trims the newest" else entries[:count]:
            file.unlink()
        store.write_bytes(bytes(sum(sizes[count:])))
        print(f"{count} entries dropped, {len(entries) - count} kept")
        return 0
    file = folder / words[0].lower()
    if not file.exists() or fault == "keeps nothing":
        return 1
    content = (entries[0] if fault == "takes another" else file).read_bytes()
    out = pathlib.Path(words[2]).open("wb") if len(words) > 1 else sys.stdout.buffer
    out.write(content[4:])
    out.flush()
    if status := int.from_bytes(content[:4], "little"):
        print(f"blobctl: kept status {status}", file=sys.stderr)
    return 0


def hosted(fault, command, *paths):
    """Opens files for a writer, or to look at them, and holds them until a line comes."""
    is_look, held = command == "look", []
    for path in paths:
        held.append(os.open(path, os.O_RDONLY if is_look else os.O_RDWR | os.O_CREAT, 0o666))
        try:
            if not is_look and fault != "takes no lock":
                fcntl.flock(held[-1], fcntl.LOCK_EX | fcntl.LOCK_NB)
        except BlockingIOError:
            print("refused: the file is in use")
            continue
        it = os.fstat(held[-1])
        print(f"opened {it.st_dev}:{it.st_ino} mode {it.st_mode & 0o7777:o} owner {it.st_uid}:{it.st_gid} "
              f"links {it.st_nlink} named true")
        if command == "write":
            os.pwrite(held[-1], b"abc", 3)
            print(f"wrote, {os.fstat(held[-1]).st_size} bytes")
        if is_look:
            print(f"{it.st_size} bytes: {os.read(held[-1], 99).decode()}\nwrite refused, cut refused, sync done")
        if is_look and fault == "writes when it looks":
            os.truncate(path, 1)
    sys.stdout.flush()
    sys.stdin.readline()
    return 0


def remote(fault, *words):
    """Writes texts into a folder, or reads them from the last one on."""
    if len(words) < 3 or words[1] not in ("put", "get"):
        print("usage: remote FOLDER put TEXT.. | remote FOLDER get KEY", file=sys.stderr)
        return 2
    folder, command, *rest = pathlib.Path(words[0]), *words[1:]
    if command == "put":
        folder.mkdir(exist_ok=True)
        files = models.texts_as_files(rest)
        for name, content in files.items():
            (folder / name).write_bytes(content)
        print([*files][-1])
        return 0
    (key,) = rest
    while key:
        file = folder / key
        content = file.read_bytes() if file.exists() else b""
        is_whole = hashlib.sha256(content).hexdigest()[:32] == key or fault == "reads what was changed"
        if not file.exists() or not is_whole:
            print(f"the file {key} was changed" if file.exists() else f"no blob under the key {key}", file=sys.stderr)
            return 1
        end = len(content) - 16 * content[0]
        print(key, content[10 : end - 1].decode(errors="replace"))
        key = content[end:].hex()
    return 0


if __name__ == "__main__":
    sys.exit(globals()[sys.argv[1]](*sys.argv[2:]))
