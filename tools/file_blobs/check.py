#!/usr/bin/env python3
"""Tries what users may do to files of blobs: kills, cuts of power, full disks, refused memory and calls of the disk,
second writers, readers and copies beside a writer, each command beside a second process, gc beside others, damage,
modes, links and odd names, databases, texts that one run saves and the next one opens, differences of roots, answers in
JSON, and calls that are none.

    tools/file_blobs/check.py [PROGRAM [KILLS [SECONDS [SEED]]]]

PROGRAM is the built `blobctl`; without one it is built here, unproved, as tools/speed/build.py says. It is killed at
KILLS drawn moments (40) while it writes, and at as many while it collects garbage: each of them has to meet a running
program, and nothing that a flush had answered may be lost. For SECONDS (10) two writers work beside a loop of gc and
one of looks, and for as long a writer beside looks and copies. What is drawn depends on SEED (5). The status is 0 if
all holds.
"""
import pathlib
import subprocess
import sys
import tempfile
import threading
import time

sys.dont_write_bytecode = True
HERE = pathlib.Path(__file__).resolve().parent
sys.path += [str(HERE), str(HERE.parent / "speed")]
import access  # noqa: E402
import collecting  # noqa: E402
import comparing  # noqa: E402
import damages  # noqa: E402
import databases  # noqa: E402
import holding  # noqa: E402
import plainly  # noqa: E402
import power  # noqa: E402
import refusing  # noqa: E402
from asking import (  # noqa: E402
    DRAWN, alone, chain, flushes, key_of, kill, limit_files, lost, removed, roots_of, run, seen, serve, wait_until,
)
from build import built_crate, need  # noqa: E402
from plain_file import PlainFile  # noqa: E402

# How many blobs are stored, and after how many of them comes a flush.
PLANS = [(150, 1), (700, 7), (1_200, 100)]


def killed_after(program, file, lines, count, delay):
    """Kills the program that fills a file, a moment after it had answered so many flushes: how many it had answered by
    then, or None if it had ended before."""
    said = lines.with_name("said")
    with open(lines, encoding="utf-8") as read, open(said, "w", encoding="utf-8") as write:
        with subprocess.Popen([program, file, "serve"], stdin=read, stdout=write) as filling:
            wait_until(lambda: flushes(said.read_text(encoding="utf-8")) >= count, filling)
            time.sleep(delay)
            met = kill(filling)
    return flushes(said.read_text(encoding="utf-8")) if met else None


def kills(program, folder, rounds):
    """Kills the program while it fills a file."""
    file, lines, met, turns = folder / "kill.blobs", folder / "lines", [], 0
    while len(met) < rounds and turns < 5 * rounds:
        turns += 1
        count, batch = DRAWN.choice(PLANS)
        text, roots = chain(count, 300, batch)
        lines.write_text(text, encoding="utf-8")
        answered = killed_after(program, removed(file), lines, DRAWN.randrange(len(roots)), DRAWN.uniform(0, 0.02))
        fault = answered is not None and lost(program, file, roots, answered, batch)
        if fault:
            return f"kill {turns}: {fault}"
        met += [] if answered is None else [0 < answered < len(roots)]
    if len(met) < rounds or 2 * sum(met) < rounds:
        return f"kills: of {turns} only {len(met)} met a running program, {sum(met)} of them between two flushes"
    print(f"kills: {len(met)} of a running program, {sum(met)} between two flushes: nothing that was flushed is lost")
    return None


class Beside:
    """A writer of a file, and what others find of it meanwhile: by looks at it, and in copies."""

    def __init__(self, program, file, seconds):
        self.program, self.file, self.end, self.odd = program, file, time.time() + seconds, []
        self.roots, self.answered, self.found = [], 0, {"looks": [], "copies": []}

    def write(self):
        """Flushes a chain of blobs, each over the one before, until the time is over."""
        with subprocess.Popen([self.program, self.file, "serve"], stdin=subprocess.PIPE, stdout=subprocess.PIPE,
                              text=True, bufsize=1) as writing:
            below = []
            while time.time() < self.end:
                data = DRAWN.randbytes(200)
                key = key_of(data, below)
                self.roots.append(key)
                writing.stdin.write(" ".join(["put", data.hex(), *below]) + f"\nroot last {key}\nflush\n")
                said = [writing.stdout.readline().strip() for _ in range(3)]
                self.odd += [] if said == [key, "set", "flushed"] else [said]
                self.answered, below = self.answered + 1, [key]
            writing.stdin.close()

    def told(self, kind, answered, root, count):
        """Notes what was found, which has to be all that was flushed up to some moment since."""
        if root is None and not answered:
            return
        number = self.roots.index(root) + 1 if root in self.roots else -1
        if number < answered or count < number:
            self.odd.append((kind, answered, number, count))
        self.found[kind].append(number)

    def look(self):
        """Looks at the file, which takes no lock."""
        while time.time() < self.end:
            answered = self.answered
            roots, test = roots_of(self.program, self.file), run(self.program, self.file, "fsck")
            if not test.stdout.endswith(" 0 flaws\n"):
                self.odd.append((test.stdout, test.stderr))
            else:
                count = int(test.stdout.splitlines()[-1].split()[0])
                self.told("looks", answered, roots.get("last"), count)

    def copy(self):
        """Copies the file, and opens the copy to look at it and to write it."""
        while time.time() < self.end:
            answered, copy = self.answered, alone(self.file)
            plain = PlainFile(copy.read_bytes())
            shown = run(self.program, copy, "ls", "--all").stdout.splitlines()
            serve(self.program, copy)
            again, test = run(self.program, copy, "ls", "--all").stdout.splitlines(), run(self.program, copy, "fsck")
            if not plain.listed() == shown == again or test.returncode:
                self.odd.append((plain.listed()[-1:], shown[-1:], test.stdout[-200:]))
            self.told("copies", answered, plain.names.get("last"), len(plain.blobs))


def beside(program, folder, seconds):
    """Looks at a file and copies it while another process writes it."""
    file = removed(folder / "beside.blobs")
    serve(program, file)
    both = Beside(program, file, seconds)
    threads = [threading.Thread(target=it) for it in (both.write, both.look, both.copy)]
    for thread in threads:
        thread.start()
    for thread in threads:
        thread.join()
    counts = {kind: len(set(found)) for kind, found in both.found.items()}
    if both.odd or min(counts.values()) < 3:
        return f"beside a writer: {both.odd[:3]}, {counts}"
    looks, copied = (len(found) for found in both.found.values())
    print(f"beside a writer of {both.answered} flushes: {looks} looks and {copied} copies have all that was flushed"
          " before them, and nothing by half")
    return None


def full_disk(program, folder):
    """Lets no file grow past 400 kB."""
    file = removed(folder / "full.blobs")
    lines, roots = chain(2_000, 300, 5)
    filled = serve(program, file, lines, preexec_fn=lambda: limit_files(400_000))
    refused = [line for line in filled.stdout.splitlines() if line.startswith("error: the disk")]
    if not refused or filled.returncode:
        return f"full disk: {filled.returncode} {filled.stdout[-200:]}"
    answered = flushes(filled.stdout)
    fault = lost(program, alone(file), roots, answered, 5)
    again = serve(program, file, lines)
    if fault or flushes(again.stdout) != 400:
        return f"full disk: {fault} {again.stdout[-200:]}"
    print(f"full disk: '{refused[0]}' after {answered * 5} blobs, which stayed, and the next run went on")
    return None


def copies(program, folder):
    """Copies a file after each command: the copy has to show all that the file shows."""
    file, other = removed(folder / "source.blobs"), removed(folder / "other.blobs")
    lines, roots = chain(300, 300, 50)
    looks = [["stat"], ["ls"], ["ls", "--all"], ["ls", "last"], ["log", "last"], ["cat", "last~2"], ["tree", "last"],
             ["dot", roots[-1]], ["diff", "last", roots[-1]], ["ls", "--json"], ["log", "last", "--json"], ["fsck"],
             ["fsck", "last"], ["cache", "stat"], ["copy", other]]
    commands = [["put"], ["root", "one", key_of(b"\x01")], *looks, ["drop", "last"], ["gc"], ["serve"]]
    serve(program, file, lines)
    for words in [["fsck"], *commands]:
        before, done = file.read_bytes(), run(program, file, *words, text="\1" if words == ["put"] else "")
        shown = seen(program, alone(file))
        if done.returncode or " 0 flaws\n" not in shown[1] or shown != seen(program, file):
            return f"copies: {done.stdout[-200:]}{done.stderr}; a copy behind '{words[0]}' shows {shown[1][-200:]}"
        if words in looks and file.read_bytes() != before:
            return f"copies: '{words[0]}' wrote to the file"
        if words[0] == "copy" and shown != seen(program, other):
            return "copies: what `copy` wrote shows something else"
        file = alone(file).rename(removed(file))
    if left := sorted(it.name for it in folder.glob("source.blobs*") if not it.name.endswith((".copy", ".blobs"))):
        return f"copies: {left} stand beside the files"
    print(f"copies of the file, behind each of {len(commands)} commands, have all; what only looks writes nothing")
    return None


def size(program, folder):
    """Stores many small blobs in one flush, which writes their bytes and 24 for each."""
    file, count, each = removed(folder / "size.blobs"), 20_000, 600
    serve(program, file, "".join(f"put {DRAWN.randbytes(each).hex()}\n" for _ in range(count)) + "flush\n")
    if file.stat().st_size != 16 + 25 + count * (each + 24) + 1:
        return f"size: one flush of {count * each} bytes made a file of {file.stat().st_size}"
    print(f"size: one flush of {count} blobs of {each} bytes made a file of {file.stat().st_size} bytes")
    return None


# The lines of each run of `blobctl texts`, with their answers. HELLO stands for the number of the key of "hello world";
# the bytes of a text are its length and its UTF-8. Two runs flush nothing of what they save last.
TEXTS = (
    """new a hello world = ok
    save a main = ok
    key a = HELLO
    out a = no
    unpin a = ok
    out a = yes
    pending = 0
    new b hello world = ok
    save b other = ok
    stat = 1 blobs, 12 bytes, 2 names
    new w waits = ok
    unpin w = ok
    new c lost = ok
    save c side = ok
    pending = 1
    stat = 2 blobs, 17 bytes, 3 names
    save d main = no name
    open main a = bad name
    open none z = no name
    open none a = no name
    save a = bad line
    save a b_c = bad line
    open main = bad line
    flush now = bad line
    stat  = bad line""",
    """stat = 0 blobs, 0 bytes, 0 names
    open main a = no name
    new a hello world = ok
    save a main = ok
    save a other = ok
    flush = ok
    new c lost = ok
    save c side = ok""",
    """stat = 1 blobs, 12 bytes, 2 names
    open side z = no name
    open main m = ok
    out m = yes
    count m = 0
    key m = HELLO
    pin m p = hello world
    count m = 2
    save p other = ok
    new n é = ok
    pin n q = é
    save q main = ok
    pending = 0
    count n = 2
    open main r = ok
    pin r s = é
    flush = ok
    stat = 2 blobs, 15 bytes, 2 names""",
    """open main a = ok
    pin a b = é
    open other c = ok
    pin c d = hello world
    stat = 2 blobs, 15 bytes, 2 names""",
)


def texts(program, folder):
    """Keeps texts under names, each run of TEXTS in a process of its own."""
    file, keys = folder / "texts.blobs", [key_of(text, []) for text in (b"\x0bhello world", b"\x02\xc3\xa9")]
    number = str(int.from_bytes(bytes.fromhex(keys[0]), "little"))
    for lines in TEXTS:
        asked = [line.partition(" = ") for line in lines.replace("HELLO", number).replace("\n    ", "\n").split("\n")]
        said = run(program, "texts", file, text="".join(f"{line}\n" for line, _, _ in asked))
        if said.returncode or said.stdout != "".join(f"{answer}\n" for _, _, answer in asked):
            return f"texts: {said.returncode} {said.stdout}{said.stderr}"
        file = alone(file).rename(removed(file))
    roots, test = roots_of(program, file), run(program, file, "fsck")
    if roots != {"main": keys[1], "other": keys[0]} or test.returncode:
        return f"texts: {roots}{test.stdout}"
    if run(program, "texts", folder / "none" / "texts.blobs").returncode != 3:
        return "texts: a file in a folder that isn't there was opened"
    print(f"texts: {len(TEXTS)} runs, each on a copy of the file, with what was flushed before, and no more")
    return None


def statuses(program, folder):
    """Wrong calls end with the status 2, commands that find nothing with 1, and those whose file fails with 3. None of
    them makes a file or prints anything but why on standard error."""
    file, none = removed(folder / "statuses.blobs"), folder / "none.blobs"
    key = run(program, file, "put", text="a").stdout.split()[0]
    other = run(program, file, "put", text="b").stdout.split()[0]
    missing, unknown = f"blobctl: {none}: there is no such file\n", f"blobctl: {file}: no root and no key is called "
    wrong = [["texts"], ["-f"], [none], [none, "stats"], [none, "stat", "more"], [none, "tree"], [none, "copy"],
             [none, "import-old"], [none, "export-db"], [none, ""], [none, "texts", file], [none, "diff", "a"],
             [none, "tree", "a", "--json"], [none, "diff", "a", "b", "c"],
             [none, "ls", "--all", "main"], ["texts", none, "more"], [none, "put", "-", "more"], [none, "gc", "--keep", "0"]]
    wanted = [(words, 2, "") for words in [[], *wrong]]
    wanted.append(([file, "root", "", key], 2, f"blobctl: {file}: a root's name"))
    looks = (["stat"], ["ls"], ["ls", "--all"], ["cat", key], ["tree", key], ["dot", key], ["diff", key, key], ["fsck"],
             ["stat", "--json"], ["copy", file], ["export-db", file])
    wanted += [([none, *words], 3, missing) for words in (*looks, ["gc"], ["root", "a", key], ["drop", "a"])]
    wanted += [([file, *words, "no"], 1, f"{unknown}no\n") for words in (["cat"], ["ls"], ["root", "a"])]
    wanted += [([file, "fsck", "a"], 1, f"blobctl: {file}: no root is called a\n"),
               ([file, "drop", "a\nb"], 1, f"blobctl: {file}: no root is called a\\nb\n"),
               ([file, "copy", none, "a"], 1, f"blobctl: {file}: no root is called a\n"),
               ([file, "cat", "0" * 31 + "1"], 1, f"blobctl: {file}: no blob stands under {'0' * 31}1\n"),
               ([file, "put", none], 3, f"blobctl: {file}: {none}: "),
               ([file, "copy", file], 2, f"blobctl: {file}: a file can't be copied to itself\n"),
               ([file, "cat", b"\xff"], 2, "blobctl: an argument isn't UTF-8\n"),
               ([file, "copy", folder], 3, f"blobctl: {file}: {folder}: the path names no regular file\n")]
    for words, status, why in wanted:
        done = subprocess.run([program, *words], input="", capture_output=True, text=True, check=False)
        if (done.returncode, done.stdout) != (status, "") or not done.stderr.startswith(why) or none.exists():
            return f"statuses: {words} gives {done.returncode} {done.stdout}{done.stderr}"
    if (found := beginnings(program, file, key, other)):
        return found
    print(f"statuses: {len(wanted)} calls that are wrong or fail")
    return None


def beginnings(program, file, key, other):
    """What is wrong with keys that are named by their first digits, or None. of 20,000 blobs two begin alike."""
    made = {}
    for number in range(20_000):
        made.setdefault(key_of(str(number).encode())[:6], []).append(str(number))
    alike = next(numbers for numbers in made.values() if len(numbers) > 1)
    keys = sorted(key_of(number.encode()) for number in alike)
    serve(program, file, "".join(f"put {number.encode().hex()}\n" for number in alike) + "flush\n")
    done = run(program, file, "cat", keys[0][:6])
    said = f"blobctl: {file}: {keys[0][:6]} is the beginning of {len(keys)} keys: {' '.join(keys)}\n"
    if (done.returncode, done.stdout, done.stderr) != (1, "", said):
        return f"beginnings: {done}"
    for wanted, data in ((key, "a"), (other, "b")):
        found = [run(program, file, "cat", word).stdout for word in (wanted, wanted[:16], wanted[:16].upper())]
        if found != [data] * 3 or run(program, file, "cat", wanted[:3]).returncode != 1:
            return f"beginnings: {found}"
    return None


def helps(program, _):
    """Help and version are printed on standard output, with the status 0."""
    version = subprocess.run([program, "--version"], capture_output=True, text=True, check=False)
    if (version.returncode, version.stdout, version.stderr) != (0, "blobctl 0.4.2\n", ""):
        return f"helps: {version}"
    commands = ["ls", "log", "diff", "cat", "tree", "dot", "stat", "fsck", "copy", "export-db", "put", "root", "drop",
                "gc", "import-old", "serve", "texts", "cache"]
    for words in (["help"], ["--help"], ["-h"], *(["help", name] for name in commands), ["a.blobs", "ls", "--help"]):
        done = subprocess.run([program, *words], capture_output=True, text=True, check=False)
        usage = f"Usage: blobctl FILE {words[-1]}" if len(words) == 2 and words[1] != "texts" else "Usage: blobctl "
        if done.returncode or done.stderr or usage not in done.stdout:
            return f"helps: {words} gives {done}"
    shown = subprocess.run([program, "help"], capture_output=True, text=True, check=False).stdout
    if missing := [name for name in commands if f"\n  {name} " not in shown]:
        return f"helps: {missing} aren't among the commands"
    print(f"helps: of {len(commands)} commands, and the version")
    return None


def pipes(program, folder):
    """A reader of the output that goes away ends a command quietly; a full device is told."""
    file = removed(folder / "pipes.blobs")
    run(program, file, "put", text="x" * 1_000_000)
    run(program, file, "root", "main", key_of(b"x" * 1_000_000))
    with subprocess.Popen([program, file, "cat", "main"], stdout=subprocess.PIPE, stderr=subprocess.PIPE) as showing:
        showing.stdout.close()
        status, why = showing.wait(), showing.stderr.read()
    with open("/dev/full", "w", encoding="utf-8") as full:
        done = subprocess.run([program, file, "ls"], stdout=full, stderr=subprocess.PIPE, text=True, check=False)
    told = done.stderr.startswith(f"blobctl: {file}: standard output: ")
    if (status, why) != (0, b"") or done.returncode != 3 or not told:
        return f"pipes: {status} {why}, {done}"
    print("pipes: one that is closed ends a command quietly, a full device is told")
    return None


def main():
    rounds, seconds, seed = [*map(int, sys.argv[2:]), *[40, 10, 5][len(sys.argv[2:]) :]]
    for tool in ("sqlite3", "strace", "cc"):
        need(tool)
    sources = {"memory": HERE.parent / "failures" / "refuse.c", "disk": HERE / "disk.c"}
    DRAWN.seed(seed)
    with tempfile.TemporaryDirectory() as folder:
        folder = pathlib.Path(folder)
        program = pathlib.Path(sys.argv[1]).resolve() if len(sys.argv) > 1 else built_crate(folder / "build", "blobctl")
        tests = [
            (kills, rounds), (collecting.kills, rounds), (collecting.race, seconds), (collecting.keeps,),
            (beside, seconds), (damages.opens,), (damages.flaws,), (damages.flaws_under,), (damages.each_byte,),
            (damages.each_length,), (access.rights,), (access.links,), (access.outputs,), (access.names,),
            (databases.imports,), (databases.exports,),
            (copies,), (size,), (full_disk,), (texts,), (statuses,), (helps,), (pipes,), (plainly.stored_run,),
            (plainly.drawn_lines,), (plainly.commands,), (plainly.kept,), (comparing.differences,),
            (comparing.reads_what_differs,), (comparing.documents,), (holding.second,), (power.power, rounds // 2),
            (refusing.refusals, sources),
        ]
        faults = [test(program, folder, *words) for test, *words in tests]
    if any(faults):
        sys.exit("\n".join(filter(None, faults)))


if __name__ == "__main__":
    main()
