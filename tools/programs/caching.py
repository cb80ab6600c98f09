"""Builds with `blobctl` as a cache, under make and under ninja: cold, warm, with an input that changed, two at once, and
one that is killed in the middle. cached/ has the rules: each command that runs is noted in ran.log."""
import os
import pathlib
import shutil
import signal
import subprocess
import time

RULES = pathlib.Path(__file__).resolve().parent / "cached"
NAMES = "abcdef"
TOOLS = {"make": ["make", "-s", "-j4"], "ninja": ["ninja", "-j4", "--quiet"]}


class Build:
    """A folder with the rules and inputs, and a store for the outputs, which another folder may share."""

    def __init__(self, program, tool, folder, store):
        self.tool, self.folder = tool, folder
        self.env = {**os.environ, "BLOBCTL": str(program), "STORE": str(store)}
        shutil.copytree(RULES, folder)
        for name in NAMES:
            self.write(name, f"{name} line\n" * (ord(name) - 90))

    def write(self, name, text):
        """Writes an input."""
        (self.folder / f"{name}.txt").write_text(text, encoding="utf-8")

    def clean(self):
        """Removes all outputs, and what the tools note of them."""
        for file in self.folder.iterdir():
            if file.suffix in (".upper", ".count", ".part", ".log", ".new") or file.name.startswith(".ninja"):
                file.unlink()

    def begin(self, slowly="0"):
        """Begins a build, whose commands take so many seconds."""
        how = {"cwd": self.folder, "env": {**self.env, "SLOWLY": slowly}, "start_new_session": True}
        return subprocess.Popen(TOOLS[self.tool], stdout=subprocess.PIPE, stderr=subprocess.STDOUT, text=True, **how)

    def ended(self, building):
        """How many commands a build ran, once it has ended: a text of what is wrong if it fails, or if an output is."""
        said = building.communicate(timeout=120)[0]
        log = self.folder / "ran.log"
        ran = log.read_text(encoding="utf-8").split() if log.exists() else []
        log.unlink(missing_ok=True)
        for name in NAMES:
            text = (self.folder / f"{name}.txt").read_text(encoding="utf-8")
            wanted = {"upper": text.upper(), "count": f"{text.count(chr(10))}\n"}
            found = {end: self.read(f"{name}.{end}") for end in wanted}
            if building.returncode or found != wanted:
                return f"{building.returncode} {said} {found} in place of {wanted}"
        return len(ran)

    def read(self, name):
        """An output, or None."""
        file = self.folder / name
        return file.read_text(encoding="utf-8") if file.exists() else None

    def run(self):
        """What `ended` says of a whole build."""
        return self.ended(self.begin())


def shared(program, tool, work, store):
    """Two builds at once over one store: how many commands the second one runs once both have ended."""
    both = [Build(program, tool, work / f"{tool} {number}", store) for number in range(2)]
    counts = [it.ended(building) for it, building in [(it, it.begin("0.05")) for it in both]]
    if not all(isinstance(count, int) for count in counts) or not 12 <= sum(counts) <= 24:
        return f"two at once: {counts}"
    both[1].clean()
    return both[1].run()


def kill_session(number):
    """Kills each process of a session, until none is left: ninja gives its commands groups of their own."""
    while left := [it for it in pathlib.Path("/proc").glob("[0-9]*") if session_of(it) == number]:
        for process in left:
            try:
                os.kill(int(process.name), signal.SIGKILL)
            except ProcessLookupError:
                pass
        time.sleep(0.01)


def session_of(process):
    """The session of a process that still runs, by its folder in /proc, or None."""
    try:
        state, _, _, session = (process / "stat").read_text(encoding="utf-8").rpartition(")")[2].split()[:4]
    except (FileNotFoundError, ProcessLookupError):
        return None
    return None if state == "Z" else int(session)


def killed(build):
    """Kills a build in the middle: how many commands it had run, and how many the next one runs."""
    building = build.begin("0.2")
    log = build.folder / "ran.log"
    while building.poll() is None and not (log.exists() and len(log.read_text(encoding="utf-8").split()) > 4):
        time.sleep(0.01)
    kill_session(building.pid)
    building.communicate(timeout=120)
    before = len(log.read_text(encoding="utf-8").split())
    log.unlink()
    return before, build.run()


def fault_of(program, tool, work):
    """What is wrong with builds by a tool, or None."""
    store = work / f"{tool}.blobs"
    build = Build(program, tool, work / tool, store)
    if (cold := build.run()) != 12:
        return f"a cold build runs {cold}"
    build.clean()
    if (warm := build.run()) != 0:
        return f"a warm build runs {warm}"
    build.write("a", "other\n")
    if (changed := build.run()) != 2:
        return f"a build with another input runs {changed}"
    build.write("a", "a line\n" * 7)
    if (back := build.run()) != 0:
        return f"a build with the input of before runs {back}"
    again = shared(program, tool, work, work / f"{tool}-shared.blobs")
    if again != 0:
        return f"a build behind two at once: {again}"
    before, more = killed(Build(program, tool, work / f"{tool} killed", work / f"{tool}-killed.blobs"))
    if not isinstance(more, int) or not 4 < before < 12 or not 12 - before <= more <= 12:
        return f"a build that was killed had run {before}, and the next one runs {more}"
    return trimmed(program, store)


def asked(program, store, *words):
    """What the cache answers, with the status."""
    done = subprocess.run([program, store, "cache", *words], capture_output=True, text=True, check=False, timeout=60)
    return done.returncode, done.stdout, done.stderr


def trimmed(program, store):
    """What is wrong with what a cache keeps once it was trimmed, or None. Each of 20 entries has 100 bytes."""
    store = store.with_suffix(".trimmed")
    bytes_of = lambda number: f"{number:0100d}".encode()
    for number in range(20):
        words = [program, store, "cache", "put", f"{number:02x}", "-", "--status", str(number % 2)]
        subprocess.run(words, input=bytes_of(number), check=True, timeout=60)
    size = store.stat().st_size
    told = [asked(program, store, "stat"), asked(program, store, "trim", "950"), asked(program, store, "stat")]
    if told != [(0, "20 entries, 2000 bytes\n", ""), (0, "11 entries dropped, 9 kept\n", ""), (0, "9 entries, 900 bytes\n", "")]:
        return f"trim: {told}"
    for number in range(20):
        status = f"blobctl: kept status 1\n" if number % 2 else ""
        wanted = (1, "", "") if number < 11 else (0, bytes_of(number).decode(), status)
        if (found := asked(program, store, "get", f"{number:02X}")) != wanted:
            return f"trim: entry {number} is {found} in place of {wanted}"
    if store.stat().st_size > size * 0.6:
        return f"trim: the store has {store.stat().st_size} of {size} bytes"
    return None
