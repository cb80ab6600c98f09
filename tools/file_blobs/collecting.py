"""Tries `blobctl FILE gc`: beside writers, killed at drawn moments and behind the rename, and what it keeps and
refuses."""
import os
import subprocess
import threading
import time

from asking import DRAWN, chain, key_of, kill, limit_files, removed, roots_of, run, seen, serve, wait_until

# When a `gc` is killed: at a drawn moment; once FILE.new holds blobs; once FILE is another file.
DRAWN_MOMENT, HALF_COPIED, REPLACED = range(3)


class Race:
    """Two writers of a file, a loop of gc beside them, and one of looks at the file."""

    def __init__(self, program, file, seconds):
        self.program, self.file, self.end = program, file, time.time() + seconds
        self.flushed, self.collected, self.refused, self.looks, self.odd = {}, [], [], [], []

    def refuse(self, done):
        """Notes a run that was refused, and keeps what it said if that is odd."""
        self.refused.append(done)
        if "the file is in use" not in done.stderr or not done.returncode:
            self.odd.append((done.returncode, done.stdout, done.stderr))

    def write(self, name):
        """Stores blobs under names of their own, each in a process."""
        while time.time() < self.end:
            word = f"{name}{len(self.flushed)}"
            key = key_of(word.encode())
            done = serve(self.program, self.file, f"put {word.encode().hex()}\nroot {word} {key}\nflush\n")
            if (done.returncode, done.stdout.split()) == (0, [key, "set", "flushed"]):
                self.flushed[word] = key
            else:
                self.refuse(done)

    def collect(self):
        """Collects garbage, again and again."""
        while time.time() < self.end:
            done = run(self.program, self.file, "gc")
            if done.returncode == 0 and done.stdout.endswith(" blobs kept\n"):
                self.collected.append(done)
            else:
                self.refuse(done)

    def look(self):
        """Tests the file, again and again, which takes no lock: it is whole at each moment."""
        while time.time() < self.end:
            done = run(self.program, self.file, "fsck")
            kept = self.looks if done.returncode == 0 and done.stdout.endswith(" 0 flaws\n") else self.odd
            kept.append((done.returncode, done.stdout, done.stderr))

    def run(self):
        """Runs all four to the end."""
        threads = [threading.Thread(target=self.write, args=(name,)) for name in "ab"]
        threads += [threading.Thread(target=self.collect), threading.Thread(target=self.look)]
        for thread in threads:
            thread.start()
        for thread in threads:
            thread.join()


def race(program, folder, seconds):
    """Collects garbage beside two writers: nothing that was flushed may be gone."""
    file = removed(folder / "race.blobs")
    run(program, file, "put", text="0")
    runs = Race(program, file, seconds)
    runs.run()
    roots = roots_of(program, file)
    gone = sorted(name for name, key in runs.flushed.items() if roots.get(name) != key)
    test = run(program, file, "fsck")
    if gone or test.returncode or runs.odd:
        return f"gc beside writers: gone {gone[:5]}, fsck {test.stdout[-200:]}{test.stderr[-200:]}, odd {runs.odd[:3]}"
    met = [len(runs.collected), len(runs.flushed), len(runs.refused), len(runs.looks)]
    if min(met) < 3:
        return f"gc beside writers: of gc, flushes, refusals and looks only {met} in {seconds} s"
    print(f"gc beside two writers for {seconds} s: {met[0]} gc, {met[1]} flushes, {met[2]} times in use,"
          f" {met[3]} looks, nothing gone")
    return None


def kill_gc(program, file, moment, whole):
    """Kills a gc at such a moment, and says whether it still ran."""
    number, new = file.stat().st_ino, new_of(file)
    with subprocess.Popen([program, file, "gc"], stdout=subprocess.DEVNULL, stderr=subprocess.DEVNULL) as collecting:
        if moment == DRAWN_MOMENT:
            time.sleep(DRAWN.uniform(0, 1.1 * whole))
        elif moment == HALF_COPIED:
            wait_until(lambda: size_of(new) > 1000, collecting)
        else:
            wait_until(lambda: file.stat().st_ino != number, collecting)
        return kill(collecting)


def new_of(file):
    """The path of the new file of a gc."""
    return file.with_name(f"{file.name}.new")


def size_of(file):
    """The size of a file, 0 if there is none."""
    try:
        return file.stat().st_size
    except FileNotFoundError:
        return 0


def refused_beside(program, file, new):
    """Whether a gc of a file is refused by the name of a file that stands where its new one would, and leaves that."""
    content = new.read_bytes()
    done = run(program, file, "gc")
    return done.returncode == 3 and f"{new} is there already" in done.stderr and new.read_bytes() == content


def kept_by_killed(program, file, names, count):
    """What is wrong behind a gc that was killed, or None. What it left beside the file is removed, as gc asks."""
    new = new_of(file)
    if new.exists():
        if not refused_beside(program, file, new):
            return f"a gc beside {new.name} isn't refused by its name"
        new.unlink()
    test = run(program, file, "fsck")
    roots = roots_of(program, file)
    many = len(run(program, file, "tree", names["main"]).stdout.splitlines())
    if test.returncode or roots != names or many != count:
        told = f"{test.stdout[-200:]}{test.stderr[-200:]}"
        return f"fsck {told}, {len(roots)} of {len(names)} roots, {many} of {count} blobs"
    return None


def kills(program, folder, rounds):
    """Kills gc of a file: the file has to keep what its roots reach."""
    file, count = removed(folder / "collected.blobs"), 1_000
    lines, roots = chain(count, 600, count)
    serve(program, file, lines.replace("root last", "root main"))
    begun = time.time()
    run(program, file, "gc")
    whole, names, states, turns = time.time() - begun, {"main": roots[-1]}, [], 0
    while len(states) < rounds and turns < 10 * rounds:
        turns += 1
        data = f"r{turns}".encode()
        names[data.decode()] = key_of(data)
        serve(program, file, f"put {data.hex()}\nput ff{data.hex()}\nroot r{turns} {key_of(data)}\nflush\n")
        number = file.stat().st_ino
        met, is_half = kill_gc(program, file, turns % 3, whole), size_of(new_of(file)) > 1000
        is_old = file.stat().st_ino == number
        states += [REPLACED if not is_old else HALF_COPIED if is_half else DRAWN_MOMENT] if met else []
        fault = kept_by_killed(program, file, names, count)
        if fault:
            return f"gc killed, turn {turns}: {fault}"
    met = [states.count(state) for state in (DRAWN_MOMENT, HALF_COPIED, REPLACED)]
    if len(states) < rounds or not all(met[1:]):
        return f"gc killed: of {turns} kills {met} met one before the copy, in it, and behind the rename"
    print(f"gc killed: {sum(met)} kills of a running one, {met[0]} before the copy, {met[1]} in it, {met[2]} behind the"
          " rename: nothing lost")
    return None


def shows_same(program, file, shown, what):
    """What is wrong with a file that has to show what it showed, or None."""
    return None if seen(program, file) == shown else f"gc: a file shows something else behind {what}"


def access(program, file, shown):
    """Whether gc keeps a file's mode, and its owner where the test may set one, also behind a link."""
    owner = (12345, 23456) if os.geteuid() == 0 else (os.geteuid(), os.getegid())
    os.chown(file, *owner)
    file.chmod(0o640)
    number, link = file.stat().st_ino, file.with_name("link.blobs")
    link.symlink_to(file)
    done = run(program, link, "gc")
    new = file.stat()
    left = [it.name for it in file.parent.glob(f"{file.name}?*")]
    if left:
        return f"gc: {left} stand beside the file"
    if done.returncode or new.st_ino == number or not link.is_symlink():
        return f"gc behind a link: {done.stdout}{done.stderr}"
    if (new.st_mode & 0o7777, new.st_uid, new.st_gid) != (0o640, *owner):
        return f"gc: the mode is {new.st_mode:o}, the owner {new.st_uid}, the group {new.st_gid}"
    return shows_same(program, file, shown, "a gc of a link")


def refusals(program, file, shown):
    """Whether gc is refused beside a file that isn't its own and of a file with two names, fails on a full disk, and
    leaves all as it was."""
    new, other, before = new_of(file), file.with_name("other name"), file.read_bytes()
    log = file.with_name(f"{file.name}-wal")
    log.write_text("mine", encoding="utf-8")
    for taken in (lambda: new.write_text("mine", encoding="utf-8"), lambda: new.symlink_to("nothing")):
        taken()
        done = run(program, file, "gc")
        if done.returncode != 3 or f"{new} is there already" not in done.stderr or not os.path.lexists(new):
            return f"gc beside {new.name}: {done.stdout}{done.stderr}"
        new.unlink()
    os.link(file, other)
    done = run(program, file, "gc")
    if done.returncode != 3 or "the file has 2 names" not in done.stderr or new.exists():
        return f"gc of a file with two names: {done.stdout}{done.stderr}"
    other.unlink()
    done = run(program, file, "gc", preexec_fn=lambda: limit_files(20_000))
    if done.returncode != 3 or "the disk failed" not in done.stderr or new.exists():
        return f"gc on a full disk: {done.stdout}{done.stderr}"
    if log.read_text(encoding="utf-8") != "mine" or file.read_bytes() != before:
        return "gc that was refused: a file has changed"
    return shows_same(program, file, shown, "a gc that failed")


def garbage(program, file):
    """What a gc of a file leaves out, and that it asks for a file."""
    run(program, file, "put", text="0" * 5000)
    before, blobs = file.stat().st_size, len(run(program, file, "ls", "--all").stdout.splitlines())
    done = run(program, file, "gc")
    if done.stdout != f"{blobs - 1} blobs kept\n" or file.stat().st_size > before - 5000:
        return f"gc: {done.stdout} of {blobs}, {file.stat().st_size} bytes of {before}"
    return None


def keeps(program, folder):
    """What a gc keeps of a file, and when it is refused."""
    file = removed(folder / "kept.blobs")
    lines, _ = chain(100, 300, 100)
    serve(program, file, lines)
    shown = seen(program, file)
    fault = access(program, file, shown) or refusals(program, file, shown) or garbage(program, file)
    fault = fault or shows_same(program, file, shown, "a gc of what no root reaches")
    if not fault:
        print("gc keeps mode, owner and link, leaves out what no root reaches, and is refused by name beside a file"
              " that isn't its own and of a file with two names")
    return fault
