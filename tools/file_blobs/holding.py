"""Runs each command of `blobctl` that writes beside a second process: one that holds the file open, and one that runs
the same command at the same moment."""
import subprocess
import threading
import time

from asking import key_of, removed, run, seen

IN_USE = "the file is in use\n"


class Holder:
    """A process that has a file open to write it, until it is let go."""

    def __init__(self, program, file):
        how = {"stdin": subprocess.PIPE, "stdout": subprocess.PIPE, "text": True, "bufsize": 1}
        self.process = subprocess.Popen([program, file, "serve"], **how)
        self.process.stdin.write("stat\n")
        self.process.stdout.readline()

    def let_go(self):
        """Ends the process, and returns its status."""
        self.process.stdin.close()
        self.process.stdout.close()
        return self.process.wait()


def commands(file, source):
    """The commands that write and those that look, over a file with a root `main`."""
    key = key_of(b"one")
    writes = [["put"], ["put", source], ["root", "side", key], ["drop", "main"], ["gc"], ["gc", "--keep", "2"], ["serve"],
              ["import-old", source], ["cache", "put", "aa", source, "--wait", "0"], ["cache", "trim", "0", "--wait", "0"]]
    looks = [["ls"], ["ls", "--all"], ["log", "main"], ["cat", "main"], ["tree", "main"], ["dot", "main"], ["stat"],
             ["fsck"], ["diff", "main", key], ["copy", removed(file.with_name("held.copy"))], ["cache", "stat"],
             ["export-db", removed(file.with_name("held.db"))]]
    return writes, looks


def made(program, folder):
    """A file with a root, and a file to put."""
    file, source = removed(folder / "held.blobs"), folder / "source"
    source.write_text("source", encoding="utf-8")
    run(program, file, "put", text="one")
    run(program, file, "root", "main", key_of(b"one"))
    return file, source


def refused_beside(program, file, writes, looks):
    """What is wrong with commands beside a process that holds the file, or None: one that writes is refused and writes
    nothing, one that looks answers."""
    before = file.read_bytes()
    for words in writes:
        done = run(program, file, *words, text="two")
        why = "is there already" if words[0] == "import-old" else IN_USE
        if done.returncode != 3 or why not in done.stderr or done.stdout or file.read_bytes() != before:
            return f"'{words}' beside a process that has the file: {done}"
    for words in looks:
        done = run(program, file, *words)
        if done.returncode or done.stderr or file.read_bytes() != before:
            return f"'{words}' beside a process that has the file: {done}"
    left = [it.name for it in file.parent.glob(f"{file.name}?*")]
    return f"{left} stand beside the file" if left else None


def waits(program, file, source):
    """What is wrong with a put into the cache and a trim that wait for a process that has the file, or None."""
    for words in (["cache", "put", "ab", source], ["cache", "trim", "100K"]):
        holder, done = Holder(program, file), []
        waiting = threading.Thread(target=lambda: done.append(run(program, file, *words, "--wait", "60")))
        waiting.start()
        time.sleep(0.3)
        early = bool(done)
        status = holder.let_go()
        waiting.join()
        if early or status or done[0].returncode:
            return f"'{words}' in turn: {early} {status} {done}"
    done = run(program, file, "cache", "get", "ab")
    return None if (done.returncode, done.stdout) == (0, "source") else f"what was put in turn: {done}"


def at_once(program, folder):
    """What is wrong with each command that writes if two processes run it at the same moment, or None: one of them
    succeeds, and the other one too or is told that the file is in use. The file shows the same then."""
    rounds, refused = 4, 0
    for turn in range(rounds):
        file, source = made(program, folder)
        for words in commands(file, source)[0]:
            if words[0] in ("serve", "import-old"):
                continue
            start = lambda words=words: subprocess.Popen([program, file, *map(str, words)], stdin=subprocess.PIPE,
                                                         stdout=subprocess.PIPE, stderr=subprocess.PIPE, text=True)
            both = [start(), start()]
            told = [it.communicate("two") for it in both]
            odd = [(it.returncode, *text) for it, text in zip(both, told)
                   if it.returncode and not (it.returncode == 3 and text[1].endswith(IN_USE)) and words[0] != "drop"]
            refused += sum(it.returncode == 3 for it in both)
            if odd or not any(it.returncode == 0 for it in both) or run(program, file, "fsck").returncode:
                return f"two of '{words}' at once, round {turn}: {[it.returncode for it in both]} {told}"
    return refused


def second(program, folder):
    """Runs each command beside a second process."""
    file, source = made(program, folder)
    shown, holder = seen(program, file), Holder(program, file)
    writes, looks = commands(file, source)
    fault = refused_beside(program, file, writes, looks)
    status = holder.let_go()
    if fault or status or seen(program, file) != shown:
        return f"beside a second process: {fault} {status}"
    if fault := waits(program, file, source):
        return f"beside a second process: {fault}"
    if not isinstance(count := at_once(program, folder), int):
        return count
    print(f"beside a second process: {len(writes)} commands that write are refused or wait, {len(looks)} look; of pairs at"
          f" once {count} commands were told that the file is in use")
    return None
