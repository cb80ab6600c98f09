"""What the tests of files of blobs share: the program's answers, chains of blobs, what a file shows and lacks."""
import hashlib
import random
import re
import resource
import shutil
import signal
import subprocess
import time

DRAWN = random.Random()


def run(program, file, *words, text="", **more):
    """What the program answers to a command, or to lines of input."""
    return subprocess.run([program, file, *map(str, words)], input=text, capture_output=True, encoding="utf-8",
                          errors="replace", check=False, timeout=100, **more)


def serve(program, file, text="", **more):
    """What the program answers to lines of input."""
    return run(program, file, "serve", text=text, **more)


def roots_of(program, file):
    """The names of roots that a file shows, each with its key."""
    return dict(re.findall(r"(?m)^(.*) ([0-9a-f]{32}) \d+ versions$", run(program, file, "ls").stdout))


def key_of(data, children=()):
    """The key of a blob, as the program shows it."""
    preimage = len(children).to_bytes(8, "little") + data + b"".join(map(bytes.fromhex, children))
    return hashlib.sha256(preimage).digest()[:16].hex()


def chain(count, size, batch):
    """Lines that store so many blobs in a chain, each over the one before, and the last one's key at each flush."""
    lines, roots, below = [], [], []
    for number in range(count):
        data = DRAWN.randbytes(size)
        lines.append(" ".join(["put", data.hex(), *below]))
        below = [key_of(data, below)]
        if number % batch == batch - 1:
            lines += [f"root last {below[0]}", "flush"]
            roots.append(below[0])
    return "\n".join(lines) + "\n", roots


def removed(file):
    """A file's path, with nothing there."""
    file.unlink(missing_ok=True)
    return file


def alone(file):
    """A copy of a file."""
    copy = removed(file.with_name(f"{file.name}.copy"))
    shutil.copy(file, copy)
    return copy


def seen(program, file):
    """All that a file shows but for versions: what `fsck` says, its blobs, its roots, and what each of them reaches."""
    test, roots = run(program, file, "fsck"), roots_of(program, file)
    trees = [run(program, file, "tree", key).stdout for key in roots.values()]
    return test.returncode, test.stdout, run(program, file, "ls", "--all").stdout, roots, trees


def flushes(said):
    """How many flushes were answered; a last line that was cut off doesn't count."""
    return said.split("\n")[:-1].count("flushed")


def lost(program, file, roots, answered, batch):
    """What a file lacks of what flushes had answered, or None. (A kill may come before there is a file.)"""
    if not file.exists() and not answered:
        return None
    test = run(program, file, "fsck")
    if test.returncode:
        return f"fsck: {test.stdout[-200:]}{test.stderr[-200:]}"
    if not answered:
        return None
    root = roots_of(program, file)
    if list(root) != ["last"] or root["last"] not in roots[answered - 1:]:
        return f"the root is {root} after {answered} flushes"
    count = len(run(program, file, "tree", root["last"]).stdout.splitlines())
    if count < answered * batch:
        return f"the root reaches {count} blobs of {answered * batch}"
    return None


def wait_until(holds, process):
    """Waits until something holds, or a process has ended."""
    while not holds() and process.poll() is None:
        time.sleep(0)


def limit_files(most):
    """Lets no file of this process grow past so many bytes."""
    signal.signal(signal.SIGXFSZ, signal.SIG_IGN)
    resource.setrlimit(resource.RLIMIT_FSIZE, (most, most))


def kill(process):
    """Kills a process, and says whether it still ran."""
    process.send_signal(signal.SIGKILL)
    return process.wait() == -signal.SIGKILL
