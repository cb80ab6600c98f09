"""Tries files of blobs that may only be read, that have several names or odd ones, and what is no file."""
import os
import stat
import subprocess

from asking import key_of, run, serve

NOBODY = 65534
KEY = key_of(b"\x01")
LOOKS = (["stat"], ["ls"], ["ls", "--all"], ["fsck"], ["fsck", "main"], ["cat", KEY], ["tree", "main"], ["dot", "main"])


def state(folder):
    """All that stands in a folder, with the bytes of the files, but for times."""
    found = {}
    for path in sorted(folder.rglob("*")):
        it = path.lstat()
        content = path.read_bytes() if path.is_file() and it.st_mode & 0o400 else None
        found[path.name] = (it.st_mode, it.st_ino, it.st_nlink, content)
    return found


def looks(program, file, **more):
    """The commands that look at a file and fail."""
    return [words for words in LOOKS if run(program, file, *words, **more).returncode]


def made(program, folder):
    """A file with a blob under a name, in a folder of its own."""
    folder.mkdir()
    file = folder / "a.blobs"
    serve(program, file, f"put 01\nroot main {KEY}\nflush\n")
    return file


def rights(program, folder):
    """Looks at files and folders that may only be read, and tries to write to them."""
    plain = {"user": NOBODY, "group": NOBODY, "extra_groups": []} if os.geteuid() == 0 else {}
    file = made(program, folder / "rights")
    for path in (folder, file.parent):
        path.chmod(0o755)
    file.chmod(0o444)
    file.parent.chmod(0o555)
    before = state(file.parent)
    if failed := looks(program, file, **plain):
        return f"a file that may only be read: {failed} fail"
    for words in (["put"], ["gc"], ["root", "other", "main"], ["drop", "main"], ["serve"]):
        done = run(program, file, *words, **plain)
        if done.returncode != 3 or "the file may not be written" not in done.stderr:
            return f"'{words[0]}' to a file that may only be read: {done.stdout}{done.stderr}"
    done = run(program, file.with_name("new"), "put", **plain)
    if done.returncode != 3 or "the file may not be written" not in done.stderr or state(file.parent) != before:
        return f"a new file in a folder that may only be read: {done.stdout}{done.stderr}"
    file.chmod(0o666)
    done = run(program, file, "gc", **plain)
    if plain and (done.returncode != 3 or "Permission denied" not in done.stderr or len(state(file.parent)) != 1):
        return f"gc in a folder that may only be read: {done.stdout}{done.stderr}"
    print("a file and a folder that may only be read are looked at and not written")
    return None


def links(program, folder):
    """Looks at and writes files by other names of theirs; a link to nothing, to itself, a pipe and a device."""
    file = made(program, folder / "links")
    hard, soft, ring, pipe = (file.with_name(name) for name in ("hard", "soft", "ring", "pipe"))
    os.link(file, hard)
    soft.symlink_to(file.name)
    ring.symlink_to("ring")
    os.mkfifo(pipe)
    for name in (hard, soft):
        data = name.name.encode()
        if looks(program, name) or run(program, name, "put", text=name.name).stdout != f"{key_of(data)}\n":
            return f"a file by its name {name.name} can't be looked at or written"
    if run(program, file, "stat").stdout != "3 blobs, 9 bytes, 1 names\n":
        return "what was written by other names isn't there"
    before = state(file.parent)
    for name in (ring, pipe, file.parent, "/dev/null", "/dev/zero", file / "x"):
        for words in (["stat"], ["put"], ["gc"], ["serve"]):
            done = run(program, name, *words)
            if done.returncode != 3 or not done.stderr.startswith(f"blobctl: {name}: ") or done.stdout:
                return f"'{words[0]}' of {name}: {done.returncode} {done.stdout}{done.stderr}"
    if state(file.parent) != before:
        return "what is no file of blobs has changed"
    print("hard and symbolic links are followed; a pipe, a folder, devices and a link to itself are refused")
    return None


def outputs(program, folder):
    """Entries of a cache are written over a file, over the one to which a link leads, and into a pipe. Where they can't
    be written the path is told, and a miss is told by the status alone."""
    folder = folder / "outputs"
    folder.mkdir()
    store, plain, target, link, pipe, new = (folder / it for it in ("store", "plain", "target", "link", "pipe", "new"))
    plain.write_text("old")
    target.write_text("older")
    link.symlink_to("target")
    os.mkfifo(pipe)
    reader = os.open(pipe, os.O_RDONLY | os.O_NONBLOCK)
    run(program, store, "cache", "put", "ab", "-", text="entry")
    told = [run(program, store, "cache", "get", "ab", "-o", path) for path in (plain, link, pipe, new)]
    found = [path.read_text() for path in (plain, target, new)] + [os.read(reader, 100).decode()]
    os.close(reader)
    if any(it.returncode or it.stdout or it.stderr for it in told) or found != ["entry"] * 4:
        return f"outputs: {told} {found}"
    if not link.is_symlink() or not stat.S_ISFIFO(pipe.lstat().st_mode) or len(list(folder.iterdir())) != 6:
        return f"outputs: {sorted(folder.iterdir())}"
    for path in (folder, folder / "none" / "x"):
        done = run(program, store, "cache", "get", "ab", "-o", path)
        if done.returncode != 3 or not done.stderr.startswith(f"blobctl: {store}: {path}: "):
            return f"outputs: to {path}: {done}"
    miss = run(program, store, "cache", "get", "cd", "-o", plain)
    if (miss.returncode, miss.stdout, miss.stderr, plain.read_text()) != (1, "", "", "entry"):
        return f"outputs: a miss gives {miss}"
    print("outputs: entries go over a file, through a link and into a pipe")
    return None


def names(program, folder):
    """Files with odd names, also for `gc`, `copy` and the new file beside."""
    folder = folder / "names"
    folder.mkdir()
    odd = ["a name", "line\nfeed", "d\u00e9j\u00e0", "'\"$(x)*", "stat", "./-x", "x" * 252, ":memory:", "file:a"]
    how = {"cwd": folder, "input": "\1", "capture_output": True, "text": True, "check": False}
    for name in odd:
        said = subprocess.run([program, name, "put"], **how)
        if said.stdout != f"{KEY}\n" or not (folder / name).exists():
            return f"a file called {name!r}: {said.stdout}{said.stderr}"
        done = subprocess.run([program, name, "gc"], **how)
        if (done.stdout == "0 blobs kept\n") != (len(name) < 252):
            return f"gc of a file called {name!r}: {done.stdout}{done.stderr}"
    if (left := sorted(it.name for it in folder.iterdir())) != sorted(name.removeprefix("./") for name in odd):
        return f"odd names: {left}"
    said = subprocess.run([program, "", "put"], **how)
    if said.returncode != 3 or said.stdout:
        return f"an empty name: {said.stdout}{said.stderr}"
    print(f"{len(odd)} odd names")
    return None
