#!/usr/bin/env python3
"""Tries how `blob_host` opens files: beside a second writer and a reader, links, pipes, folders, devices, files and
folders that may only be read, names of every kind, a standard stream that is closed, and a file that loses its name
while others wait for it.

    tools/host_files/check.py [PROGRAM]

PROGRAM is the built `host_files`; without one it is built here, unproved, as tools/speed/build.py says. What needs a
user without rights runs as user 65534 where this runs as root. The status is 0 if all holds.
"""
import os
import pathlib
import socket
import subprocess
import sys
import tempfile
import threading
import time

sys.dont_write_bytecode = True
HERE = pathlib.Path(__file__).resolve().parent
sys.path.append(str(HERE.parent / "speed"))
import build  # noqa: E402

USES = "blob_host blob_file sqlite_disk anyhow"
NOBODY = 65534


class Faults(list):
    """What is wrong."""

    def want(self, case, said, wanted):
        """Notes a case in which something else than what is wanted was said."""
        if said != wanted:
            self.append(f"{case}: said {said!r}, wanted {wanted!r}")


def run(program, command, *paths, **more):
    """The lines that the program answers."""
    done = subprocess.run([program, command, *paths], stdin=subprocess.DEVNULL, capture_output=True, check=False,
                          timeout=20, **more)
    return (done.stdout + done.stderr).decode(errors="replace").splitlines()


def held(program, command, path):
    """A process that has a file open, and its lines so far."""
    process = subprocess.Popen([program, command, path], stdin=subprocess.PIPE, stdout=subprocess.PIPE, text=True)
    return process, process.stdout.readline().strip()


def let_go(process):
    """Ends such a process."""
    process.stdin.close()
    process.stdout.close()
    return process.wait()


def facts(path, is_named="true"):
    """The line for a file that is open, by what this program's system calls tell of it."""
    it = os.stat(path)
    return (f"opened {it.st_dev}:{it.st_ino} mode {it.st_mode & 0o7777:o} owner {it.st_uid}:{it.st_gid} "
            f"links {it.st_nlink} named {is_named}")


def state(folder):
    """All that stands in a folder, with the bytes of the files, but for times."""
    found = {}
    for path in sorted(folder.rglob("*")):
        it = path.lstat()
        found[path.name] = (it.st_mode, it.st_ino, it.st_nlink, path.read_bytes() if path.is_file() else None)
    return found


REFUSED = {
    "in use": "refused: the file is in use",
    "no file": "refused: the path names no regular file",
    "no write": "refused: the file may not be written",
    "no read": "refused: the file may not be read",
    "missing": "refused: there is no such file",
    "folder": "refused: there is no such folder",
    "ring": "refused: the path's links don't come to an end",
}
ONLY_READ = "write refused, cut refused, sync done"


def makes_and_writes(program, folder, faults):
    """A file that is made, and written."""
    file = folder / "made"
    said = run(program, "open", file, umask=0o027)
    faults.want("made", [said, file.read_bytes(), file.stat().st_mode & 0o7777], [[facts(file)], b"", 0o640])
    file.write_bytes(b"0123")
    faults.want("written", [run(program, "write", file), file.read_bytes()],
                [[facts(file), "wrote, 6 bytes"], b"012abc"])


def beside(program, folder, faults):
    """A writer beside others."""
    file = folder / "beside"
    file.write_bytes(b"kept")
    writer, said = held(program, "open", file)
    faults.want("writer", said, facts(file))
    faults.want("second open", run(program, "open", file), [REFUSED["in use"]])
    other = folder / "other name"
    os.link(file, other)
    faults.want("second open by a link", run(program, "open", other), [REFUSED["in use"]])
    faults.want("look beside a writer", run(program, "look", file), [facts(file), "4 bytes: kept", ONLY_READ])
    let_go(writer)
    faults.want("open behind a writer", run(program, "open", file, file), [facts(file), REFUSED["in use"]])
    reader, _ = held(program, "look", file)
    faults.want("open beside a reader", run(program, "open", file), [facts(file)])
    let_go(reader)
    faults.want("file beside others", file.read_bytes(), b"kept")


def other_kinds(program, folder, faults):
    """What is no regular file, and names that lead to none."""
    os.mkfifo(folder / "pipe")
    (folder / "inner").mkdir()
    with socket.socket(socket.AF_UNIX) as bound:
        bound.bind(str(folder / "socket"))
    (folder / "to pipe").symlink_to("pipe")
    (folder / "round").symlink_to("round")
    (folder / "file").write_bytes(b"kept")
    before = state(folder)
    for name in ("pipe", "inner", "socket", "to pipe", "."):
        for command in ("open", "look"):
            faults.want(f"{command} {name}", run(program, command, folder / name), [REFUSED["no file"]])
    for command in ("open", "look"):
        faults.want(f"{command} a device", run(program, command, "/dev/null"), [REFUSED["no file"]])
        faults.want(f"{command} below a file", run(program, command, folder / "file" / "x"), [REFUSED["folder"]])
        faults.want(f"{command} a link to itself", run(program, command, folder / "round"), [REFUSED["ring"]])
    faults.want("open in no folder", run(program, "open", folder / "none" / "x"), [REFUSED["folder"]])
    faults.want("look at nothing", run(program, "look", folder / "none"), [REFUSED["missing"]])
    faults.want("look in no folder", run(program, "look", folder / "none" / "x"), [REFUSED["missing"]])
    faults.want("other kinds", state(folder), before)


def links(program, folder, faults):
    """Files by links."""
    file = folder / "linked"
    file.write_bytes(b"kept")
    (folder / "to file").symlink_to("linked")
    os.link(file, folder / "second")
    for name in ("to file", "second"):
        for command, more in (("look", ["4 bytes: kept", ONLY_READ]), ("open", [])):
            faults.want(f"{command} {name}", run(program, command, folder / name), [facts(file), *more])
    faults.want("linked", file.read_bytes(), b"kept")
    (folder / "to new").symlink_to("new")
    faults.want("open a link to nothing", run(program, "open", folder / "to new"), [facts(folder / "new")])


def names(program, folder, faults):
    """Names of every kind."""
    for name in (b"a name", b"line\nfeed", "d\u00e9j\u00e0".encode(), b"-x", b"'\"$(x)*"):
        path = os.fsencode(folder) + b"/" + name
        faults.want(f"open {name}", run(program, "open", path), [facts(path)])
    said = run(program, "open", os.fsencode(folder) + b"/\xff\xfe")
    print(f"a name that isn't UTF-8: {said}")
    faults.want("relative name", run(program, "open", "made here", cwd=folder), [facts(folder / "made here")])
    faults.want("empty name", run(program, "open", "")[:1], [REFUSED["folder"]])


def rights(program, folder, faults):
    """Files and folders that may only be read."""
    plain = {"user": NOBODY, "group": NOBODY, "extra_groups": []} if os.geteuid() == 0 else {}
    file, shut = folder / "only read", folder / "shut"
    file.write_bytes(b"kept")
    file.chmod(0o444)
    shut.write_bytes(b"kept")
    shut.chmod(0)
    inner = folder / "only read folder"
    inner.mkdir()
    (inner / "file").write_bytes(b"kept")
    (inner / "file").chmod(0o666)
    inner.chmod(0o555)
    folder.chmod(0o755)
    before = state(folder) if os.geteuid() == 0 else None
    faults.want("look, only read", run(program, "look", file, **plain), [facts(file), "4 bytes: kept", ONLY_READ])
    faults.want("open, only read", run(program, "open", file, **plain), [REFUSED["no write"]])
    faults.want("look, shut", run(program, "look", shut, **plain), [REFUSED["no read"]])
    faults.want("open, shut", run(program, "open", shut, **plain), [REFUSED["no write"]])
    faults.want("make in a folder only read", run(program, "open", inner / "new", **plain), [REFUSED["no write"]])
    faults.want("open in a folder only read", run(program, "open", inner / "file", **plain), [facts(inner / "file")])
    faults.want("look in a folder only read", run(program, "look", inner / "file", **plain),
                [facts(inner / "file"), "4 bytes: kept", ONLY_READ])
    if before:
        faults.want("rights", state(folder), before)


def closed_streams(program, folder, faults):
    """A program without standard streams: what it prints may not land in the file."""
    file = folder / "streams"
    file.write_bytes(b"kept")
    subprocess.run(["sh", "-c", 'exec "$0" open "$1" >&- 2>&- <&-', program, file], check=False, timeout=20)
    faults.want("closed streams", file.read_bytes(), b"kept")


def lost_name(program, folder, faults):
    """Another file takes the name again and again: whoever has the lock has the file that the path names."""
    file, end, found = folder / "name", time.time() + 3, []
    file.write_bytes(b"0")

    def replace():
        number = 0
        while time.time() < end:
            number += 1
            (folder / "next").write_bytes(str(number).encode())
            os.rename(folder / "next", file)
            time.sleep(0.001 if number % 2 else 0)

    replacing = threading.Thread(target=replace)
    replacing.start()
    while time.time() < end:
        found += run(program, "open", file)
    replacing.join()
    odd = [line for line in found if not line.startswith(("opened ", "refused: the path names another"))]
    if odd or not any(line.startswith("opened ") for line in found):
        faults.append(f"lost name: {odd[:3]} of {len(found)}")
    print(f"a name that others take: {len(found)} opens, {sum(it.startswith('opened') for it in found)} of them Ok")


def waits(program, folder, faults):
    """A file is replaced while a writer holds the one that had the name: the new one can be opened."""
    file = folder / "replaced"
    file.write_bytes(b"old")
    writer, _ = held(program, "open", file)
    (folder / "newer").write_bytes(b"new")
    os.rename(folder / "newer", file)
    faults.want("open behind a rename", run(program, "look", file), [facts(file), "3 bytes: new", ONLY_READ])
    faults.want("write behind a rename", run(program, "open", file), [facts(file)])
    let_go(writer)


def blobs(program, folder, faults):
    """A file of blobs over such a disk: a header of 16 bytes, a gate, and 25 + 3 + 24 bytes for each batch."""
    file = folder / "blobs"
    faults.want("blobs", run(program, "blobs", file)[1:], ["blobs: 69 bytes"])
    faults.want("blobs again", run(program, "blobs", file)[1:], ["blobs: 121 bytes"])
    before = file.read_bytes()
    file.chmod(0o444)
    os.link(file, folder / "second")
    faults.want("fetch", run(program, "fetch", folder / "second")[1:], ["blob of 3 bytes"])
    (folder / "cut").write_bytes(before[:100])
    faults.want("fetch of a cut copy", run(program, "fetch", folder / "cut")[1:], ["blob of 3 bytes"])
    faults.want("cut copy", (folder / "cut").read_bytes(), before[:100])
    faults.want("look at blobs", run(program, "look", file)[-1:], [ONLY_READ])
    faults.want("blobs are kept", [file.read_bytes(), before[:16]], [before, b"pagable blobs 2\n"])


CASES = (makes_and_writes, beside, other_kinds, links, names, rights, closed_streams, lost_name, waits, blobs)


def main():
    """Runs all cases."""
    faults = Faults()
    with tempfile.TemporaryDirectory() as work:
        work = pathlib.Path(work)
        work.chmod(0o755)
        program = sys.argv[1] if sys.argv[1:] else build.compiled_in(
            work, build.source_in(work, HERE.parent.parent, HERE, USES), "-O1")
        for case in CASES:
            folder = work / case.__name__
            folder.mkdir()
            case(program, folder, faults)
    for fault in faults:
        print(fault)
    print(f"{len(CASES)} cases of files, {len(faults)} faults")
    sys.exit(1 if faults else 0)


if __name__ == "__main__":
    main()
