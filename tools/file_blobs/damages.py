"""Damages files of blobs: each byte of a small file in turn, and files that another program made, with flaws past the
sums; and opens what is no file of blobs, or may not be opened.

What a damaged file shows is compared with what plain_file.py reads of it. Each flaw that `fsck` tells, and each cause
for which a file isn't opened, has to be met.
"""
import os
import pathlib
import re
import resource
import subprocess

from asking import limit_files, removed, run, serve
from plain_file import PlainFile, Refused, batch, blob, file_of, key_of

SOURCE = pathlib.Path(__file__).resolve().parent.parent.parent / "crates" / "pagable_file" / "src"
# A chain of three blobs, each over the one before, and one that is nowhere.
FIRST = blob(b"first")
SECOND = blob(b"second", [FIRST[0]])
THIRD = blob(b"third", [SECOND[0]])
ABSENT = blob(b"absent")[0]
OTHER = "07" * 16
# What `fsck` has to tell of files, each by its blobs and its names.
FLAWED = [
    ([FIRST, SECOND, THIRD], [(b"main", THIRD[0])], []),
    ([FIRST, (SECOND[0], 1, SECOND[2][:-1] + b"D")], [], [f"{SECOND[0]} has another key"]),
    ([(OTHER, *FIRST[1:])], [(b"main", OTHER)], [f"{OTHER} has another key"]),
    ([(SECOND[0], 0, SECOND[2])], [], [f"{SECOND[0]} has another key"]),
    ([SECOND, THIRD], [], [f"{SECOND[0]} refers to {FIRST[0]}, which is missing"]),
    ([blob(b"", [ABSENT, ABSENT])], [], [f"{blob(b'', [ABSENT, ABSENT])[0]} refers to {ABSENT}, which is missing"] * 2),
    ([FIRST], [(b"main", ABSENT), (b"other", FIRST[0])], [f"root main is {ABSENT}, which is missing"]),
    ([FIRST], [(b"a\nb", ABSENT)], [f"root a\\nb is {ABSENT}, which is missing"]),
    ([(OTHER, 1, bytes(16) + b"x")], [(b"main", OTHER)], [f"what stands under {OTHER} is no blob"]),
    ([("00" * 16, *FIRST[1:])], [], [f"what stands under {'00' * 16} is no blob"]),
    ([(OTHER, 1, SECOND[2])], [], [f"{OTHER} has another key", f"{OTHER} refers to {FIRST[0]}, which is missing"]),
]
# What `fsck NAME` has to tell of files: the flaws, and how many blobs the name reaches.
TOP = blob(b"top", [SECOND[0], FIRST[0], SECOND[0]])
STRAY = (OTHER, 1, bytes(16) + b"x")
UNDER = [
    ([FIRST, SECOND, THIRD, (OTHER, *FIRST[1:])], [(b"main", THIRD[0]), (b"bad", OTHER)], "main", [], 3),
    ([FIRST, SECOND, (OTHER, *FIRST[1:])], [(b"bad", OTHER)], "bad", [f"{OTHER} has another key"], 1),
    ([SECOND, THIRD], [(b"main", THIRD[0])], "main", [f"{SECOND[0]} refers to {FIRST[0]}, which is missing"], 2),
    ([SECOND, TOP], [(b"a name", TOP[0])], "a name",
     [f"{it[0]} refers to {FIRST[0]}, which is missing" for it in (SECOND, TOP)], 2),
    ([FIRST, STRAY], [(b"main", ABSENT), (b"other", FIRST[0])], "main",
     [f"root main is {ABSENT}, which is missing"], 0),
    ([FIRST, STRAY], [(b"main", ABSENT), (b"other", FIRST[0])], "other", [], 1),
    ([STRAY], [(b"main", OTHER)], "main", [f"what stands under {OTHER} is no blob"], 1),
    ([STRAY], [(b"main", OTHER)], "none", ["no root is called none"], None),
]
# For each kind of flaw, a pattern of the lines that tell it.
FLAWS = {
    "StrayBlob": r"what stands under [0-9a-f]{32} is no blob",
    "WrongKey": r"[0-9a-f]{32} has another key",
    "MissingChild": r"[0-9a-f]{32} refers to [0-9a-f]{32}, which is missing",
    "MissingRoot": r"root \S+ is [0-9a-f]{32}, which is missing",
}
# For each cause for which a file isn't opened, what is said of it. (tools/host_files meets Replaced.)
CAUSES = {
    "OutOfMemory": "out of memory",
    "InUse": "the file is in use",
    "NotAFile": "the path names no regular file",
    "MayNotWrite": "the file may not be written",
    "MayNotRead": "the file may not be read",
    "Missing": "there is no such file",
    "FolderMissing": "there is no such folder",
    "LinkLoop": "the path's links don't come to an end",
    "NotBlobs": "the file is none of blobs",
    "Damaged": "the file is damaged",
    "Io": "the disk failed",
}
NOBODY = 65534
# What `fsck` says of bytes that don't count.
TAIL = re.compile(r"(\d+) bytes behind the last flush are ignored")


def variants(file, name):
    """The variants of an enum in a file of the crate."""
    text = (SOURCE / file).read_text(encoding="utf-8")
    return set(re.findall(r"(?m)^    (\w+)", re.search(rf"pub enum {name} {{(.*?)\n}}", text, re.S)[1]))


def flaws_in(said):
    """The lines of an answer of `fsck` that tell flaws."""
    return [line for line in said.splitlines()[:-1] if not TAIL.fullmatch(line)]


def flaws(program, folder):
    """Tests files with flaws that no sum tells: `fsck` has to name each, and no other."""
    file, met = folder / "flawed.blobs", []
    for blobs, names, wanted in FLAWED:
        file.write_bytes(file_of(batch(blobs, names)))
        test = run(program, file, "fsck")
        found = flaws_in(test.stdout)
        if sorted(found) != sorted(wanted) or test.returncode != int(bool(wanted)):
            return f"flaws: {found} in place of {wanted}; {test.stderr}"
        met += found
    kinds = {kind for kind, line in FLAWS.items() if any(re.fullmatch(line, it) for it in met)}
    if kinds != variants("fsck.rt", "Flaw"):
        return f"flaws: of {variants('fsck.rt', 'Flaw')} only {kinds} were met"
    print(f"flaws: fsck names the {len(met)} flaws of {len(FLAWED)} files, of {len(kinds)} kinds")
    return None


def flaws_under(program, folder):
    """Tests what roots reach: `fsck NAME` has to name each flaw of that, and no other."""
    file = folder / "under.blobs"
    for blobs, names, name, wanted, count in UNDER:
        file.write_bytes(file_of(batch(blobs, names)))
        test = run(program, file, "fsck", name)
        lines = [*wanted] if count is None else [*wanted, f"{count} blobs, {len(wanted)} flaws"]
        said = test.stdout + test.stderr.removeprefix(f"blobctl: {file}: ")
        if sorted(said.splitlines()) != sorted(lines) or test.returncode != int(bool(wanted)):
            return f"fsck {name}: {test.stdout}{test.stderr} in place of {lines}"
    print(f"flaws: fsck NAME names those of what the name reaches, in {len(UNDER)} files")
    return None


def looked(program, file):
    """What a file shows: its blobs, names and flaws, and how many bytes don't count; or why it isn't opened."""
    shown = [run(program, file, *words) for words in (["ls", "--all"], ["ls"], ["fsck"])]
    if any("blobctl:" in it.stderr for it in shown):
        return {it.stderr.strip().rpartition(": ")[2] for it in shown}
    listed, roots, _ = [it.stdout.splitlines() for it in shown]
    tail = [int(found[1]) for found in map(TAIL.fullmatch, shown[2].stdout.splitlines()) if found]
    return sorted(listed), sorted(roots), sorted(flaws_in(shown[2].stdout)), sum(tail)


def plainly(content):
    """The same of a file with this content, by plain_file.py."""
    try:
        plain = PlainFile(content)
    except Refused as refused:
        return {str(refused)}
    found = []
    for key, (children, body) in plain.blobs.items():
        found += [f"{key} has another key"] if key_of(body, children) != key else []
        missing = [it for it in plain.children(key) if it not in plain.blobs]
        found += [f"{key} refers to {it}, which is missing" for it in missing]
    found += [f"root {name} is {key}, which is missing" for name, key in plain.names.items() if key not in plain.blobs]
    return plain.listed(), plain.roots(), sorted(found), max(0, len(content) - max(plain.end, 16) - 1)


def small(program, file):
    """A file of three batches that the program made: the last takes a name away."""
    lines = ["put 6669727374", f"root main {FIRST[0]}", f"root side {FIRST[0]}", "flush"]
    lines += [f"put 7365636f6e64 {FIRST[0]}", f"root main {SECOND[0]}", "flush", "drop side", "flush"]
    serve(program, removed(file), "\n".join(lines) + "\n")
    content = file.read_bytes()
    by_hand = file_of(
        batch([FIRST], [(b"main", FIRST[0]), (b"side", FIRST[0])]),
        batch([SECOND], [(b"main", SECOND[0])]),
        batch([], [(b"side", None)]),
    )
    return content, by_hand


def each_byte(program, folder):
    """Changes each byte of a small file in turn: the file shows what plain_file.py reads of it."""
    content, by_hand = small(program, folder / "small.blobs")
    if content != by_hand:
        return f"each byte: the program made {content}, by hand it is {by_hand}"
    file, whole, counts = folder / "byte.blobs", plainly(content), {}
    for at, byte in enumerate(content):
        turned = byte ^ (0x01, 0x41, 0xFF)[at % 3]
        bad = content[:at] + bytes([turned]) + content[at + 1 :]
        file.write_bytes(bad)
        found, wanted = looked(program, file), plainly(bad)
        if found != wanted or file.read_bytes() != bad:
            return f"byte {at} of {len(content)} made {turned}: {found} in place of {wanted}"
        seen = "unseen" if found == whole else "hidden"
        kind = "refused" if isinstance(found, set) else "named" if found[2] else seen
        counts[kind] = counts.get(kind, 0) + 1
    if counts.keys() != {"refused", "named", "unseen", "hidden"} or counts["unseen"] != 1:
        return f"each byte: {counts}"
    said = ", ".join(f"{kind} {count}" for kind, count in counts.items())
    print(f"each of {len(content)} bytes changed, as plain_file.py has it: {said}")
    return None


def each_length(program, folder):
    """Cuts a small file at each length: it shows its whole batches, also once it was opened to be written."""
    content, _ = small(program, folder / "whole.blobs")
    file = folder / "cut.blobs"
    for length in range(len(content)):
        file.write_bytes(content[:length])
        wanted = plainly(content[:length])
        found = looked(program, file)
        serve(program, file)
        again = looked(program, file)
        if not found == again == wanted:
            return f"cut at {length}: {found}, and {again} once it was opened, in place of {wanted}"
    print(f"cut at each of {len(content)} lengths: whole batches are shown, and no other")
    return None


def in_use(program, file):
    """Opens a file that another process has open."""
    with subprocess.Popen([program, file, "serve"], stdin=subprocess.PIPE, stdout=subprocess.PIPE, text=True) as first:
        first.stdin.write("put 01\n")
        first.stdin.flush()
        first.stdout.readline()
        said = serve(program, file)
        first.stdin.close()
    return said


def without_memory(program, file):
    """Opens a file of many blobs with less and less memory, until that isn't enough."""
    file.write_bytes(file_of(batch([(f"{number:032x}", 0, b"") for number in range(1, 20_000)])))
    most = 2**25
    limit = lambda: resource.setrlimit(resource.RLIMIT_AS, (most, most))
    said = serve(program, file, preexec_fn=limit)
    while said.returncode == 0 and most > 2**16:
        most = most * 49 // 50
        said = serve(program, file, preexec_fn=limit)
    return said


def opens(program, folder):
    """Opens files for which each cause of a refusal holds: it has to be named, and what is there stays as it is."""
    inner = folder / "opened"
    inner.mkdir()
    folder.chmod(0o755)
    plain = {"user": NOBODY, "group": NOBODY, "extra_groups": []} if os.geteuid() == 0 else {}
    names = ("whole", "other", "damaged", "shut", "fresh", "ring")
    whole, other, damaged, shut, fresh, ring = (inner / name for name in names)
    content = file_of(batch([FIRST]))
    bad = content[:33] + b"?" + content[34:]
    for file, text in ((whole, content), (other, b"no blobs"), (damaged, bad), (shut, content)):
        file.write_bytes(text)
    shut.chmod(0)
    ring.symlink_to(ring.name)
    said = {
        "OutOfMemory": without_memory(program, inner / "many"),
        "InUse": in_use(program, whole),
        "NotAFile": run(program, inner, "stat"),
        "MayNotWrite": serve(program, shut, **plain),
        "MayNotRead": run(program, shut, "stat", **plain),
        "Missing": run(program, fresh, "stat"),
        "FolderMissing": serve(program, fresh / "a"),
        "LinkLoop": run(program, ring, "stat"),
        "NotBlobs": run(program, other, "stat"),
        "Damaged": run(program, damaged, "stat"),
        "Io": serve(program, fresh, preexec_fn=lambda: limit_files(0)),
    }
    wrong = [f"{cause}: {it.stdout}{it.stderr}" for cause, it in said.items()
             if not it.stderr.endswith(f": {CAUSES[cause]}\n") or it.stdout or it.returncode != 3]
    wrong += [f"no test meets {cause}" for cause in (variants("open_error.rt", "OpenError") ^ set(said)) - {"Replaced"}]
    if [whole.read_bytes(), other.read_bytes(), damaged.read_bytes()] != [content, b"no blobs", bad]:
        wrong.append("a file that was refused has changed")
    if wrong:
        return f"opens: {'; '.join(wrong)}"
    print(f"opens: each of {len(said)} causes is named")
    return None
