"""Compares what `blobctl` tells of the difference of two roots, and in JSON, with plain_tool.py, over files that drawn
lines made; and tests that `diff` reads only what differs."""
import json
import re

from asking import DRAWN, removed, run, serve
from plain_file import PlainFile, batch, blob, file_of
from plain_tool import PlainTool, Refused
from plainly import NAMES, drawn_line, drawn_word

TOLD = re.compile(r"([-+]) ([0-9a-f]{32}) (?:\d+ bytes, \d+ children|missing)\n")


def drawn_file(program, file, count):
    """A plain tool, and a file that has what it has: what so many drawn lines made."""
    tool = PlainTool()
    lines = [line for line in (drawn_line(tool) for _ in range(count)) if not tool.answer(line).startswith("error")]
    serve(program, removed(file), "".join(f"{line}\n" for line in [*lines, "flush"]))
    return tool


def drawn_graph(program, file):
    """A plain tool, and a file that has what it has: blobs, each over some of those before it, of which one is missing,
    and versions of two roots."""
    tool, keys, lines = PlainTool(), ["12" * 16], []
    for number in range(40):
        children = DRAWN.sample(keys[-12:], min(len(keys), DRAWN.randrange(4)))
        lines.append(" ".join(["put", f"{number:04x}", *children]))
        keys.append(tool.answer(lines[-1]).strip())
        lines.append(f"root {DRAWN.choice(NAMES[:2])} {keys[-1]}")
        tool.answer(lines[-1])
    serve(program, removed(file), "".join(f"{line}\n" for line in [*lines, "flush"]))
    return tool


def drawn_root(tool):
    """A word of a root: a key, the first digits of one, a version of a name, or seldom any word."""
    key = DRAWN.choice(sorted(tool.blobs))
    name = DRAWN.choice(sorted(tool.names))
    version = f"{name}~{DRAWN.randrange(len(tool.versions[name]))}"
    return DRAWN.choice([key, key[:8], name, version, version, drawn_word(tool)])


def plainly(call, *words):
    """What a plain call answers, or why it refuses."""
    try:
        return call(*words), None
    except Refused as refused:
        return None, str(refused)


def told(text):
    """The keys that a difference tells, each list in its order, or None if a line is none of its."""
    found = TOLD.findall(text)
    if sum(len(it[0]) for it in TOLD.finditer(text)) != len(text):
        return None
    return tuple([key for sign, key in found if sign == own] for own in "-+")


def fault_of_near(tool, words, lists):
    """What is wrong with what `diff` tells without `--exact`, or None: it has all that one root reaches alone, nothing
    that this root doesn't reach, and nothing twice, in order."""
    roots = [tool.find(word) for word in words]
    for root, keys, own in zip(roots, lists, tool.compare(words)):
        if keys != sorted(keys) or not set(own) <= set(keys) <= tool.reached_there(root):
            return f"{keys} with {own} alone"
    return "a key is told of both" if set(lists[0]) & set(lists[1]) else None


def compared(program, file, tool, words):
    """What is wrong with the difference of two words, exact or not, or None; and whether both are the same, or None if
    the words are refused."""
    wanted, refused = plainly(tool.diff, *words)
    status = 1 if refused or wanted else 0
    exact, near = run(program, file, "diff", "--exact", *words), run(program, file, "diff", *words)
    why = f"blobctl: {file}: {refused}\n" if refused else ""
    if (exact.returncode, exact.stdout, exact.stderr) != (status, wanted or "", why):
        return f"{words}: {exact} in place of {status} {wanted} {why}", None
    if refused:
        return (None if (near.returncode, near.stdout, near.stderr) == (1, "", why) else f"{words}: {near}"), None
    lists = told(near.stdout)
    if lists is None or near.returncode != int(bool(near.stdout)) or near.stderr:
        return f"{words}: {near}", None
    return fault_of_near(tool, words, lists), near.stdout == exact.stdout


def differences(program, folder):
    """Compares drawn pairs of words, of which some name no blob, or one that refers to a missing one."""
    counts = {True: 0, False: 0, None: 0}
    for turn in range(6):
        tool = drawn_graph(program, folder / "differences.blobs")
        for _ in range(25):
            words = (drawn_root(tool), drawn_root(tool))
            fault, is_same = compared(program, folder / "differences.blobs", tool, words)
            if fault:
                return f"differences, round {turn}: {fault}"
            counts[is_same] += 1
    same, other, refused = counts.values()
    if min(same, other, refused) < 5:
        return f"differences: {same} have the exact answer at once, {other} don't, {refused} are refused"
    print(f"differences: of {same + other} pairs {same} have the exact answer at once, {refused} pairs are refused")
    return None


def levels(count, width):
    """Blobs of a tree of so many levels, each blob with so many children, the root first."""
    made, below = [], [blob(DRAWN.randbytes(20)) for _ in range(width ** count)]
    while len(below) > 1:
        made = below + made
        groups = [below[at : at + width] for at in range(0, len(below), width)]
        below = [blob(DRAWN.randbytes(20), [key for key, _, _ in group]) for group in groups]
    return below + made


def changed_path(blobs, width):
    """The blobs that a tree gets where its first leaf has other bytes, the root first: those on the path there."""
    path, at = [blobs[0]], 0
    while path[-1][1]:
        at = width * at + 1
        path.append(blobs[at])
    leaf = blob(b"another leaf")
    made = [leaf]
    for key, children, body in reversed(path[:-1]):
        keys = [body[place : place + 16].hex() for place in range(0, 16 * children, 16)]
        made.insert(0, blob(body[16 * children :], [made[0][0], *keys[1:]]))
    return path, made


def damaged(content, key):
    """A file in which the last byte of the body of a blob is another one."""
    plain = PlainFile(content)
    place = content.index(plain.blobs[key][1])
    last = place + len(plain.blobs[key][1]) - 1
    return content[:last] + bytes([content[last] ^ 1]) + content[last + 1 :]


def reads_what_differs(program, folder):
    """Compares two trees of 4,096 leaves, of which one leaf is another: the lines are those of the paths there, also
    where a blob that both share is damaged, which an exact comparison has to read."""
    file, width = removed(folder / "trees.blobs"), 8
    blobs = levels(4, width)
    old, new = changed_path(blobs, width)
    content = file_of(batch(blobs), batch(new, [(b"old", old[0][0]), (b"new", new[0][0])]))
    line = lambda sign, it: f"{sign} {it[0]} {len(it[2]) - 16 * it[1]} bytes, {it[1]} children\n"
    wanted = "".join(line(sign, it) for sign, path in (("-", old), ("+", new)) for it in sorted(path))
    shared = [blobs[2][0], blobs[-1][0]]
    for what, text in [("whole", content), *((key, damaged(content, key)) for key in shared)]:
        file.write_bytes(text)
        near, exact = run(program, file, "diff", "old", "new"), run(program, file, "diff", "-e", "old", "new")
        found = (near.returncode, near.stdout, near.stderr)
        if found != (1, wanted, "") or exact.returncode != (1 if what == "whole" else 3):
            return f"trees, {what}: {found} and {exact} in place of {wanted}"
    print(f"trees: of {len(blobs)} blobs {len(old)} and {len(new)} differ, and no shared one is read")
    return None


def as_json(program, file, *words):
    """What a command answers with `--json`: the status, the document as Python reads it, and why it fails. It is one
    line."""
    done = run(program, file, *words, "--json")
    is_line = done.stdout.count("\n") == 1 and done.stdout.endswith("\n")
    read = json.loads(done.stdout) if is_line else done.stdout or None
    return done.returncode, read, done.stderr.removeprefix(f"blobctl: {file}: ").removesuffix("\n")


def documents(program, folder):
    """Compares each command's document in JSON with the plain one, also of names that have to be escaped, and of words
    that name nothing."""
    file, counts = folder / "documents.blobs", {}
    for turn in range(3):
        tool = drawn_file(program, file, 250)
        for name in NAMES:
            serve(program, file, f"root {name} {max(tool.blobs)}\nflush\n")
            tool.root(name, max(tool.blobs))
        for _ in range(40):
            one, name = drawn_word(tool), DRAWN.choice(NAMES)
            asked = DRAWN.choice([("ls",), ("ls", "--all"), ("ls", one), ("log", name), ("log", "none"), ("stat",),
                                  ("diff", one, drawn_root(tool))])
            wanted, refused = plainly(tool.document, *asked)
            differs = asked[0] == "diff" and wanted and any(wanted.values())
            found = as_json(program, file, *asked, *(["--exact"] if asked[0] == "diff" else []))
            if found != (int(bool(refused or differs)), wanted, refused or ""):
                return f"documents, round {turn}: {asked} gives {found} in place of {wanted} {refused}"
            counts[asked[0]] = counts.get(asked[0], 0) + (not refused)
    if len(counts) < 4 or min(counts.values()) < 3:
        return f"documents: {counts}"
    return cache_document(program, removed(folder / "entries.blobs")) or said(f"documents: {counts} in JSON")


def said(text):
    """Prints a text, and answers None."""
    print(text)


def cache_document(program, file):
    """What is wrong with the counts of a cache in JSON, or None."""
    sizes = [DRAWN.randrange(1, 100) for _ in range(5)]
    for number, size in enumerate(sizes):
        run(program, file, "cache", "put", f"{number:02x}", "-", text="x" * size)
    found = as_json(program, file, "cache", "stat")
    wanted = (0, {"entries": len(sizes), "bytes": sum(sizes)}, "")
    return None if found == wanted else f"documents: the cache has {found} in place of {wanted}"
