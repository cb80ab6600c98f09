"""Compares what `blobctl` answers with plain_tool.py: to the lines that stand beside its code, to drawn lines, and to
commands over a file that drawn lines made."""
import pathlib
import re

from asking import DRAWN, removed, run, serve
from plain_tool import LONGEST, PlainTool, Refused

CRATE = pathlib.Path(__file__).resolve().parent.parent.parent / "crates" / "blobctl"
NAMES = ["main", "side", "a", "line\u2028feed", "\u202ered", "d\u00e9j\u00e0", "abcd", "\x1b[31m", "q\"'\\q"]


def compared(asked, told):
    """The first answer that isn't the plain one, or None: lines that were asked, and all that was told."""
    tool = PlainTool()
    for line in asked:
        wanted = tool.answer(line)
        if not told.startswith(wanted):
            return f"'{line}': {told[:len(wanted) + 50]!r} in place of {wanted!r}"
        told = told.removeprefix(wanted)
    return f"more lines: {told[:100]!r}" if told else None


def stored_run(_, __):
    """Whether the stored output is what the plain tool answers to the stored lines."""
    asked, told = [(CRATE / name).read_text(encoding="utf-8") for name in ("stdin", "stdout")]
    if fault := compared(asked.splitlines(), told):
        return f"stored run: {fault}"
    print(f"stored run: {told.count(chr(10))} lines, as plain_tool.py has them")
    return None


def drawn_word(tool):
    """A word that names a blob, or none."""
    keys = sorted(tool.blobs) or ["00" * 16]
    key = DRAWN.choice(keys)
    name = DRAWN.choice(NAMES)
    short = key[: DRAWN.randrange(3, 9)]
    return DRAWN.choice([key, key, short, name, f"{name}~{DRAWN.randrange(4)}", "no", "12" * 16])


def drawn_line(tool):
    """A line of input."""
    word = lambda: drawn_word(tool)
    name = DRAWN.choice(NAMES)
    put = " ".join(["put", DRAWN.randbytes(DRAWN.randrange(1, 3)).hex(), *(word() for _ in range(DRAWN.randrange(4)))])
    return DRAWN.choice([put] * 6 + [f"root {name} {word()}"] * 3 + [
        "stat", "ls", "ls --all", f"ls {word()}", f"log {name}", f"tree {word()}", f"dot {word()}", f"drop {name}", "flush",
        "fsck now", "ls  --all", "put zz", "put abc", f"root {name}", "x" * DRAWN.randrange(LONGEST - 3, LONGEST + 3),
    ])


def drawn_lines(program, folder):
    """Answers drawn lines, of which the last ones are answered over what the first ones made."""
    count, rounds = 150, 12
    for turn in range(rounds):
        tool, file, asked, wanted = PlainTool(), removed(folder / "drawn.blobs"), [], []
        for _ in range(count):
            asked.append(drawn_line(tool))
            wanted.append(tool.answer(asked[-1]))
        said = serve(program, file, "".join(f"{line}\n" for line in asked))
        if said.returncode or said.stdout != "".join(wanted):
            found = next((it for it in zip(asked, wanted) if it[1] not in said.stdout), None)
            return f"drawn lines, round {turn}: {found} {said.stderr} {said.stdout[-300:]}"
    print(f"drawn lines: {rounds} times {count}, each answered as plain_tool.py has it")
    return None


def outcome(call, *words):
    """What a plain call answers, and its status."""
    try:
        return 0, call(*words)
    except Refused as refused:
        return 1, str(refused)


def commands(program, folder):
    """Runs commands that look over a file that drawn lines made."""
    tool, file, counts = PlainTool(), removed(folder / "commands.blobs"), [0, 0]
    lines = [line for line in (drawn_line(tool) for _ in range(400)) if not tool.answer(line).startswith("error")]
    serve(program, file, "".join(f"{line}\n" for line in [*lines, "flush"]))
    for _ in range(150):
        word = drawn_word(tool)
        names = DRAWN.sample(NAMES, 2)
        # (line ends are read as Python reads them of a program)
        cat = lambda: re.sub("\r\n?", "\n", tool.fetch(tool.find(word))[0].decode("utf-8", "replace"))
        call, *words = DRAWN.choice([
            (cat, "cat", word), (lambda: tool.tree(word), "tree", word), (lambda: tool.dot(word), "dot", word),
            (lambda: tool.copy(names), "copy", removed(folder / "some.blobs"), *names), (tool.ls_all, "ls", "-a"),
            (lambda: tool.ls_children(word), "ls", word), (lambda: tool.log(names[0]), "log", names[0]),
        ])
        said, (status, wanted) = run(program, file, *words), outcome(call)
        counts[status] += 1
        found = said.stderr.removeprefix(f"blobctl: {file}: ").removesuffix("\n") if status else said.stdout
        if words[0] == "copy" and "stands under" in wanted:
            # (which of several missing blobs is met first is left open)
            found, wanted = (text.rpartition(" ")[0] for text in (found, wanted))
        if (said.returncode, found) != (status, wanted):
            return f"commands: {words} gives {said.returncode} {found!r} in place of {status} {wanted!r}"
    if min(counts) < 20:
        return f"commands: {counts}"
    print(f"commands: {counts[0]} are answered and {counts[1]} refused as plain_tool.py has it")
    return None


def kept(program, folder):
    """Collects garbage of files that drawn lines made, and keeps some versions of each root. (Children that aren't there
    would end it.)"""
    rounds = 20
    for turn in range(rounds):
        tool, file, keep, lines = PlainTool(), removed(folder / "kept versions.blobs"), DRAWN.randrange(1, 4), []
        for _ in range(150):
            line = drawn_line(tool)
            if "12" * 16 not in line and not tool.answer(line).startswith("error"):
                lines.append(line)
        serve(program, file, "".join(f"{line}\n" for line in [*lines, "flush"]))
        words = ["gc"] if keep == 1 and turn % 2 else ["gc", "--keep", keep]
        said, wanted = run(program, file, *words).stdout, tool.collect(keep)
        asked = [["ls"], ["ls", "--all"], *(["log", name] for name in tool.names)]
        shown = [run(program, file, *words).stdout for words in asked]
        found = (said, shown)
        if found != (wanted, [tool.ls(), tool.ls_all(), *map(tool.log, tool.names)]):
            return f"kept: round {turn}, {words}: {found} in place of {wanted} {tool.ls()} {tool.versions}"
    print(f"kept: {rounds} times gc keeps the last 1 to 3 versions of each root, and no other blob")
    return None
