"""Refuses each request for memory and each call of the disk of small runs in turn: a run names the cause, loses nothing
that it had answered, and the next one goes on."""
import os
import struct
import subprocess

from asking import DRAWN, key_of, removed, serve
from plain_file import PlainFile, Refused
from plain_tool import PlainTool

# What may be said of a call that is refused, behind the file's name or as a line's answer.
MEMORY = "out of memory: release what can go, and call again"
CAUSES = {"the disk failed", "an earlier failure shut the file", "out of memory", MEMORY}
BATCH = 4


def library(folder, source):
    """Compiles a library that stands before the C library."""
    made = folder / f"{source.stem}.so"
    if not made.exists():
        words = ["cc", "-O2", "-Wall", "-Werror", "-shared", "-fPIC", source, "-o", made]
        subprocess.run(words, check=True)
    return made


def refused_run(program, file, text, preload, place, counts, word):
    """A run of which a call is refused, and how many calls there were."""
    counts.write_bytes(bytes(64))
    named = {"LD_PRELOAD": str(preload), word: str(place), "COUNTS": str(counts), "CALLS": str(counts)}
    done = serve(program, file, text, env={**os.environ, **named})
    return done, struct.unpack("<Q", counts.read_bytes()[:8])[0]


def told(done, file):
    """The causes that a run names, or what else it says in their place."""
    refused = [line.removeprefix("error: ") for line in done.stdout.splitlines() if line.startswith("error: ")]
    if done.stderr:
        refused.append(done.stderr.removeprefix(f"blobctl: {file}: ").removeprefix("blobctl: ").strip())
    return refused


def plain_state(file):
    """What plain_file.py reads of a file: nothing of one that isn't there."""
    try:
        plain = PlainFile(file.read_bytes() if file.exists() else b"")
    except Refused as refused:
        return str(refused)
    return plain.blobs, plain.names


def tool_over(content):
    """The plain tool over a file with this content."""
    plain, tool = PlainFile(content), PlainTool()
    tool.blobs = {key: (body[16 * count :], plain.children(key)) for key, (count, body) in plain.blobs.items()}
    tool.versions = {name: [key] for name, key in plain.names.items()}
    return tool


def snapshot(tool):
    """What a file shows, as plain_state has it."""
    body = lambda data, children: (len(children), bytes.fromhex("".join(children)) + data)
    return {key: body(*blob) for key, blob in tool.blobs.items()}, tool.names


def allowed_behind(start, asked, answers, is_cut):
    """What a file with this content at first may show behind a run: what was there at the last answered flush, or at a
    later one that failed; or what is wrong with an answer."""
    tool = tool_over(start)
    allowed = [snapshot(tool)]
    for line, answer in zip(asked, answers):
        if answer.startswith("error: "):
            allowed += [snapshot(tool)] if line == "flush" else []
            continue
        if tool.answer(line) != f"{answer}\n":
            return None, f"'{line}' is answered '{answer}'"
        allowed = [snapshot(tool)] if line == "flush" else allowed
    return allowed + ([snapshot(tool)] if is_cut else []), None


def checked(program, file, start, asked, done, whole):
    """What is wrong behind a run of which a call was refused, or None."""
    odd = [it for it in told(done, file) if it not in CAUSES and not it.startswith("no blob stands under ")]
    if odd or done.returncode and not done.stderr:
        return f"status {done.returncode}, says {odd[:3]}"
    answers = done.stdout.splitlines()
    if len(answers) != len(asked) and not done.stderr:
        return f"{len(answers)} answers to {len(asked)} lines"
    allowed, fault = allowed_behind(start, asked, answers, len(answers) < len(asked))
    if fault:
        return fault
    if plain_state(file) not in allowed:
        return f"the file shows {plain_state(file)}"
    again = serve(program, file, "\n".join(asked) + "\n")
    if again.returncode or again.stderr or plain_state(file) != whole:
        return f"the next run: {again.stdout[-200:]}{again.stderr}"
    return None


def asked_lines():
    """Lines that store blobs under names, and flush now and then; at the end they ask for the first blob again."""
    asked, drawn = [], [DRAWN.randbytes(60) for _ in range(3 * BATCH)]
    for number, data in enumerate(drawn):
        asked += [f"put {data.hex()}", f"root n{number % 5} {key_of(data)}"]
        asked += ["flush"] if number % BATCH == BATCH - 1 else []
    return asked + [f"put {drawn[0].hex()}", f"root again {key_of(drawn[0])}", "flush"]


def sweep(program, folder, preload, word, start, asked):
    """Refuses each of the calls of a run on a file with this content in turn: how many there were, which causes were
    named, and a fault or None."""
    file, counts, causes, place = folder / f"{word}.blobs", folder / "counts", {}, 0
    text = "\n".join(asked) + "\n"
    file.write_bytes(start)
    serve(program, file, text)
    whole = plain_state(file)
    while True:
        place += 1
        file.write_bytes(start)
        done, count = refused_run(program, file, text, preload, place, counts, word)
        if count < place:
            return place - 1, causes, None
        fault = checked(program, file, start, asked, done, whole)
        if fault:
            return place, causes, f"{word} {place}: {fault}"
        for cause in set(told(done, file)) & CAUSES or {"nothing"}:
            causes[cause] = causes.get(cause, 0) + 1


def both_sweeps(program, folder, preload, word):
    """The same on a file that is empty at first, and on one that has some of the blobs."""
    asked, file = asked_lines(), removed(folder / "start.blobs")
    half = asked.index("flush") + 1
    serve(program, file, "\n".join(asked[:half]) + "\n")
    count, causes = 0, {}
    for start, lines in ((b"", asked), (file.read_bytes(), asked[half:])):
        more, met, fault = sweep(program, folder, preload, word, start, lines)
        count += more
        causes = {cause: causes.get(cause, 0) + met.get(cause, 0) for cause in {*causes, *met}}
        if fault:
            return count, causes, fault
    return count, causes, None


def refusals(program, folder, sources):
    """Refuses memory, and calls of the disk, and has these move one byte."""
    for word, source, wanted in (
        ("REFUSE_AT", sources["memory"], {"out of memory", MEMORY}),
        ("FAIL_CALL", sources["disk"], {"the disk failed", "an earlier failure shut the file"}),
        ("SHORT_CALL", sources["disk"], {"nothing"}),
    ):
        count, causes, fault = both_sweeps(program, folder, library(folder, source), word)
        if fault:
            return f"refusals: {fault}"
        if not count or not wanted <= set(causes) or word == "SHORT_CALL" and set(causes) != wanted:
            return f"refusals: {word} was counted {count} times, and met {causes}"
        met = ", ".join(f"'{cause}' {number}" for cause, number in sorted(causes.items()))
        print(f"refusals: each of {count} places of {word}: {met}; nothing that was answered is lost")
    return None
