#!/usr/bin/env python3
"""Runs programs whose files last, each several times on one folder, and compares what they say and write with plain
models; the status is 0 if all is the same.

    tools/programs/run.py [PROGRAM..]        (with no word: each, as `PROGRAMS` lists them)

They are built unproved, by `rt try`, as tools/speed/build.py says, in a copy of the repository's crates. Each is also run
once on the words, input and files that stand beside its code, and has to print what is stored there.
"""
import pathlib
import random
import shutil
import subprocess
import sys
import tempfile

HERE = pathlib.Path(__file__).resolve().parent
CRATES, PROVED = HERE.parent / "crates", HERE.parent.parent / "crates"
sys.path += [str(HERE), str(HERE.parent / "speed")]
import build  # noqa: E402
import caching  # noqa: E402
import models  # noqa: E402


def run(program, words, text=""):
    """Runs a program with these words and this input: its status, and what it said."""
    how = {"encoding": "utf-8", "errors": "surrogateescape", "capture_output": True, "timeout": 120}
    done = subprocess.run([program, *map(str, words)], input=text, **how)
    return done.returncode, done.stdout + done.stderr


def expect(found, wanted, what):
    """Ends the program where something isn't as it should be."""
    if found != wanted:
        sys.exit(f"{what}: {found!r} in place of {wanted!r}")


def expect_stored_run(program, name, folder):
    """Ends the program where a run on the words, input and files of a crate doesn't print what is stored there."""
    crate = next(it / name for it in (CRATES, PROVED) if (it / name).exists())
    folder.mkdir()
    if (crate / "data").exists():
        shutil.copytree(crate / "data", folder, dirs_exist_ok=True)
    given = (crate / "stdin").read_bytes() if (crate / "stdin").exists() else b""
    words = (crate / "args").read_text().splitlines()
    done = subprocess.run([program, *words], cwd=folder, input=given, capture_output=True, timeout=120)
    found = done.returncode, done.stdout, done.stderr
    expect(found, (0, (crate / "stdout").read_bytes(), b""), f"the stored run of {name}")


def expect_failure(found, said, why, what):
    """Ends the program where a run didn't say this, and then fail for a reason with these words."""
    status, told = found
    if status != 1 or not told.startswith(said) or not all(it in told[len(said) :] for it in why):
        sys.exit(f"{what}: {found!r} in place of {said!r} and a failure by {why!r}")


def expect_usage(program, usage, *calls):
    """Ends the program where a wrong call isn't answered by the usage on standard error alone, and by the status 2."""
    for words in calls:
        done = subprocess.run([program, *words], stdin=subprocess.DEVNULL, capture_output=True, text=True, timeout=120)
        expect((done.returncode, done.stdout, done.stderr), (2, "", f"usage: {usage}\n"), f"a call with {words}")


def expect_refusal(program, file, text, said, why):
    """Ends the program where the texts of a folder are still read, or for another reason not, if a file has another
    content or, with none, isn't there. The file is left as it was."""
    content = file.read_bytes()
    file.unlink() if text is None else file.write_bytes(text)
    last = said.split(maxsplit=1)[0]
    shown = said.partition(f"{file.name} ")[0]
    expect_failure(run(program, [file.parent, "get", last]), shown, why, f"{file.name} with {text!r}")
    file.write_bytes(content)


def remote(program, work):
    """Wrong calls, texts that one run writes and another reads, files of another writer, and each file of them changed
    at each byte, cut, emptied, exchanged and removed."""
    usage = "remote FOLDER put TEXT.. | remote FOLDER get KEY"
    expect_usage(program, usage, [], ["a"], ["a", "put"], ["a", "look", "b"])
    texts, folder, other = ["first", "", "third"], work / "folder", work / "other"
    files = models.texts_as_files(texts)
    said = "".join(f"{name} {text}\n" for name, text in reversed([*zip(files, texts)]))
    expect(run(program, [folder, "put", *texts]), (0, f"{list(files)[-1]}\n"), "the key of the last text")
    expect({file.name: file.read_bytes() for file in folder.iterdir()}, files, "the files of the texts")
    other.mkdir()
    for name, content in files.items():
        (other / name).write_bytes(content)
    for place in (folder, other):
        expect(run(program, [place, "get", list(files)[-1]]), (0, said), f"the texts in {place}")
    runs = 7
    for name, content in files.items():
        changed = [bytes([*content[:at], content[at] ^ 1, *content[at + 1 :]]) for at in range(len(content))]
        for text in [*changed, content[:-1], content[:7], b"", next(it for it in files.values() if it != content)]:
            expect_refusal(program, other / name, text, said, [f"the file {name} was changed"])
            runs += 1
        expect_refusal(program, other / name, None, said, [f"no blob under the key {name}"])
        expect(run(program, [other, "get", list(files)[-1]]), (0, said), "the texts once all is as it was")
        runs += 2
    return runs


def graph(program, work):
    """Wrong calls, and parts that are added run by run, with the list that each run in between prints."""
    usage = "graph FILE add LABEL NUMBER | graph FILE list"
    calls = [[], ["a"], ["a", "look"], ["a", "list", "b"], ["a", "add", "b"], ["a", "add", "b", "c"]]
    expect_usage(program, usage, *calls, ["a", "add", "b", "18446744073709551616"])
    store, said = work / "parts", ""
    for count in range(8):
        expect(run(program, [store, "list"]), (0, said), f"the list of {count} parts")
        label, number = "ab" * random.randrange(200), random.randrange(2**64)
        expect(run(program, [store, "add", label, number]), (0, ""), "a part more")
        said = f"{label} {number}\n{said}"
    expect(run(program, [store, "list"]), (0, said), "the whole list")
    return 24


def blobctl(program, work):
    """Builds with a cache under make and under ninja; one that isn't there is left out, and that is told."""
    tools = [tool for tool in caching.TOOLS if shutil.which(tool)]
    for tool in set(caching.TOOLS).difference(tools):
        print(f"blobctl: no builds under {tool}, which isn't there", flush=True)
    for tool in tools:
        if fault := caching.fault_of(program, tool, work):
            sys.exit(f"{tool}: {fault}")
    return 8 * len(tools)


PROGRAMS = ["remote", "graph", "blobctl"]


def main():
    for name in sys.argv[1:] or PROGRAMS:
        random.seed(name)
        with tempfile.TemporaryDirectory() as folder:
            folder = pathlib.Path(folder)
            program = build.built_crate(folder, name)
            work = folder / "work"
            work.mkdir()
            expect_stored_run(program, name, work / "stored")
            print(f"{name}: {globals()[name](program, work) + 1} runs as they should be", flush=True)


if __name__ == "__main__":
    main()
