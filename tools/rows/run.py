#!/usr/bin/env python3
"""Has the program `rows` of tools/crates answer its files of rows, and compares what it prints with what is stored; the
status is 0 if that is the same.

    tools/rows/run.py
    tools/rows/run.py FILE..      # these files alone: prints what `rows` prints, and ends with its status

Before that each row of values that are read has to expect what the plain rules give (tools/plain_values.py). The
program is built unproved, by `rt try`, as tools/speed/build.py says, in a copy of the repository's crates.
"""
import pathlib
import shutil
import subprocess
import sys
import tempfile

HERE = pathlib.Path(__file__).resolve().parent
CRATE = HERE.parent / "crates" / "rows"
sys.dont_write_bytecode = True
sys.path[:0] = [str(HERE.parent / "speed"), str(HERE.parent)]
import build  # noqa: E402
from plain_values import answered  # noqa: E402

# The files of rows of values.
OF_VALUES = ("worked.txt", "by_hand.txt", "original.txt")


def check_values():
    """Ends the program where a row of values expects something else than the plain rules give."""
    lines = [line for name in OF_VALUES for line in (CRATE / "data" / name).read_text(encoding="utf-8").split("\n")]
    for line in lines:
        if line != (wanted := answered(line)):
            sys.exit(f"rows: `{line}` stands there, and by the plain rules it is `{wanted}`")


def told(files):
    """What the program prints of these files, which it gets by their names alone, and its status."""
    with tempfile.TemporaryDirectory() as folder:
        work = pathlib.Path(folder)
        program = build.compiled_in(work, build.copied(work, "rows"), "-O1")
        (work / "data").mkdir()
        names = [pathlib.Path(shutil.copy(file, work / "data")).name for file in files]
        return subprocess.run([program, *names], cwd=work / "data", text=True, capture_output=True, timeout=600)


def main(words):
    if words:
        run = told([pathlib.Path(word).resolve() for word in words])
        print(run.stdout, end="")
        sys.exit(run.returncode and f"{run.stderr}status {run.returncode}")
    check_values()
    run = told([CRATE / "data" / name for name in (CRATE / "args").read_text().split()])
    if run.returncode or run.stdout != (CRATE / "stdout").read_text():
        sys.exit(f"{run.stdout}{run.stderr}rows: this isn't what is stored; status {run.returncode}")
    print("rows: all are answered as they expect")


if __name__ == "__main__":
    main(sys.argv[1:])
