#!/usr/bin/env python3
"""Tries what takes too long for the gate, and says what stood.

    tools/nightly.py [SEED]         (with no word: the day's number, as 20261130)

It runs `rt ci`, and over its libraries tries every wrong body, crate by crate; the wrong bodies that only tests of
threads can find; drawn machines, bytes and scripts against plain models; hostile input; and files of blobs with drawn
kills and a race with `gc` of a minute. The seed decides what is drawn. A line tells of each part how it ended and after
how long, and its output is kept in nightly/ at the top of the checkout, which git passes over. The status is 0 if all
stood.
"""
import subprocess
import sys
import time
from pathlib import Path

TOP = Path(__file__).resolve().parent.parent
BLOBCTL, PAGECTL = "crates/blobctl/out/blobctl", "crates/pagectl/out/pagectl"


def parts(seed):
    """Each part's name, and the words that run it."""
    yield "gate's proofs", ["rt", "ci"]
    for file in sorted((TOP / "tools" / "wrong_bodies").iterdir()):
        yield f"wrong bodies of {file.stem}", ["tools/wrong_bodies.py", "--over-ci", file.stem]
    yield "wrong bodies of threads", ["tools/threads/run.py", "--wrong"]
    yield "drawn programs", ["tools/fuzz.py", seed, "2000"]
    yield "the program of rows", ["tools/speed/build.py", "--crate", "rows", "nightly/rows"]
    hostile = ["tools/hostile/run.py", "--rows", "nightly/rows", "--pagectl", PAGECTL, "--blobctl", BLOBCTL]
    yield "hostile input", hostile
    yield "files of blobs", ["tools/file_blobs/check.py", BLOBCTL, "200", "60", seed]


def run(name, words, log):
    """Runs a part: whether it stood."""
    begun = time.time()
    with open(log, "w", encoding="utf-8") as said:
        streams = {"stdin": subprocess.DEVNULL, "stdout": said, "stderr": subprocess.STDOUT}
        status = subprocess.run(words, cwd=TOP, **streams).returncode
    last = log.read_text(encoding="utf-8", errors="replace").strip().split("\n")[-1]
    verdict, minutes = "stood" if status == 0 else "FAILED", (time.time() - begun) / 60
    print(f"{verdict} after {minutes:.0f} minutes: {name}: {last}", flush=True)
    return status == 0


def main():
    seed = sys.argv[1] if sys.argv[1:] else time.strftime("%Y%m%d")
    folder = TOP / "nightly"
    folder.mkdir(exist_ok=True)
    stood = [run(name, words, folder / f"{name.replace(' ', '_')}.log") for name, words in parts(seed)]
    print(f"seed {seed}: {stood.count(True)} passed, {stood.count(False)} failed")
    sys.exit(0 if all(stood) else 1)


if __name__ == "__main__":
    main()
