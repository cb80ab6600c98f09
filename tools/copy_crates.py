#!/usr/bin/env python3
"""Copies crates of this repository into a repository of one's own, with all that they stand on.

    tools/copy_crates.py TARGET CRATE..          # as tools/copy_crates.py ../mine pagable pagable_pageout
    tools/copy_crates.py --out TARGET CRATE..    # with what checks kept of them here, up to 5 GB

It copies each crate's folder into TARGET/crates, adds its line to TARGET/crates.txt, and copies HANDLES if TARGET has
none. What TARGET has already stays as it is; to replace a crate, remove its folder first. Crates of the toolchain
aren't copied, since `rt` knows them. If a crate isn't here, nothing is copied, and the status is 1.
"""
import re
import shutil
import sys
from pathlib import Path

TOP = Path(__file__).resolve().parent.parent
LINE = re.compile(r"(?m)^(\w+)\b[^:#\n]*:(.*)$")


def with_what_they_use(names, lines):
    """These crates and all that they stand on in this repository, in the order of crates.txt."""
    wanted, open_ones = set(), list(names)
    while open_ones:
        name = open_ones.pop()
        if name not in wanted:
            wanted.add(name)
            open_ones += [used for used in lines[name][2].split() if used in lines]
    return [name for name in lines if name in wanted]


def add_lines(file, lines):
    """Adds the lines to a list of crates that it doesn't have."""
    there = file.read_text(encoding="utf-8").splitlines() if file.exists() else []
    added = [line for line in lines if line not in there]
    file.write_text("".join(f"{line}\n" for line in [*there, *added]), encoding="utf-8")


def main(words):
    has_out = words[:1] == ["--out"]
    target, *names = words[has_out:] or [""]
    if not names:
        sys.exit(__doc__)
    target = Path(target)
    lines = {line[1]: line for line in LINE.finditer((TOP / "crates.txt").read_text(encoding="utf-8"))}
    if unknown := [name for name in names if name not in lines]:
        sys.exit(f"copy_crates: crates.txt has no crate {', '.join(unknown)}")
    wanted = with_what_they_use(names, lines)
    copied = [name for name in wanted if not (target / "crates" / name).exists()]
    leave = None if has_out else shutil.ignore_patterns("out")
    for name in copied:
        shutil.copytree(TOP / "crates" / name, target / "crates" / name, ignore=leave)
    add_lines(target / "crates.txt", [lines[name][0] for name in wanted])
    if not (target / "HANDLES").exists():
        shutil.copy(TOP / "HANDLES", target / "HANDLES")
    print(f"copied {len(copied)} of {len(wanted)} crates: {' '.join(copied)}")


if __name__ == "__main__":
    main(sys.argv[1:])
