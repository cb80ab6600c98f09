#!/usr/bin/env python3
"""Prints a crate of value types from a declaration, by `pagable_derive`, or says where a folder isn't what it prints.

    tools/derive.py FILE CRATE FOLDER [--check]

The first run builds the program, unproved, which takes one to three minutes. It is kept in the user's cache folder
(XDG_CACHE_HOME, or ~/.cache) under a checksum of its sources and of the toolchain, so a later run takes it from there.
The status is that of `pagable_derive`; tools/crates/pagable_derive/README.md says what it prints, and what it refuses.
"""
import hashlib
import os
import pathlib
import shutil
import subprocess
import sys
import tempfile

HERE = pathlib.Path(__file__).resolve().parent
SOURCES = HERE / "crates" / "pagable_derive"
sys.dont_write_bytecode = True
sys.path.insert(0, str(HERE / "speed"))
import build  # noqa: E402


def checksum():
    """The checksum of all that the program is made of."""
    build.need("rt")
    said = subprocess.run(["rt", "version"], check=True, capture_output=True)
    total = hashlib.sha256(said.stdout)
    for file in sorted(SOURCES.rglob("*.rattle")):
        total.update(f"\0{file.relative_to(SOURCES)}\0".encode())
        total.update(file.read_bytes())
    return total.hexdigest()[:32]


def kept():
    """Where the program is kept."""
    cache = os.environ.get("XDG_CACHE_HOME") or pathlib.Path.home() / ".cache"
    return pathlib.Path(cache) / "pagable_derive" / checksum()


def program():
    """The path of the program, which is built if it isn't kept."""
    path = kept()
    if path.exists():
        return path
    print("derive: the program is built, which takes one to three minutes", file=sys.stderr)
    path.parent.mkdir(parents=True, exist_ok=True)
    with tempfile.TemporaryDirectory() as folder:
        made = build.built_crate(pathlib.Path(folder), "pagable_derive")
        beside = path.with_suffix(f".{os.getpid()}")
        shutil.copy(made, beside)
        beside.replace(path)
    return path


def main(words):
    check = [word for word in words if word == "--check"]
    paths = [word for word in words if word != "--check"]
    if len(paths) != 3 or len(check) > 1 or paths[0].startswith("-"):
        sys.exit(__doc__)
    sys.exit(subprocess.run([program(), *check, *paths]).returncode)


if __name__ == "__main__":
    main(sys.argv[1:])
