#!/usr/bin/env python3
"""Runs the tests that aren't proved, those of threads and those of crates, and says of each folder how many passed; its
status is 0 if all did.

    tools/tests.py                  # those of all folders
    tools/tests.py threads          # those of these: threads, crate_tests

They run by `rt try`, in a copy of the repository's crates: a proof of a test says no more than that it ends, and these
would take longer to prove than the libraries that they test. All are modules of one crate, which is
`pagable_locked_examples`, so that what is below is compiled once; that takes 9 GB of memory, and 7 for those of one
folder. The files are named X.rattle, since the gate stops at a file X.rt that it doesn't check.
"""
import pathlib
import re
import shutil
import subprocess
import sys
import tempfile

HERE = pathlib.Path(__file__).resolve().parent
sys.dont_write_bytecode = True
sys.path.insert(0, str(HERE / "speed"))
import build  # noqa: E402

CRATE = "pagable_locked_examples"
NAMES = {"threads": "threads", "crate_tests": "crates"}
# What the tests of each folder may use beside what the crate does.
USES = {
    "threads": "pagable_examples pagable_value_rows indexmap smallvec",
    "crate_tests": "pagable pagable_budget pagable_changes pagable_file pagable_typed declared_types history sha2 "
    "sha256_lanes sqlite_disk",
}


def files_of(folder):
    """The modules of a folder."""
    return sorted((HERE / folder).glob("*.rattle"))


def copied(work, folders, files):
    """Copies the crates, with these modules of these folders as tests: where the files of their crate stand."""
    text = "".join(file.read_text(encoding="utf-8") for file in files)
    used = [crate for folder in folders for crate in USES[folder].split() if re.search(rf"\b{crate}::", text)]
    source = build.copied(work, CRATE, " ".join(used))
    for file in files:
        shutil.copy(file, source / f"{file.stem}.rt")
    with open(source / "lib.rt", "a", encoding="utf-8") as root:
        root.writelines(f"#[cfg(test)]\nmod {file.stem};\n" for file in files)
    return source


def check_sums(printed, files):
    """Stops where a number that sums.py printed isn't what the tests in these files want."""
    wanted = "".join(file.read_text(encoding="utf-8") for file in files)
    missing = [number for number in re.findall(r"\d{20,}", printed) if number not in wanted]
    if missing:
        sys.exit(f"tests of threads: no test wants {' '.join(missing)}")


def told(folder, said):
    """What is told of a folder's tests by what their run said; ends the program where one didn't pass."""
    count, passed = 0, 0
    for file in files_of(folder):
        count += file.read_text(encoding="utf-8").count("#[test]\n")
        passed += len(re.findall(rf"(?m)^test {file.stem}::\w+ \.\.\. ok$", said))
    if not count or passed != count:
        sys.exit(f"{said}tests of {NAMES[folder]}: {passed} of {count} passed")
    return f"tests of {NAMES[folder]}: {passed} passed"


def main(words):
    folders = words or list(USES)
    files = [file for folder in folders for file in files_of(folder)]
    if "threads" in folders:
        sums = [sys.executable, HERE / "threads" / "sums.py"]
        check_sums(subprocess.run(sums, check=True, text=True, capture_output=True).stdout, files)
    with tempfile.TemporaryDirectory() as work:
        said = build.said_by_tests(copied(pathlib.Path(work), folders, files))
    result = build.RESULT.search(said)
    if not result or result[1] != "ok":
        sys.exit(f"{said}tests of {' and '.join(map(NAMES.get, folders))}: not all passed")
    for folder in folders:
        print(told(folder, said), flush=True)


if __name__ == "__main__":
    main(sys.argv[1:])
