#!/usr/bin/env python3
"""Builds the program of this folder unproved, as fast as a proved one: by `rt try`, through a toolchain folder of its
own.

    tools/speed/build.py WORK [REPOSITORY]        # writes WORK/speed, over the crates of this repository or of another
    tools/speed/build.py --crate NAME PROGRAM     # writes the program of a crate of this repository as PROGRAM

A proved program is compiled by `rt run`, which proves it first. `rt try` compiles without a proof, but puts checks of
its own into the code, fills each new variable, and links a sanitizer; it drops what the sources say of inlining, and
its `spin_loop` does nothing. So here the compiler that `rt try` calls is this script: it takes out of the code what was
added and puts in what was left out (as_proved.py), and compiles as `rt run` does, at -O3 for x86-64-v2. The result is
about as fast as the proved program: a loop of SHA-256 takes 2 % more instructions, and has as many pauses. Other tools
copy crates, build programs, and run tests that aren't proved, by it.

A copy has the crates of tools/crates too, which are built unproved alone. Their files are named X.rattle, as those of
this folder are, since the gate stops at a file X.rt that it doesn't check.
"""
import pathlib
import re
import shutil
import subprocess
import sys
import tempfile

sys.dont_write_bytecode = True
from as_proved import as_proved  # noqa: E402

HERE = pathlib.Path(__file__).resolve().parent
TOP = HERE.parent.parent
USES = "pagable pagable_testkit pagable_value_rows anyhow indexmap"
LEFT_BEHIND = shutil.ignore_patterns("out", "stdin", "stdout", "args", "list.txt")
# What is told of a tool that isn't there.
NEEDED = {
    "cargo": "no cargo: install Rust's toolchain",
    "cc": "no C compiler: install gcc or clang",
    "git": "no git: install it",
    "sqlite3": "no sqlite3: install it",
    "strace": "no strace: install it",
    "rt": "no rt: put the toolchain's bin into PATH",
    "time": "no GNU time: install it",
    "valgrind": "no valgrind: install it",
}
RESULT = re.compile(r"(?m)^test result: (ok|FAILED)\. (\d+) passed; (\d+) failed; 0 ignored")
FAST = ["-Xclang", "-fmerge-functions", "-mllvm", "-mergefunc-use-aliases", "-fno-vectorize", "-fno-slp-vectorize"]


def compiled(kit, work, level, words):
    """Compiles for `rt try`, in the folder in which it calls the compiler."""
    clang = ["clang", *[word for word in words if word != "-fsanitize=address"]]
    real = kit / "toolchain" / "bin" / "clang"
    module = clang[clang.index("ir") + 1]
    plain = ["-x", "ir", module, "-S", "-emit-llvm", "-Xclang", "-disable-llvm-passes", "-O0", "-o", "module.ll"]
    text = [*clang[: clang.index("-c")], *plain]
    subprocess.run(text, executable=real, check=True)
    file = pathlib.Path("module.ll")
    file.write_text(as_proved(file.read_text(), [kit / "rattle", work / "repository" / "crates"]))
    clang[clang.index(module)] = "module.ll"
    fast = []
    for word in clang:
        fast += [level, *FAST] if word == "-O0" else [word.replace("-march=x86-64", "-march=x86-64-v2")]
    return subprocess.run(fast, executable=real).returncode


def linked(kit, work, words):
    """Links for `rt try`, without the sanitizer, and keeps the program."""
    first, last = words.index("--whole-archive"), words.index("--no-whole-archive")
    words = words[:first] + words[last + 1 :]
    status = subprocess.run(["ld.lld", *words], executable=kit / "toolchain" / "bin" / "clang").returncode
    if not status:
        shutil.copy(words[words.index("-o") + 1], work / "speed")
    return status


def need(tool):
    """Ends the program where this tool isn't there."""
    if not shutil.which(tool):
        program = pathlib.Path(sys.argv[0])
        name = program.parent.name if program.name == "run.py" else program.stem
        sys.exit(f"{name}: there is {NEEDED[tool]}")


def links_in(work, kit):
    """A folder like the kit's, without the check that `rt try` begins beside, which only looks at names."""
    folder = work / "kit"
    shutil.rmtree(folder, ignore_errors=True)
    for inner in ("bin", "toolchain/bin"):
        (folder / inner).mkdir(parents=True)
        for file in (kit / inner).iterdir():
            (folder / inner / file.name).symlink_to(file)
    for file in [*kit.iterdir(), kit / "toolchain" / "lib"]:
        if file.name not in ("bin", "toolchain"):
            (folder / file.relative_to(kit)).symlink_to(file)
    for name in ("rt", "rtlib.py"):
        (folder / "bin" / name).unlink()
        shutil.copy(kit / "bin" / name, folder / "bin" / name)
    put_script(folder / "bin" / "rattle", "exit 0")
    return folder


def put_script(tool, text):
    """Puts a shell script in a tool's place."""
    tool.unlink()
    tool.write_text(f"#!/bin/sh\n{text}\n")
    tool.chmod(0o755)


def kit():
    """The kit's folder."""
    need("rt")
    return pathlib.Path(shutil.which("rt")).resolve().parent.parent


def kit_in(work, level):
    """A folder like the kit's, whose compiler and linker are this script."""
    folder = links_in(work, kit())
    for name in ("clang", "ld.lld"):
        words = f'"{sys.executable}" "{HERE / "build.py"}" --{name} "{kit()}" "{work}" {level}'
        put_script(folder / "toolchain" / "bin" / name, f'exec {words} "$@"')
    return folder


def built(work, repository=TOP):
    """Builds the program of this folder, and gives its path."""
    return compiled_in(work, source_in(work, repository, HERE, USES))


def built_crate(work, crate):
    """Builds the program of a crate of this repository, and gives its path."""
    return compiled_in(work, copied(work, crate), "-O1")


def copied(work, crate, uses="", repository=TOP):
    """Copies the crates of a repository, with one that is new or uses these others too: the folder of its files. A
    program's words and input stay behind."""
    need("git")
    work.mkdir(parents=True, exist_ok=True)
    copy = work / "repository"
    shutil.rmtree(copy, ignore_errors=True)
    shutil.copytree(repository / "crates", copy / "crates", ignore=LEFT_BEHIND)
    shutil.copy(repository / "HANDLES", copy / "HANDLES")
    crates = (repository / "crates.txt").read_text(encoding="utf-8") + copied_unproved(repository, copy)
    line = re.compile(rf"(?m)^{crate}\b.*")
    crates = line.sub(rf"\g<0> {uses}".rstrip(), crates) if line.search(crates) else f"{crates}{crate}: {uses}\n"
    (copy / "crates.txt").write_text(crates, encoding="utf-8")
    subprocess.run(["git", "init", "-q"], cwd=copy, check=True)
    return copy / "crates" / crate / "src"


def copied_unproved(repository, copy):
    """Copies the crates of tools/crates beside the others: the lines that crates.txt gets for them."""
    crates = repository / "tools" / "crates"
    if not crates.exists():
        return ""
    shutil.copytree(crates, copy / "crates", ignore=LEFT_BEHIND, dirs_exist_ok=True)
    for file in (copy / "crates").rglob("*.rattle"):
        file.rename(file.with_suffix(".rt"))
    return (crates / "list.txt").read_text(encoding="utf-8")


def source_in(work, repository, folder, uses):
    """Copies the crates of a repository, with the program of a folder, which uses these crates: where its files
    stand."""
    source = copied(work, folder.name, uses, repository)
    source.mkdir(parents=True)
    for file in folder.glob("*.rattle"):
        shutil.copy(file, source / f"{file.stem}.rt")
    return source


def said_by_tests(source):
    """What a run of the tests of the crate with these files says, by `rt try`."""
    rt = links_in(source.parents[3], kit()) / "bin" / "rt"
    # (each test ends within a minute, but for a machine that has much else to do)
    run = subprocess.run([rt, "try", "--test", "--seconds", "300"], cwd=source.parent, text=True, capture_output=True)
    return run.stdout + run.stderr


def compiled_in(work, source, level="-O3"):
    """Compiles the program of a crate by `rt try`, at this level of optimisation."""
    program = work / "speed"
    program.unlink(missing_ok=True)
    # (without words the program only says how it is called)
    tried = [kit_in(work, level) / "bin" / "rt", "try", "--steps", "1", "--seconds", "5"]
    said = subprocess.run(tried, cwd=source.parent, stdin=subprocess.DEVNULL, text=True, capture_output=True)
    if not program.exists():
        sys.exit(f"{said.stdout}{said.stderr}")
    return program


def main():
    if sys.argv[1] == "--clang":
        kit, work, level, *words = sys.argv[2:]
        sys.exit(compiled(pathlib.Path(kit), pathlib.Path(work), level, words))
    if sys.argv[1] == "--ld.lld":
        sys.exit(linked(pathlib.Path(sys.argv[2]), pathlib.Path(sys.argv[3]), sys.argv[5:]))
    if sys.argv[1] == "--crate":
        with tempfile.TemporaryDirectory() as folder:
            shutil.copy(built_crate(pathlib.Path(folder), sys.argv[2]), sys.argv[3])
        return
    print(built(*[pathlib.Path(word).resolve() for word in sys.argv[1:]]))


if __name__ == "__main__":
    main()
