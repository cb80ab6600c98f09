#!/usr/bin/env python3
"""Tries the wrong bodies of tools/wrong_bodies/CRATE.edits: the prover has to refuse, by itself, each function that one
breaks.

usage: tools/wrong_bodies.py [--over-ci] [--jobs N] [CRATE..]     (with no crate: every one that has wrong bodies)
       tools/wrong_bodies.py [--over-ci] [--jobs N] --drawn COMMIT    (five of all, drawn by the commit's hash)

As many crates are tried side by side as --jobs says, or one. With --over-ci the libraries are those that `rt ci` left in
this checkout when it ended, and none is built. Of drawn ones only the functions that they break are checked, with those
that these call.

tools/edits.py tells how they are spelled. All edits of a crate are tried together, on a copy of the repository over the
work that earlier checks kept: one body a function and round, so that one check answers many. If stored answers or
invariants don't fit the edited bodies, they are taken out of the copy, and it is checked once more, with search in
their place. Each edit gets one of these results, of which the first two pass:
  refused                       the check says that its functions aren't proved, for a reason of their own
  refused, without its answers  the same, of a function that lost stored answers or invariants: the contract refuses it,
                                or search finds no answer
  answer-only                   without the answers that didn't fit, it is proved
  unjudged                      its functions aren't proved only because they call one that has no proof
  proved                        the crate is still proved with it
An edit that isn't refused in its round is tried once more, alone; then it is refused if any function isn't proved for a
reason of its own. The last line is 'N passed, M failed'; the status is 1 if one failed.
"""
import argparse
import importlib.machinery
import importlib.util
import os
import random
import re
import shutil
import subprocess
import sys
import tempfile
from concurrent.futures import ThreadPoolExecutor
from pathlib import Path

TOP = Path(__file__).resolve().parent.parent
sys.dont_write_bytecode = True
sys.path.append(str(TOP / "tools" / "speed"))
from build import need  # noqa: E402
from edits import edits_in  # noqa: E402

EDITS = TOP / "tools" / "wrong_bodies"
MISFIT = re.compile(r"(?m)^(?:\./)?(proofs/\S+/(?:Answers|Invariants)\.antt):(\d+):\d+: error")
NOT_PROVED = re.compile(r"(?m)^\w+ (\S+): ((?:not proved|no proof).*)$")
REFUSED, WITHOUT = "refused", "refused, without its answers"
UNJUDGED = re.compile(r"no proof: (?:it calls|.*, which has no proof)")
UNREAD = re.compile(r"is not in scope|has no field|is no name|operand is missing|expected the end|cannot continue")


def functions(edit):
    """Patterns of the names of the functions that an edit changes."""
    return {function_at(text, file) for file, text in edit.places}


def module_of(file):
    """The path, below its crate, of a file's module."""
    return "".join(f"{it}::" for it in file[len("src/") : -len(".rt")].split("/") if it != "lib")


def last_function(text):
    """The indent and the name of the last function of a text."""
    return ([("", "?")] + re.findall(r"(?m)^( *)(?:pub(?:\(\w+\))? )?(?:unsafe |const )*fn (\w+)", text))[-1]


def paths(edit, crate):
    """How a check is asked for the functions that an edit changes: a function by its path, the methods of an impl by their module."""
    found = [(last_function(text), f"{crate}::{module_of(file)}") for file, text in edit.places]
    return {module.removesuffix("::") if indent else f"{module}{name}" for (indent, name), module in found}


def function_at(text, file):
    """A pattern of the names by which the prover tells the last function of a text: its module's path, the type and trait of its impl, and its own name."""
    module, (indent, name) = module_of(file), last_function(text)
    if not indent:
        return rf"\w+::{module}{re.escape(name)}"
    head = re.sub(r"\s+", " ", re.findall(r"(?m)^(?:impl|pub trait|trait)\b([^{]*)", text)[-1])
    trait, _, subject = re.sub(r"^<(?:[^<>]|<(?:[^<>]|<[^<>]*>)*>)*>", "", head).partition(" for ")
    if not subject:
        # (a type's own functions are told by the type's module, wherever their impl stands)
        return rf".*::{word_of(trait)}(\+\w+)*::{name}"
    return rf"\w+::{module}.*{word_of(subject)}.*{word_of(trait)}.*::{name}"


def word_of(text):
    """How the prover's names spell a type or a trait."""
    text = re.sub(r"\b\w+::", "", text.strip())
    if text.startswith("("):
        return f"Tuple{text.count(',') + 1}" if text.strip("()") else "Unit"
    if text.startswith("["):
        return "Array" if ";" in text else "Slice"
    word = re.match(r"\w*", re.sub(r"^&('\w+ )?", "", text))[0]
    return word[:1].upper() + word[1:]


def copied(room, crate):
    """The folder of a crate in a copy of all, in which its files may be changed. Of the others the check reads the libraries alone."""
    for file in ("crates.txt", "HANDLES"):
        shutil.copy(TOP / file, room)
    for own in (TOP / "crates").iterdir():
        left_out = {own / it for it in (["must-fail"] if own.name == crate else ["must-fail", "out/incremental", "data"])}
        ignored = lambda at, names: [it for it in names if Path(at) / it in left_out]  # noqa: E731
        shutil.copytree(own, Path(room) / "crates" / own.name, ignore=ignored, copy_function=linked_or_copied)
    return Path(room) / "crates" / crate


def linked_or_copied(file, to):
    """Copies a file, or gives it a second name if it is of a library, into which rt never writes."""
    try:
        if "/out/rlib/" in str(file):
            return os.link(file, to)
    except OSError:
        pass
    return shutil.copy2(file, to)


def stamp_libraries(room):
    """Lets `rt check` take the libraries that `rt ci` left, in a copy of all: puts beside each the sum by which rt tells
    of which text it is."""
    kit = Path(shutil.which("rt")).resolve().parent
    sys.path.append(str(kit))
    loader = importlib.machinery.SourceFileLoader("rt", str(kit / "rt"))
    rt = importlib.util.module_from_spec(importlib.util.spec_from_loader("rt", loader))
    loader.exec_module(rt)
    rt.Crate.allowed = rt.handles_of(room)
    # (`rt.crates_of` of some kits takes more, and moves the folders `out` away)
    rt.rtlib.Crate = rt.Crate
    for crate in rt.rtlib.crates_below(room):
        if os.path.isdir(crate.rlib):
            Path(crate.folder, "out/rlib/stamp").write_text(crate.stamp(), encoding="utf-8")


class Answer:
    """What the check says with these texts in place of the crate's own, as long as stored answers don't fit once more without those."""

    def __init__(self, folder, texts, only=()):
        self.output, first = ran(folder, texts, only), None
        made, taken = dict(texts), set()
        while misfits := MISFIT.findall(self.output):
            first = first or self.told()[0]
            for file, line in misfits:
                made[file] = without_block(made.get(file) or (folder / file).read_text(encoding="utf-8"), int(line))
                taken.add(file.split("/", 1)[1].rsplit("/", 1)[0].replace("/", "::").replace("+", ""))
            self.output = ran(folder, made, only)
        self.refused, self.unjudged = self.told()
        self.answer_only = (first or set()) - self.refused - self.unjudged
        self.lost = {it for it in self.refused if it.split("::", 1)[1] in taken}

    def told(self):
        """The functions that aren't proved: those for a reason of their own, and those that call one without a proof."""
        told = dict(NOT_PROVED.findall(self.output))
        unjudged = {it for it, why in told.items() if UNJUDGED.match(why)}
        return set(told) - unjudged, unjudged


def ran(folder, texts, only):
    """The output of a check with these texts in place of the crate's own, of these functions and modules alone if any are named."""
    own = {file: (folder / file).read_text(encoding="utf-8") for file in texts}
    for file, text in texts.items():
        (folder / file).write_text(text, encoding="utf-8")
    jobs = os.environ.get("RT_JOBS", "1")
    words = ["rt", "check", "--jobs", jobs, *(word for path in sorted(only) for word in ("--only", path))]
    done = subprocess.run(words, cwd=folder, stdout=subprocess.PIPE, stderr=subprocess.STDOUT, text=True)
    for file, text in own.items():
        (folder / file).write_text(text, encoding="utf-8")
    return done.stdout


def without_block(text, line):
    """A proof file without what stands, between empty lines, round the line of this number."""
    lines = text.split("\n")
    start = max((at + 1 for at in range(line - 1) if not lines[at]), default=0)
    end = next((at for at in range(line - 1, len(lines)) if not lines[at]), len(lines))
    return "\n".join(lines[:start] + [""] * (end - start) + lines[end:])


def tried_alone(folder, edit, only):
    """What is told of an edit by itself."""
    texts = {}
    edit.apply(texts, folder)
    answer = Answer(folder, texts, only)
    # Of a text of src/ that could not be read no contract was tried.
    for at in re.finditer(r"(?m)^(?:\./)?(src|specs)/\S+:\d+:\d+: error: (`[^`]*`: )?(.*)$", answer.output):
        if not at[2] or UNREAD.search(re.sub(r"`[^`]*`", "", at[3])):
            return f"the edited text can't be read: {at[0][:200]}"
    if not re.search(r"(?m)^(?:logic|only)=", answer.output):
        return f"the check didn't come to the proofs: {answer.output.strip()[-300:]}"
    if answer.refused:
        return WITHOUT if answer.refused == answer.lost else REFUSED
    if answer.answer_only:
        return "answer-only"
    return "proved" if re.search(r"(?m)^(?:logic=proved|only=(\d+) proved=\1$)", answer.output) else "unjudged"


def try_round(folder, edits, is_drawn):
    """Tries those of the edits together that meet in no function; answers them, each with what is told of it. Of drawn
    ones only the functions that they break are checked."""
    texts, held = {}, []
    for edit in edits:
        if not any(functions(edit) & functions(it) for it in held) and edit.apply(texts, folder) is None:
            held.append(edit)
    only = {edit: paths(edit, folder.name) if is_drawn else set() for edit in held}
    answer = Answer(folder, texts, set().union(*only.values()))
    for edit in held:
        of_each = [{it for it in answer.refused if re.fullmatch(pattern, it, re.IGNORECASE)} for pattern in functions(edit)]
        alone = not all(of_each)
        told = tried_alone(folder, edit, only[edit]) if alone else WITHOUT if set().union(*of_each) <= answer.lost else REFUSED
        print(f"{folder.name}/{edit.name}: {told}{' (alone)' if alone else ''}", flush=True)
        yield edit, told


def try_crate(crate, is_over_ci, drawn=None):
    """Tries a crate's wrong bodies, or those of these names, and answers how many were refused and how many weren't."""
    edits = [edit for edit in edits_in(EDITS / f"{crate}.edits") if drawn is None or edit.name in drawn]
    with tempfile.TemporaryDirectory(prefix="wrong-bodies-") as room:
        folder = copied(room, crate)
        if is_over_ci:
            stamp_libraries(room)
        told = {edit: edit.apply({}, folder) for edit in edits}
        left = [edit for edit in edits if told[edit] is None]
        while left:
            tried = dict(try_round(folder, left, drawn is not None))
            told.update(tried)
            left = [edit for edit in left if edit not in tried]
    failed = [edit for edit in edits if told[edit] not in (REFUSED, WITHOUT)]
    for edit in failed:
        print(f"{crate}/{edit.name}: FAILED: {told[edit]}", flush=True)
    return len(edits) - len(failed), len(failed)


def drawn_by(commit, count=5):
    """So many of all wrong bodies, drawn by a commit's hash: their names by crates."""
    told = subprocess.run(["git", "rev-parse", commit], cwd=TOP, check=True, capture_output=True, text=True)
    every = [(file.stem, edit.name) for file in sorted(EDITS.iterdir()) for edit in edits_in(file)]
    chosen = random.Random(told.stdout.strip()).sample(every, count)
    return {crate: {name for of, name in chosen if of == crate} for crate, _ in sorted(chosen)}


def main():
    words = argparse.ArgumentParser(usage="tools/wrong_bodies.py [--over-ci] [--jobs N] [--drawn COMMIT | CRATE..]")
    words.add_argument("--over-ci", action="store_true")
    words.add_argument("--jobs", type=int, default=1)
    words.add_argument("--drawn")
    words.add_argument("crates", nargs="*", choices=[[], *sorted(it.stem for it in EDITS.iterdir())])
    given = words.parse_args()
    need("rt")
    every = dict.fromkeys(given.crates or sorted(it.stem for it in EDITS.iterdir()))
    tried = drawn_by(given.drawn) if given.drawn else every
    with ThreadPoolExecutor(given.jobs) as pool:
        counts = pool.map(lambda crate: try_crate(crate, given.over_ci, tried[crate]), tried)
        passed, failed = map(sum, zip(*counts))
    print(f"{passed} passed, {failed} failed")
    sys.exit(1 if failed else 0)


if __name__ == "__main__":
    main()
