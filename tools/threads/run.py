#!/usr/bin/env python3
"""Tries the wrong bodies of wrong.edits, such as no contract refuses: the tests of threads have to find each.

    tools/threads/run.py --wrong [NAME+..]      # all of them, or these

tools/edits.py tells how they are spelled; each test that is named with one has to fail. Only the modules of these tests
run, on a copy with that edit, or with several whose names are joined by '+', if none bears on another's tests: that
saves minutes. Each edit is 'found', or the line says why it isn't, and the last line is 'N found, M not'; the status is
1 if one isn't. The tests themselves run by tools/tests.py.
"""
import pathlib
import re
import sys
import tempfile

HERE = pathlib.Path(__file__).resolve().parent
sys.dont_write_bytecode = True
sys.path[:0] = [str(HERE.parent / "speed"), str(HERE.parent)]
import build  # noqa: E402
import tests  # noqa: E402
from edits import edits_in  # noqa: E402


def used(names):
    """The modules of these names, and those that they use."""
    found, left = set(), list(names)
    while left:
        name = left.pop()
        if name not in found and (HERE / f"{name}.rattle").exists():
            found.add(name)
            text = (HERE / f"{name}.rattle").read_text(encoding="utf-8")
            left += re.findall(r"^use crate::(\w+)", text, re.MULTILINE)
    return sorted(found)


def copied(folder, of_edits):
    """The crates in this folder, with the modules of these tests: the crate's files."""
    modules = used({test.partition("::")[0] for test in of_edits})
    return tests.copied(folder, ["threads"], [HERE / f"{module}.rattle" for module in modules])


def told(together):
    """What is told of each of these edits, which are tried together: 'found' where each of its tests fails."""
    with tempfile.TemporaryDirectory() as folder:
        source = copied(pathlib.Path(folder), {test for edit in together for test in edit.tests})
        top, texts = source.parent.parent.parent, {}
        for edit in together:
            if why := edit.apply(texts, top):
                return [f"{edit.name}: {why}" for _ in together]
        for file, text in texts.items():
            (top / file).write_text(text, encoding="utf-8")
        said = build.said_by_tests(source)
    return told_by(together, said)


def told_by(together, said):
    """What is told of each of these edits by what the tests' run said."""
    if not build.RESULT.search(said):
        return [f"no tests ran: {said[-1000:]}" for _ in together]
    passed = [[test for test in edit.tests if not re.search(rf"{test} \.\.\. FAILED", said)] for edit in together]
    return [f"passed: {' '.join(tests)}" if tests else "found" for tests in passed]


def try_wrong(groups):
    """Tries the wrong bodies of these names, or all; answers whether each was found."""
    every = edits_in(HERE / "wrong.edits")
    named = [[edit for edit in every if edit.name in group.split("+")] for group in groups]
    chosen = named or [[edit] for edit in every]
    verdicts = []
    for together in chosen:
        for edit, verdict in zip(together, told(together)):
            verdicts.append(verdict)
            print(f"{edit.name}: {verdict}", flush=True)
    found = verdicts.count("found")
    print(f"{found} found, {len(verdicts) - found} not")
    return found == len(verdicts)


def main():
    if sys.argv[1:2] != ["--wrong"]:
        sys.exit(__doc__)
    sys.exit(0 if try_wrong(sys.argv[2:]) else 1)


if __name__ == "__main__":
    main()
