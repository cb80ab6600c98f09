#!/usr/bin/env python3
"""Asks the original crate for the answers to the rows of `original.txt`, and compares them with those that stand there.

    tools/original_rows.py ORIGINAL WORK              # prints each row whose answer is another one
    tools/original_rows.py ORIGINAL WORK --write      # writes the original's answers into the file

ORIGINAL is the original crate (tools/original_crate.py says in which form). It is copied into the folder WORK, and
tools/original_values.rs is built over the copy and gets each row without its answers. To add a type, add it there, put
rows without answers into the file, as `u16 read ac02 ff`, and write, which counts the rows too. Rows leave out what the
original answers otherwise by design: JSON numbers, a `char` of several characters, lengths above 4,294,967,295, and a
refusal whose cause its reader loses, as of an array's item. The status is 1 if a row differs that isn't written, or if
the file has no rows. The first build takes two minutes of processor time.
"""
import pathlib
import subprocess
import sys

sys.dont_write_bytecode = True
TOP = pathlib.Path(__file__).resolve().parent.parent
sys.path.insert(0, str(TOP / "tools"))
import original_crate  # noqa: E402

ROWS = TOP / "tools/crates/rows/data/original.txt"


def answers_of(program, rows):
    """The original's answers to rows, each a list of one for each input."""
    asked = "".join(f"{row}\n" for row in rows)
    run = subprocess.run([program], input=asked, check=True, text=True, capture_output=True)
    told, counts = iter(run.stdout.splitlines()), [len(row.split()) - 2 for row in rows]
    answers = [[next(told) for _ in range(count)] for count in counts]
    if next(told, None) is not None:
        sys.exit("the program told more answers than there are inputs")
    return answers


def main(words):
    if len(words) < 2 or words[2:] not in ([], ["--write"]):
        sys.exit(__doc__)
    original, work = (pathlib.Path(word).resolve() for word in words[:2])
    manifest = original_crate.copied(original, work / "source")
    program = original_crate.built(manifest, "values", work / "target", {})
    lines = ROWS.read_text(encoding="utf-8").splitlines()
    rows = [line.partition(" ->") for line in lines if not line.startswith("#")]
    asked = [row for row, _, _ in rows]
    found = ["; ".join(answers) for answers in answers_of(program, asked)]
    if words[2:]:
        heads = [line for line in lines[1:] if line.startswith("#")]
        written = [f"# rows: {len(rows)}", *heads, *map(" -> ".join, zip(asked, found))]
        ROWS.write_text("\n".join(written) + "\n", encoding="utf-8")
    differ = [f"{row}\n  the original: {answer}\n  the file:     {here.strip()}"
              for (row, _, here), answer in zip(rows, found) if here.strip() != answer]
    print(*differ, f"{len(rows) - len(differ)} rows as the original answers, {len(differ)} otherwise", sep="\n")
    sys.exit(1 if differ and not words[2:] or not rows else 0)


if __name__ == "__main__":
    main(sys.argv[1:])
