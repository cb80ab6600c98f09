#!/usr/bin/env python3
"""Gives built programs the hostile input of docs/HOSTILE.md, and says what came, after how long.

    tools/hostile/run.py [--rows ROWS] [--pagectl PAGECTL] [--blobctl BLOBCTL]

ROWS is the built program that answers rows of values; docs/TESTS.md (Rows) and tools/speed/build.py say how programs
are built. Each program is given what is meant for it, in a new folder. Each input has a bound of seconds. The status is
1 if an answer is another than the page says, or comes later than its bound. All of it takes some 15 seconds.
"""
import argparse
import hashlib
import os
import pathlib
import re
import resource
import sqlite3
import struct
import subprocess
import sys
import tempfile
import time

sys.dont_write_bytecode = True
sys.path.append(str(pathlib.Path(__file__).resolve().parent.parent / "file_blobs"))
import collide  # noqa: E402
import plain_file  # noqa: E402

MIB = 1 << 20
# A number of items or bytes that isn't there, as large as a length can be; and one more.
GIANT, TOO_LONG = "ffffffff0f", "8080808010"
# Each: what it is, a row, its answer, and the bound in seconds.
ROWS = [
    ("giant list", f"Vec<u64> read {GIANT}", "refused 1", 1),
    ("giant text", f"String read {GIANT}", "refused 1", 1),
    ("giant hash map", f"HashMap<String,i32> read {GIANT}", "refused 1", 1),
    ("giant ordered map", f"BTreeMap<u8,u8> read {GIANT}", "refused 1", 1),
    ("giant JSON list", f"Json read 04{GIANT}", "refused 1", 1),
    ("a length above 32 bits", f"Vec<()> read {TOO_LONG}", "refused 6", 1),
    ("a number without an end", f"u64 read {'ff' * 11}", "refused 2", 1),
    ("a longer spelling", "u16 read 818000", "ok 3 01 = 1", 1),
    ("128 levels of JSON", "Json read 0401*127+0400", r"ok 256 = \[{128}\]{128}", 1),
    ("129 levels of JSON", "Json read 0401*128+0400", "refused 7", 1),
    ("a million levels of JSON", "Json read 0401*1000000+0400", "refused 7", 1),
    ("2^24 items without a byte", "nothings read ffffff07", "ok 4 = 16777215", 2),
    ("2^28 items without a byte", "nothings read ffffff7f", "ok 4 = 268435455", 10),
    ("nested repeats", "((((a{100}){100}){100}){100}){100}", None, 1),
    ("a repeat of 2^32", "a{4294967295}", None, 1),
    ("a class of all letters, often", r"(\pL{1000}){1000}", None, 1),
    ("many parentheses", "(" * 20_000 + "a" + ")" * 20_000, None, 1),
    ("repeats in repeats", f"(a+)+b find {'a' * 20_000}", "none", 2),
    ("optional repeats", f"(a?){{50}}b find {'a' * 20_000}", "none", 2),
    ("a blob of a million children", f"blob weigh 00:{','.join(['1'] * 1_000_000)}", r"\d+", 3),
]


class Run:
    """A folder, and what was told of inputs so far."""

    def __init__(self, folder):
        self.folder, self.faults = folder, 0

    def ask(self, words, text=b"", bound=10, limit=None):
        """What a program prints in a new folder, its status, and its seconds; with at most so much memory."""
        at_most = (lambda: resource.setrlimit(resource.RLIMIT_AS, (limit, limit))) if limit else None
        begun = time.monotonic()
        try:
            done = subprocess.run(words, input=text, cwd=self.folder, capture_output=True, timeout=bound,
                                  preexec_fn=at_most)
        except subprocess.TimeoutExpired:
            return b"", b"no end", None, bound
        return done.stdout, done.stderr, done.returncode, time.monotonic() - begun

    def tell(self, what, came, seconds, wanted, bound):
        """Prints what came of an input, and counts a fault."""
        is_well = re.fullmatch(wanted, came, re.S) and seconds < bound
        self.faults += not is_well
        fault = "" if is_well else f"   WRONG: expected {wanted} within {bound} s"
        print(f"{what:34} {came[:60]!r:40} {seconds:6.2f} s{fault}", flush=True)
        return seconds


def row(run, program, line, bound, limit=None):
    """What the program of rows answers to one row, and how long it takes longer than for none."""
    (run.folder / "row.txt").write_text(line + "\n", encoding="utf-8")
    said, fault, status, seconds = run.ask([program, "row.txt"], bound=bound + 2, limit=limit)
    lines = said.decode().splitlines()[3:-1]
    return lines[0] if lines else f"status {status} {fault.decode()[-60:]}", seconds


def rows(run, program):
    """Inputs of values."""
    _, alone = row(run, program, "() read -", 10)
    for what, line, wanted, bound in ROWS:
        if wanted is None:
            pattern = line.encode()
            line, wanted = f"Regex read {(collide.counted(len(pattern)) + pattern).hex()}", "refused 11"
        # With 64 MiB a count can't take what it says.
        came, seconds = row(run, program, line, bound, 64 * MIB if "giant" in what else None)
        run.tell(what, came, max(0, seconds - alone), wanted, bound)
    one_hash(run, program, alone)


def one_hash(run, program, alone):
    """Maps whose keys all have one hash."""
    spent = {}
    for count, name, is_plain in [(2_000, "IndexMap", False), (4_000, "IndexMap", False), (4_000, "IndexMap", True),
                                  (4_000, "HashMap", False), (4_000, "BTreeMap", False)]:
        form = collide.form(collide.keys(count, is_plain))
        number = "i32" if name == "HashMap" else "u32"
        came, seconds = row(run, program, f"{name}<String,{number}> read {form.hex()}", 20)
        what = f"{name}, {count} {'plain keys' if is_plain else 'keys of one hash'}"
        wanted = rf"ok {len(form)} .*"
        spent[count, name, is_plain] = run.tell(what, came, max(0.001, seconds - alone), wanted, 20)
    growth = spent[4_000, "IndexMap", False] / spent[2_000, "IndexMap", False]
    ordered = spent[4_000, "BTreeMap", False]
    run.tell("twice the keys of one hash", f"{growth:.1f} times the seconds", 0, r"[3-5]\..*", 1)
    run.tell("an ordered map of them", "as plain keys" if ordered < 0.5 else "slow", ordered, "as plain keys", 1)


def lines(run, words, too_long="bad line"):
    """Lines for a program: long ones, also above the memory that is there, and bytes that aren't text."""
    name = pathlib.Path(words[0]).name
    for what, line in [("65,537 bytes", b"x" * 65_537), ("100 MiB", b"x" * 100 * MIB), ("no text", b"\xff\xfe\0\x1b")]:
        said, _, status, seconds = run.ask(words, line + b"\n", 10, 96 * MIB)
        wanted = "bad line" if what == "no text" else too_long
        run.tell(f"{name}: a line of {what}", f"{said.decode()}{status}", seconds, f"{wanted}\n0", 5)


def texts(run, program):
    """What `pagectl` answers to a text that has escapes of a terminal: the text, byte for byte."""
    said, _, status, seconds = run.ask([program, "weigh"], b"new a \x1b[31mred\x07\npin a b\n")
    run.tell("pagectl: escapes in a text", f"{said!r}{status}", seconds, re.escape(r"b'ok\n\x1b[31mred\x07\n'0"), 5)


def names(run, program):
    """What `blobctl` shows of a name that has escapes, line feeds and marks that turn the direction of a line."""
    key = hashlib.sha256(bytes(9)).digest()[:16].hex()
    asked = f"put 00\nroot \x1b[31mred\x07\u202ex\x9b {key}\nls\n"
    said, _, status, seconds = run.ask([program, "names.blobs", "serve"], asked.encode())
    raw = [byte for byte in said if byte < 32 and byte != 10] + re.findall(rb"\xe2\x80\xae|\xc2\x9b", said)
    shown = said.decode(errors="replace")
    is_shown = shown.endswith(rf"\u{{1b}}[31mred\u{{7}}\u{{202e}}x\u{{9b}} {key} 1 versions" + "\n")
    came = f"{len(raw)} raw, {'escaped' if is_shown else shown} {status}"
    run.tell("blobctl: escapes in a name", came, seconds, "0 raw, escaped 0", 5)


def children(run, program):
    """A blob of 200,000 children, none of which is there."""
    wide = plain_file.blob(b"", ["00112233445566778899aabbccddeeff"] * 200_000)
    (run.folder / "wide.blobs").write_bytes(plain_file.file_of(plain_file.batch([wide])))
    said, _, status, seconds = run.ask([program, "wide.blobs", "fsck"], bound=20)
    came = f"{said.count(b'which is missing')} flaws, {said.decode().splitlines()[-1]}"
    run.tell("blobctl: 200,000 missing children", came, seconds, "200000 flaws, 1 blobs, 200000 flaws", 10)


def deep(run, program):
    """A chain of 20,000 blobs, of which `tree` shows each on a line of bounded length."""
    chain, below = [], []
    for number in range(20_000):
        chain.append(plain_file.blob(str(number).encode(), below))
        below = [chain[-1][0]]
    (run.folder / "deep.blobs").write_bytes(plain_file.file_of(plain_file.batch(chain)))
    said, _, status, seconds = run.ask([program, "deep.blobs", "tree", below[0]], bound=20)
    shown = said.decode().splitlines()
    came = f"{len(shown)} lines, {max(map(len, shown))} at most, {status}"
    run.tell("blobctl: a tree of 20,000 levels", came, seconds, "20000 lines, 1[0-9][0-9] at most, 0", 10)


def files(run, program):
    """What is no file of blobs."""
    os.mkfifo(run.folder / "fifo")
    (run.folder / "folder").mkdir()
    (run.folder / "garbage").write_bytes(bytes(range(256)) * 64)
    (run.folder / "ring").symlink_to("ring")
    with sqlite3.connect(run.folder / "foreign") as other:
        other.execute("CREATE TABLE blobs (key TEXT, bytes TEXT)")
    other.close()
    irregular = dict.fromkeys(("fifo", "folder", "/dev/zero", "/dev/full"), "the path names no regular file")
    none_of_blobs = dict.fromkeys(("garbage", "foreign"), "the file is none of blobs")
    for name, wanted in {**irregular, **none_of_blobs, "ring": "the path's links don't come to an end"}.items():
        _, fault, status, seconds = run.ask([program, name, "stat"])
        came = f"{fault.decode().strip().rpartition(': ')[2]}, {status}"
        run.tell(f"blobctl: {name}", came, seconds, f"{wanted}, 3", 5)


def made_files(run, program):
    """Files of blobs that are made on purpose: lengths that no file has, and rows that ask for what isn't there."""
    key, head, damaged = "01" * 16, plain_file.HEADER + b"\1", ("", "blobctl: made.blobs: the file is damaged\n", 3)
    # The three words of a batch's head are there, and nothing of what they announce.
    cut = ("24 bytes behind the last flush are ignored\n0 blobs, 0 flaws\n", "", 0)
    with_rows = lambda rows: head + struct.pack("<QQQ", 0, len(rows), plain_file.sum_of(rows)) + rows
    many = plain_file.file_of(plain_file.batch([(f"{number:032x}", 0, b"") for number in range(1, 20_000)]))
    names = plain_file.file_of(plain_file.batch([], [(name, key) for name in collide.keys(1_000)]))
    for what, content, wanted in [
        ("lengths of 2^64 - 1", head + b"\xff" * 24, cut),
        ("rows of 2^62 bytes", head + struct.pack("<QQQ", 0, 2**62, 1), cut),
        ("bodies of 2^62 bytes", head + struct.pack("<QQQ", 2**62, 0, 1), cut),
        ("a body of 4 GiB", with_rows(bytes.fromhex(key) + struct.pack("<II", 0, 2**32 - 1)), damaged),
        ("2^32 - 2 child keys", with_rows(bytes.fromhex(key) + struct.pack("<II", 2**32 - 2, 0)), damaged),
        ("a name of 4 GiB", with_rows(bytes.fromhex(key) + struct.pack("<II", 2**32 - 1, 2**32 - 1)), damaged),
        ("1,000 names of one hash", names, (".*0 blobs, 1000 flaws\n", "", 1)),
        ("19,999 empty bodies", many, (".*19999 blobs, 19999 flaws\n", "", 1)),
    ]:
        (run.folder / "made.blobs").write_bytes(content)
        said, fault, status, seconds = run.ask([program, "made.blobs", "fsck"], limit=64 * MIB)
        came = f"{said.decode()}{fault.decode()}{status}"
        run.tell(f"blobctl: {what}", came, seconds, "{}{}{}".format(*wanted), 5)


def asked():
    parser = argparse.ArgumentParser(usage="run.py [--rows ROWS] [--pagectl PAGECTL] [--blobctl BLOBCTL]")
    for name in ("rows", "pagectl", "blobctl"):
        parser.add_argument(f"--{name}", type=lambda path: pathlib.Path(path).resolve())
    return parser.parse_args()


def main():
    words = asked()
    if not (words.rows or words.pagectl or words.blobctl):
        sys.exit(__doc__)
    with tempfile.TemporaryDirectory() as folder:
        run = Run(pathlib.Path(folder))
        if words.rows:
            rows(run, words.rows)
        if words.pagectl:
            lines(run, [words.pagectl, "weigh"])
            texts(run, words.pagectl)
        if words.blobctl:
            lines(run, [words.blobctl, "lines.blobs", "serve"], "error: the line is longer than 65536 bytes")
            lines(run, [words.blobctl, "texts", "texts.blobs"])
            for each in (names, children, deep, files, made_files):
                each(run, words.blobctl)
    sys.exit(f"{run.faults} inputs came to something else" if run.faults else 0)


if __name__ == "__main__":
    main()
