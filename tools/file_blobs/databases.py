"""Tries `export-db` and `import-old` of `blobctl` against SQLite: what is exported is read by it, and databases that it
makes are imported, in this project's earlier form too."""
import shutil
import sqlite3
import struct
import subprocess

from asking import chain, key_of, removed, roots_of, run, seen, serve

# The tables of the earlier form: a row stands at 63 bits of its key.
OLD = """CREATE TABLE blobs (place INTEGER PRIMARY KEY, key BLOB NOT NULL, bytes BLOB NOT NULL, children BLOB NOT NULL)
STRICT; CREATE TABLE roots (place INTEGER PRIMARY KEY, name TEXT NOT NULL, key BLOB NOT NULL) STRICT;
PRAGMA user_version = 1"""
FIRST = key_of(b"first")
SECOND = key_of(b"second", [FIRST, FIRST])
# The rows of blobs and of roots; the last name stands for none any more.
BLOBS = [(FIRST, b"first", ""), (SECOND, b"second", FIRST * 2), (key_of(b""), b"", "")]
ROOTS = [("main", SECOND), ("a\nb", FIRST), ("gone", "")]


def old_database(file, blobs, roots, tables=OLD):
    """Makes a database with these rows."""
    with sqlite3.connect(removed(file)) as made:
        made.executescript(tables)
        for place, (key, data, children) in enumerate(blobs):
            row = (place, bytes.fromhex(key), data, bytes.fromhex(children))
            made.execute("INSERT INTO blobs (place, key, bytes, children) VALUES (?, ?, ?, ?)", row)
        for place, (name, key) in enumerate(roots):
            made.execute("INSERT INTO roots (place, name, key) VALUES (?, ?, ?)", (place, name, bytes.fromhex(key)))
    made.close()
    return file


def sum_of(page):
    """The sum of a page, as SQLite's cksumvfs makes it."""
    low = high = 0
    for first, second in struct.iter_unpack("<II", page[:-8]):
        low = (low + first + high) % 2**32
        high = (high + second + low) % 2**32
    return struct.pack("<II", low, high)


def with_sums(file):
    """Ends each page of a database in a sum, as the earlier form has it."""
    words = ["sqlite3", file, ".filectrl reserve_bytes 8", "VACUUM"]
    subprocess.run(words, check=True, capture_output=True, timeout=100)
    content = file.read_bytes()
    pages = [content[at : at + 4096] for at in range(0, len(content), 4096)]
    file.write_bytes(b"".join(page[:-8] + sum_of(page) for page in pages))
    if content[20] != 8:
        raise SystemExit("sqlite3 leaves no room for the sums of pages")
    return file


def with_log(file):
    """Makes a database with a log that has one blob more, as a program that was killed leaves them."""
    source = old_database(file.with_name("source.db"), BLOBS, ROOTS)
    with sqlite3.connect(source) as made:
        made.execute("PRAGMA journal_mode = WAL")
        row = (9, bytes.fromhex(key_of(b"more")), b"more", b"")
        made.execute("INSERT INTO blobs (place, key, bytes, children) VALUES (?, ?, ?, ?)", row)
        made.commit()
        for end in ("", "-wal"):
            shutil.copy(f"{source}{end}", f"{file}{end}")
    made.close()


def imported(program, old, file):
    """What is said of an import, and what it leaves."""
    done = subprocess.run([program, file, "import-old", old], capture_output=True, text=True, check=False, timeout=100)
    left = sorted(it.name for it in file.parent.iterdir() if it.name.startswith((old.name, file.name)))
    return done, left


def imports(program, folder):
    """Imports databases that SQLite made."""
    folder = folder / "imports"
    folder.mkdir()
    old, file = folder / "old.db", folder / "new.blobs"
    before = with_sums(old_database(old, BLOBS, ROOTS)).read_bytes()
    done, left = imported(program, old, file)
    if (done.stdout, left) != ("3 blobs, 2 names imported\n", ["new.blobs", "old.db"]):
        return f"import: {done.stdout}{done.stderr}, {left}"
    wanted = sorted(f"{key} {len(data)} bytes, {len(keys) // 32} children" for key, data, keys in BLOBS)
    listed, roots = run(program, file, "ls", "--all").stdout.splitlines(), roots_of(program, file)
    if listed != wanted or roots != {r"a\nb": FIRST, "main": SECOND}:
        return f"import: {listed}, {roots}"
    if run(program, file, "fsck").returncode or old.read_bytes() != before:
        return "import: a flaw, or the database has changed"
    damaged, again = folder / "damaged.db", folder / "damaged.blobs"
    damaged.write_bytes(before[:5000] + b"?" + before[5001:])
    done, left = imported(program, damaged, again)
    if "the database: " not in done.stderr or again.exists():
        return f"import of a page with another sum: {done.stdout}{done.stderr}"
    damaged.unlink()
    with_log(folder / "log.db")
    done, left = imported(program, folder / "log.db", again)
    if done.stdout != "4 blobs, 2 names imported\n" or left != ["damaged.blobs", "log.db", "log.db-wal"]:
        return f"import of a database with a log: {done.stdout}{done.stderr}, {left}"
    return refused_imports(program, folder, old, file)


def refused_imports(program, folder, old, taken):
    """Imports that are refused: no file is left, and one that is there stays."""
    file, other = folder / "other.blobs", folder / "other.db"
    none, text = folder / "none.db", folder / "text"
    text.write_bytes(b"no database" * 100)
    content = taken.read_bytes()
    odd = "a row of the database is no blob's or name's"
    changed = {
        "has another key": [[(SECOND, b"first", "")], []],
        odd: [[(FIRST[:30], b"first", "")], []],
        f"{odd}\n": [[(FIRST, b"first", "00" * 16)], []],
        "no blob stands under": [BLOBS, [("main", "11" * 16)]],
    }
    for said, rows in changed.items():
        done, left = imported(program, old_database(other, *rows), file)
        status = 1 if "stands under" in said else 3
        if said not in done.stderr or done.returncode != status or left != ["other.db"]:
            return f"import of {rows}: {done.stdout}{done.stderr}, {left}"
    for source, to, said in (
        (none, file, f"{none}: there is no such file"),
        (text, file, "the database: "),
        (old_database(other, [], [], "CREATE TABLE blobs (key TEXT)"), file, "the database: "),
        (taken, file, "the database: "),
        (old, taken, "is there already"),
    ):
        done, left = imported(program, source, to)
        if said not in done.stderr or done.returncode != 3 or file.exists() or f"{source.name}-wal" in left:
            return f"import of {source.name}: {done.stdout}{done.stderr}, {left}"
    if taken.read_bytes() != content or text.read_bytes() != b"no database" * 100 or none.exists():
        return "import: a file that is there has changed, or one was made"
    print(f"import-old: databases of the earlier form, with a log and without, and {len(changed) + 6} that are refused")
    return None


def exports(program, folder):
    """Exports a file: SQLite's shell reads it, and what is imported of that shows the same."""
    folder = folder / "exports"
    folder.mkdir()
    file, made, again = (folder / name for name in ("some.blobs", "some.db", "again.blobs"))
    lines, roots = chain(2_500, 300, 500)
    serve(program, file, lines)
    before, done = file.read_bytes(), run(program, file, "export-db", made)
    if done.stdout != "2500 blobs, 1 names exported\n" or file.read_bytes() != before:
        return f"export: {done.stdout}{done.stderr}"
    asked = "PRAGMA integrity_check; SELECT count(*), sum(length(bytes)), sum(length(children)) FROM blobs;"
    asked += "SELECT name, lower(hex(key)) FROM roots;"
    said = subprocess.run(["sqlite3", made, asked], capture_output=True, text=True, check=False)
    if said.stdout.splitlines() != ["ok", f"2500|{2500 * 300}|{2499 * 16}", f"last|{roots[-1]}"]:
        return f"export: sqlite3 says {said.stdout}{said.stderr}"
    taken = run(program, file, "export-db", made)
    if "is there already" not in taken.stderr or taken.returncode != 3:
        return f"export to a file that is there: {taken.stderr}"
    done, left = imported(program, made, again)
    if done.returncode or left != ["again.blobs", "some.db"] or seen(program, again) != seen(program, file):
        return f"export: what is imported of it differs: {done.stdout}{done.stderr}, {left}"
    print("export-db: SQLite's shell reads it and finds nothing wrong, and import-old reads the same back")
    return None
