#!/usr/bin/env python3
"""Runs `pagable_derive` on declarations that can't be printed, on folders that it printed or not, and on the
declarations of the printed crates of this repository, whose folders have to be what it prints; its status is 0 if it
says each time what it has to say.

    tools/declarations/check.py [PROGRAM]

PROGRAM is a `pagable_derive`; without the word it is built unproved, as tools/speed/build.py says. What it has to say
is written here by hand.
"""
import pathlib
import subprocess
import sys
import tempfile

HERE = pathlib.Path(__file__).resolve().parent
CRATES, DECLARATIONS = HERE.parent.parent / "crates", HERE.parent / "crates" / "pagable_derive" / "data"
# The printed crates, and their declarations.
PRINTED = {"declared_types": "types.decl", "history": "history.decl"}
sys.dont_write_bytecode = True
sys.path.insert(0, str(HERE.parent / "speed"))
import build  # noqa: E402

# Type declarations behind `env Store;` in line 1: the line with the fault, and the reason.
FAULTS = [
    ("pub struct A { pub a: u8 } $", 2, "no declaration has the character '$'"),
    ("pub struct A {\n pub a: Vec<u8 }", 3, "`<` is closed by `}`"),
    ("pub struct A {\n pub a: u8", 2, "`{` isn't closed"),
    ("pub struct A { pub a: u8 }\n}", 3, "`}` closes nothing"),
    (f"pub struct A {{\n pub a: {'Option<' * 32}u8{'>' * 32} }}", 3, "more than 32 brackets stand in each other"),
    ("pub struct A { pub a: u8 }\n/// Nothing.", 3, "a doc comment stands before a type, a field or a case"),
    ("pub struct\n/// Amid.\nA { pub a: u8 }", 3, "a doc comment stands before a type, a field or a case"),
    ("pub struct A { pub a: u8,\n, }", 3, "expected a field, a case or a type before `,`"),
    ("env Other;", 2, "a declaration has one environment"),
    ("struct A { pub a: u8 }", 2, "expected `pub` and a type"),
    ("pub union A { pub a: u8 }", 2, "expected `struct`, `enum` or `tagged enum`"),
    ("pub tagged struct A { pub a: u8 }", 2, "expected `enum`"),
    ("pub struct { pub a: u8 }", 2, "expected the name of the type"),
    ("pub struct A", 2, "expected the fields in `{}` or `()`"),
    ("pub struct A;", 2, "expected the fields in `{}` or `()`"),
    ("pub enum A(u8);", 2, "expected the cases in `{}`"),
    ("pub struct A(pub u8)", 2, "expected `;`"),
    ("pub struct A(pub u8)\npub struct B(pub u8);", 3, "expected `;`"),
    ("pub struct A {}", 2, "`A` is empty"),
    ("pub enum A { B() }", 2, "`B` is empty"),
    ("pub struct A {\n a: u8 }", 3, "expected `pub`"),
    ("pub struct A {\n pub a u8 }", 3, "expected `:`"),
    ("pub struct A {\n pub a: }", 3, "expected a type"),
    ("pub struct A {\n pub a: u8 u8 }", 3, "expected `,`"),
    ("pub enum A { B\n C }", 3, "expected `,`"),
    (f"pub struct A({'pub u8, ' * 26});", 2, "a struct or a case has at most 25 fields"),
    (f"pub enum A {{{', '.join(f'C{n}' for n in range(257))}}}", 2, "an enum has at most 256 cases"),
    ("\n".join(f"pub struct A{n}(pub u8);" for n in range(257)), 258, "a declaration has at most 256 types"),
    ("pub struct Self { pub a: u8 }", 2, "`Self` is a keyword"),
    ("pub struct Match { pub a: u8 }", 2, "`match` is a keyword"),
    ("pub struct A {\n pub type: u8 }", 3, "`type` is a keyword"),
    ("pub struct A {\n pub data: u8 }", 3, "`data` is a word of specs"),
    ("pub struct part { pub a: u8 }", 2, "`part` isn't in upper camel case"),
    ("pub enum A { b }", 2, "`b` isn't in upper camel case"),
    ("pub struct A {\n pub theName: u8 }", 3, "`theName` isn't in snake case"),
    ("pub struct A { pub a: u8 }\npub enum A { B }", 3, "`A` is declared twice"),
    ("pub struct StoreNode { pub a: u8 }", 2, "the printed text has another `StoreNode`"),
    ("pub struct ARef { pub a: u8 }\npub struct A { pub a: u8 }", 3, "the printed text has another `ARef`"),
    ("pub struct Vec { pub a: u8 }", 2, "the printed text has another `Vec`"),
    ("pub enum A { B {\n alloc: u8, b: u8 } }", 3, "the printed text has another `alloc`"),
    ("pub struct Std { pub a: u8 }", 2, "two modules are called `std`"),
    ("pub struct A { pub a: u8, pub b: u8,\n pub a: u8 }", 3, "two fields are called `a`"),
    ("pub enum A { B,\n B(u8) }", 3, "two cases are called `B`"),
    ("pub struct A {\n pub a: Rc<u8> }", 3, "no carried type is called `Rc`"),
    ("pub struct A {\n pub a: Loose<B> }", 3, "no type of this declaration is called `B`"),
    ("pub struct A {\n pub a: Loose<u8> }", 3, "no type of this declaration is called `u8`"),
    ("pub struct A {\n pub a: Loose }", 3, "expected one type of the declaration in `<>`"),
    ("pub struct A {\n pub a: B }\npub struct B(pub u8);", 3,
     "`B` stands in a reference alone: `Loose<B>`"),
    ("pub struct A {\n pub a: Shared<A> }", 3,
     "`A` doesn't stand above this type: only `Loose<A>` may refer to it"),
    ("pub struct A {\n pub a: Vec<Pinned<B>> }\npub struct B(pub u8);", 3,
     "`B` doesn't stand above this type: only `Loose<B>` may refer to it"),
    ("pub struct A {\n pub a: Shared<B> }", 3, "no type of this declaration is called `B`"),
    ("pub struct A {\n pub a: Vec<u8, u8> }", 3, "`Vec` takes 1 types"),
    ("pub struct A {\n pub a: u8<u8> }", 3, "`u8` takes 0 types"),
    ("pub struct A {\n pub a: (u8) }", 3, "a tuple has two to five parts"),
    ("pub struct A {\n pub a: (u8, u8, u8, u8, u8, u8) }", 3, "a tuple has two to five parts"),
    ("pub struct A {\n pub a: (Vec<Duration>, Option<BTreeSet<String>>, BTreeMap<u128, String>, u8) }", 3,
     "the types of a tuple are longer than 60 characters"),
    ("pub struct A {\n pub a: [u8; 4294967296] }", 3, "a length is a number below 4294967296"),
    ("pub struct A {\n pub a: [u8; many] }", 3, "a length is a number below 4294967296"),
    ("pub struct A {\n pub a: [u8] }", 3, "expected `;` and a length"),
    ("pub struct A {\n pub a: SmallVec<u8> }", 3, "expected `SmallVec<TYPE, LENGTH>`"),
    ("pub struct A {\n pub a: BTreeSet<Duration> }", 3, "a key is a number, a `bool`, a `char` or a `String`"),
]
# Whole files: the same.
FILES = [
    (b"", 1, "expected `env NAME;` before the types"),
    (b"pub struct A { pub a: u8 }", 1, "expected `env NAME;` before the types"),
    (b"env Store", 1, "expected `;`"),
    (b"\nenv Store;", 2, "a declaration has a type"),
    (b"env Store;\n\xff", 2, "the file isn't UTF-8"),
]
USAGE = "usage: pagable_derive [--check] FILE CRATE FOLDER\n"


def expect(found, wanted, what):
    """Ends the program where something isn't as it has to be."""
    if found != wanted:
        sys.exit(f"{what}: {found!r} in place of {wanted!r}")


def fault_rows():
    """The files with a fault: the bytes, the line and the reason of each."""
    return [(f"env Store;\n{text}".encode(), line, reason) for text, line, reason in FAULTS] + FILES


def check_faults(run, work):
    """Runs the program on each fault: it says the line and the reason, and writes nothing."""
    file, folder = work / "faults.decl", work / "faults"
    for text, line, reason in fault_rows():
        file.write_bytes(text)
        expect(run(file, "names", folder), (2, "", f"{file}:{line}: {reason}\n"), text)
        expect(folder.exists(), False, "a folder after a fault")
    return len(fault_rows())


def check_words(run, work):
    """Runs the program with words that are none of its usage, and on a file that isn't there."""
    for words in [[], ["a"], ["a", "b"], ["a", "b", "c", "d"], ["--check", "a", "b"], ["--other", "b", "c"]]:
        expect(run(*words), (2, "", USAGE), words)
    for name in ["Names", "std", "a-b", "", "fn"]:
        expect(run("a", name, "c"), (2, "", f"{name}: no crate can have this name\n"), name)
    status, said, why = run(work / "none.decl", "names", work / "none")
    expect((status, said, why.startswith(f"{work / 'none.decl'}: ")), (2, "", True), why)
    return 12


def check_folder(run, work):
    """Prints a folder, prints it again, changes it, and puts there what the program didn't print."""
    file, folder = work / "one.decl", work / "one"
    file.write_text("env Place;\npub struct Spot { pub number: u64 }\n")
    names = ["src/lib.rt", "src/place.rt", "src/spot.rt"]
    names += ["specs/Lib.antt", "specs/Nodes.antt", "specs/Types.antt"]
    paths = [f"{folder}/{name}" for name in names]
    words = [file, "spots", folder]
    expect(run("--check", *words), (1, f"{paths[0]}: is missing\n", ""), "a folder that isn't there")
    expect(run(*words), (0, "".join(f"{path}\n" for path in paths), ""), "a first print")
    expect(run("--check", *words), (0, "", ""), "a folder as it was printed")
    expect(run(*words), (0, "", ""), "a second print")
    spot = folder / "src/spot.rt"
    printed = spot.read_text()
    spot.write_text(printed.replace("pub number: u64", "pub number: u32"))
    line = printed[: printed.index("pub number: u64")].count("\n") + 1
    expect(run("--check", *words), (1, f"{spot}:{line}: is not what is printed\n", ""), "a changed line")
    expect(run(*words), (0, f"{spot}\n", ""), "a print over a changed line")
    expect(spot.read_text(), printed, "a file that was printed again")
    (folder / "src/more.rt").write_text("")
    expect(run("--check", *words), (1, f"{folder}/src/more.rt: is not printed\n", ""), "a file more")
    (folder / "src/more.rt").unlink()
    own = folder / "src/lib.rt"
    own.write_text("//! My own.\n")
    spot.unlink()
    other = f"{own}: stands there, and isn't printed by pagable_derive\n"
    expect(run(*words), (2, "", other), "a file of another hand")
    expect((own.read_text(), spot.exists()), ("//! My own.\n", False), "the folder after a refusal")
    return 9


def main(words):
    if len(words) > 1:
        sys.exit(__doc__)
    with tempfile.TemporaryDirectory() as built:
        program = words[0] if words else build.built_crate(pathlib.Path(built), "pagable_derive")
        check(pathlib.Path(program).resolve())


def check(program):
    """Makes all runs of the program."""
    def run(*arguments):
        done = subprocess.run([program, *map(str, arguments)], capture_output=True, text=True, timeout=60)
        return done.returncode, done.stdout, done.stderr

    with tempfile.TemporaryDirectory() as folder:
        work = pathlib.Path(folder)
        count = check_faults(run, work) + check_words(run, work) + check_folder(run, work)
    for crate, declaration in PRINTED.items():
        expect(run("--check", DECLARATIONS / declaration, crate, CRATES / crate), (0, "", ""), crate)
        count += 1
    print(f"declarations: {count} runs as they have to be")


if __name__ == "__main__":
    main(sys.argv[1:])
