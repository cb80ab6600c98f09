#!/usr/bin/env python3
"""Prints, as file:line, each place where the libraries' text invents a want of memory, does more under the pager's lock
than one call of it, or where a page shows other code than the file has. The status is 1 if there is one.

In the src/ of every crate one function alone writes `Error::OutOfMemory` as a value: it makes it of a growth
that the allocator refused (crates/pagable_value_spec/src/error.rt). All others pass such an error on, so none says that
memory is wanting where no growth was refused. It may stand in patterns, clauses and comments. Nothing else is called
`OutOfMemory` but the cases of the enums in `OTHER_ENUMS`: `Error` gets no second name, and its cases are imported
nowhere. `AllocError` and `AllocFailed`, the refused growth itself, are values nowhere; and `Error::of_library`, which
takes its caller's word, is used only for what `regex` and the kit's `sqlite` refuse.

In `pagable_locked` a lock is taken by the name of the field that has it, and a lock of the pager stands in fields
`pager` alone. A function that locks the pager takes that lock once and makes one call of `pagable_pager` by it, which
has the function's name or the one in `OTHER_NAMES`, beside what makes the access of its owner. After the call it may
ask for the node of the handle that it got, for the blob that the cache didn't have, or for the counts of the storage
that it got. It has no loop and no macro from there on, and hands the guard to nothing but that access: so meanwhile no
value is decoded or written, nothing is waited for and no other lock is taken.

If README.md or a page of docs shows a file (`This is`, its name, and the code), it shows that file without the comment
at its head and its tests; if a part of a file (`From`, its name, and the code), these lines stand there one after the
other, whatever they are indented by; if what a program prints (`This is`, the name of its file `stdout`, and indented
lines), it shows that file. docs/INDEX.md is what tools/api_index.py prints.
"""
import re
import sys
from pathlib import Path

sys.dont_write_bytecode = True
import api_index  # noqa: E402

CRATES = Path(__file__).resolve().parent.parent / "crates"
CONVERSION = "fn out_of_memory() -> Error"
OF_LIBRARY = ("pagable_traits/src/saved_regex.rt", "pagable_file/src/stats.rt")
# What isn't code: comments, strings, and what begins a clause or a ghost member, up to its braces.
NOT_CODE = re.compile(r"//.*|\"(?:\\.|[^\"\\])*\"")
CLAUSE = re.compile(
    r"\b(?:ensures|requires|invariant|decreases)\b[^{};]*(?=\{)|\bghost\s+(?!use\b)\w+\s*[:=]\s*(?=\{)"
)
GHOST_USE = re.compile(r"\bghost\s+use\b[^;]*;")
ENUM = re.compile(r"\benum\s+\w+[^{;]*(?=\{)")
USE = re.compile(r"\buse\s[^;]*;")
# The case of an error, with what it is the case of. Others' enums have one of the same name.
WANT = re.compile(r"(?:(\w+|>)\s*::\s*)?\bOutOfMemory\b")
OTHER_ENUMS = {"ErrorCode", "ErrorKind", "FileError", "OpenError", "StoreError"}
# What stands behind a pattern: its end, other patterns beside it, and the arrow, or the `=` of a `let`.
PATTERN = re.compile(r"[\s)]*(?:\|[^=;]*)?(?:=>|=(?!=)|\bif\b.*=>)")
MATCHES = re.compile(r"\bmatches!(?=\()")
# A second name: for an error of ours, and for a refused growth. Cases that are imported.
OURS = r"(?:Error|AllocError|AllocFailed)"
RENAMED = re.compile(rf"\buse\s+(?:crate|self|super|std|pagable\w*)\b[^;]*\b{OURS}\s+as\s")
ALIAS = re.compile(rf"\btype\s+\w+[^=;]*=\s*(?:\w+\s*::\s*)*{OURS}\b[^=;]*;")
IMPORTED_CASES = re.compile(r"\buse\s[^;]*\bError\s*::\s*(?:\*|\{[^}]*\*)")
# A type is written behind `<`, `:` or `,`, or before `>`; a value isn't.
REFUSED_GROWTH = re.compile(r"(?:[({=]|=>|\breturn|^)\s*(?:AllocError\b(?!\s*[>:])|AllocFailed\s*\{[^{}]*\})")
TAKES_ITS_WORD = re.compile(r"(?<!fn )\bof_library\b")
LOCKED, PAGER = CRATES / "pagable_locked/src", CRATES / "pagable_pager/src"
FUNCTION = re.compile(r"(?m)^( *)(?:pub(?:\(crate\))? )?(?:const )?fn (\w+)")
# Where a lock is taken, and how: by the field that has it.
TAKES = re.compile(r"\b(?:try_lock|lock_briefly|lock)\b")
LOCK = re.compile(r"\b(?:\w+\s*\.\s*)+(\w+)\s*\.\s*lock\(|\block_briefly\(\s*&?(?:\w+\.)+(\w+),")
# Other names for what takes a lock, and a lock of the pager that isn't called `pager`.
RENAMED_LOCK = re.compile(r"\b(?:Mutex|MutexGuard|lock_briefly)\s+as\s|\btype\s+\w+[^=;]*=[^;]*\bMutex\s*<")
PAGERS_LOCK = re.compile(r"\bMutex\s*<\s*Pager\b")
CALLED_PAGER = re.compile(r"\bpager\s*:\s*(?:&\s*(?:'\w+\s*)?)?$")
# How a lock is taken: by `lock_briefly`, which knows nothing of what it guards.
TAKING = "lock.rt"
# The locks of a slot and of the table are others.
OTHER_LOCKS = {"state", "slots"}
CALLED = re.compile(r"(?<!fn )\b(\w+)(?:::<[^(){};]*>)?\(")
# What may stand before a parenthesis behind the lock, beside one call of the pager: the answer, what does nothing, the
# access of an owner, and what may follow that call.
PLAIN = {"Ok", "Err", "Some", "Left", "Right", "Worker", "assert_invariant"}
ACCESS = {"new", "for_owner"}
# What may follow a call, once each: the node of the handle that it answered, the blob where the cache answered none, and
# the counts of the storage.
FOLLOWS, ALSO = {"node_of"}, {"cache_get": {"fetch"}, "storage": {"counts"}}
# A new handle is made by one of these.
INSERTS = {"new_loose", "new_shared", "new_pinned"}
# The calls of functions that have another name than their call.
OTHER_NAMES = {
    "insert": INSERTS, "clone_handle": {"clone"}, "fetch_data_blocking": {"fetch"}, "poll_blob": {"poll_fetch"},
    "fetch_arc_or_data_blocking": {"cache_get"}, "store_data": {"store_keyed"}, "load_end": {"end_load"},
    "pending_paging_count": {"pending"}, "release_taken": {"release"}, "storage_counts": {"storage"},
}
GUARD = re.compile(r"(?<![.\w])pager\b(?!\s*\.)")
# A file that a page shows, and what it shows.
SHOWN = re.compile(r"This is\s`((?:tools/)?crates/\S+\.(?:rt|rattle|decl))`[^`]*\n\n```rust\n(.*?)```", re.S)
PART = re.compile(r"From\s`((?:tools/crate_tests|(?:tools/)?crates)/\S+\.(?:rt|rattle))`[^`]*\n\n```rust\n(.*?)```", re.S)
PRINTED = re.compile(r"This is\s`(crates/\S+/stdout)`(?:.|\n(?!\n))*\n\n((?: {4}.*\n)+)")
KEPT = re.compile(r"let (?:mut )?pager = |Lent::(?:new|for_owner)\(&mut \*pager\b")


def blank(text, start, end):
    """The text with spaces from one place to another, in lines as before."""
    return text[:start] + re.sub(r"\S", " ", text[start:end]) + text[end:]


def end_of_group(text, start):
    """Where the brackets that open at this place are closed."""
    depth = 0
    for place in range(start, len(text)):
        depth += (text[place] in "({[") - (text[place] in ")}]")
        if not depth:
            return place + 1
    return len(text)


def code_of(text):
    """The text without comments, strings, clauses and ghost members, in lines as before."""
    text = NOT_CODE.sub(lambda it: " " * len(it[0]), text)
    text = GHOST_USE.sub(lambda it: re.sub(r"\S", " ", it[0]), text)
    while clause := CLAUSE.search(text):
        end = end_of_group(text, clause.end())
        if default := re.compile(r"\s*=\s*(?=\{)").match(text, end):
            end = end_of_group(text, default.end())
        text = blank(text, clause.start(), end)
    return text


def functions(text):
    """Each function of a text in the layout of `rt fmt`: where it starts, its name, and its code to its last brace."""
    for head in FUNCTION.finditer(text):
        end = text.find(f"\n{head[1]}}}", head.end())
        yield head.start(), head[2], text[head.start() : end if end >= 0 else len(text)]


def is_one_call(function, behind, pager):
    """Whether what stands behind the pager's lock is one call of these functions of the pager, the function's own, with
    what may stand round it.
    """
    calls = [name for name in CALLED.findall(behind) if name not in PLAIN | ACCESS]
    is_own = bool(calls) and calls[0] in OTHER_NAMES.get(function, {function})
    rest = [name for name in calls if name not in INSERTS] if calls[:1] and calls[0] in INSERTS else calls[1:]
    is_one = len(calls) == len(set(calls)) and set(rest) <= FOLLOWS | ALSO.get(calls[0] if calls else "", set())
    is_bounded = not re.search(r"\b(?:for|while|loop)\b|\w!\s*[(\[{]|\|", behind)
    is_kept = not GUARD.search(KEPT.sub("", behind)) and (re.match(r"[^()]*\)\s*\.", behind) or "pager" in behind)
    return is_own and is_one and set(calls) <= pager | {"counts"} and is_bounded and bool(is_kept)


def lengthy_locks():
    """The places, as file and line, of functions that lock the pager and do more than one call by it, or lock what isn't
    known here."""
    pager = {name for file in PAGER.glob("**/*.rt") for _, name in FUNCTION.findall(file.read_text(encoding="utf-8"))}
    found = []
    for file in sorted(LOCKED.glob("**/*.rt")):
        if file.name == TAKING:
            continue
        text = code_of(file.read_text(encoding="utf-8"))
        places = [it.start() for it in RENAMED_LOCK.finditer(text)]
        places += [it.start() for it in PAGERS_LOCK.finditer(text) if not CALLED_PAGER.search(text[: it.start()])]
        for start, function, code in functions(text):
            locks = list(LOCK.finditer(code))
            names = [lock[1] or lock[2] for lock in locks]
            is_by_field = len(TAKES.findall(code)) == len(locks)
            is_other = set(names) <= OTHER_LOCKS
            is_pagers = names == ["pager"] and is_one_call(function, code[locks[0].end() :], pager)
            if not is_by_field or not (is_other or is_pagers):
                places.append(start)
        found += [(file, text[:place].count("\n") + 1) for place in places]
    return found


def unindented(text):
    """The lines of a text, without what they are indented by and the empty ones."""
    return "\n".join(line.strip() for line in text.splitlines() if line.strip())


def is_stale(shown, top):
    """Whether a page shows other code than the file that it names has, or another part than it has."""
    text = (top / shown[1]).read_text(encoding="utf-8")
    if shown.re is PART:
        return f"\n{unindented(shown[2])}\n" not in f"\n{unindented(text)}\n"
    if shown.re is PRINTED:
        return re.sub(r"(?m)^ {4}", "", shown[2]) != text
    code = "".join(line for line in text.splitlines(keepends=True) if not line.startswith("//!"))
    return code.strip("\n") != shown[2].strip("\n")


def stale_code():
    """The places, as file and line, at which a page shows other code than the file that it names has, and where the
    index isn't what its tool prints."""
    top = CRATES.parent
    found = []
    for page in (top / "README.md", *sorted((top / "docs").glob("*.md"))):
        text = page.read_text(encoding="utf-8")
        shown = [it for kind in (SHOWN, PART, PRINTED) for it in kind.finditer(text) if is_stale(it, top)]
        found += [(page, text[: it.start(2)].count("\n") + 1) for it in shown]
    lines = zip((top / "docs" / "INDEX.md").read_text(encoding="utf-8").split("\n"), api_index.index(top).split("\n"))
    other = [number for number, (line, wanted) in enumerate(lines, 1) if line != wanted]
    return found + [(top / "docs" / "INDEX.md", number) for number in other[:1]]


def without_patterns(code):
    """Code without imports, enums and the patterns of `matches!`, in lines as before."""
    for group in [ENUM, MATCHES]:
        for start in [it.end() for it in group.finditer(code)]:
            end = end_of_group(code, start)
            code = blank(code, code.find(",", start, end) if group is MATCHES else start, end)
    return code


def offences(text, file):
    """The lines, counted from 1, that write a want of memory as a value; and those that do in the one function that may."""
    code = code_of(text)
    places = [it.end() for names in (RENAMED, ALIAS, IMPORTED_CASES) for it in names.finditer(code)]
    code = without_patterns(code)
    allowed = []
    for want in WANT.finditer(code):
        is_value = want[1] not in OTHER_ENUMS and not PATTERN.match(code, want.end())
        functions_so_far = re.findall(r"\bfn \w+[^{;]*", code[: want.start()])
        is_allowed = bool(functions_so_far) and functions_so_far[-1].startswith(CONVERSION)
        if is_value:
            (allowed if is_allowed else places).append(want.end())
    if file not in OF_LIBRARY:
        places += [it.end() for it in TAKES_ITS_WORD.finditer(code)]
    found = [code[:place].count("\n") + 1 for place in places]
    for number, line in enumerate(USE.sub(lambda it: re.sub(r"\S", " ", it[0]), code).splitlines(), 1):
        growths = REFUSED_GROWTH.finditer(re.sub(r"\b(?:fn|impl) .*", "", line))
        found += [number for at in growths if not PATTERN.match(line, at.end())]
    return found, [code[:place].count("\n") + 1 for place in allowed]


def main():
    lines = []
    for file in sorted(CRATES.glob("*/src/**/*.rt")):
        found, allowed = offences(file.read_text(encoding="utf-8"), str(file.relative_to(CRATES)))
        is_home = file == CRATES / "pagable_value_spec/src/error.rt"
        lines += [(file, number) for number in found + (allowed[1:] if is_home else allowed)]
    lines += lengthy_locks() + stale_code()
    for file, number in lines:
        print(f"{file.relative_to(CRATES.parent)}:{number}")
    sys.exit(1 if lines else 0)


if __name__ == "__main__":
    main()
