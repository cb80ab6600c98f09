"""Makes LLVM's code of a proved build out of that of `rt try`, for build.py.

`rt try` puts checks into the code and fills each new variable. It drops the marks `#[inline]` and `#[cold]` of
functions, and its `spin_loop` does nothing. A function gets its mark back by its name, which in LLVM's code has the
module, the type with the trait, and the function's own name, as `core::fmt::num::U8Display::fmt`.
"""
import collections
import re
import sys

# What `rt try` adds: bytes put into new variables, and calls of its checks.
ADDED = re.compile(r"(?m)^ *call void @(?:llvm\.memset\.p0\.i64\(ptr %\S+, i8 -86,|\"rattle-llvm-checks::).*\n")
# What stands in a source: the head of an impl or trait, a mark of the next function, and a function.
SOURCE = re.compile(
    r"(?m)^(?P<head>(?:pub(?:\([^)]*\))? )?(?:unsafe )?(?:impl|trait)\b[^{;]*)"
    r"|^ *#\[(?P<mark>inline(?:\(\w+\))?|cold)\]$"
    r"|^(?P<indent> *)(?:[a-z]+(?:\([^)]*\))? )*fn (?P<name>\w+)"
)
OWNER = re.compile(r".*\b(?:impl|trait)\s+(?:(?:\w+::)*(?P<trait>\w+)\s+for\s+)?(?:\w+::)*(?P<type>\w+)", re.S)
# What LLVM calls these marks, and where it defines a function.
ATTRIBUTES = {"inline": "inlinehint", "inline(always)": "alwaysinline", "inline(never)": "noinline", "cold": "cold"}
DEFINED = re.compile(r'(?m)^(define [^\n@]*@"(?P<name>[^"]+)"\([^\n]*\)) (?P<group>#\d+ \{)$')
# The function in which a processor pauses, up to its first line.
SPIN_LOOP = "core::hint::spin_loop"
SPINS = re.compile(rf'(?m)^(define [^\n@]*@"{SPIN_LOOP}"\(\)[^\n]*\{{\n\w+:\n)')
PAUSE = "llvm.x86.sse2.pause"


def owner_of(head):
    """What LLVM's names have for an impl or a trait: the names of the type and of the trait, as `ItemsIterator` for
    `impl<T> Iterator for Items<T>`; nothing for types that have no name."""
    before, head = None, head.replace("->", "")
    while head != before:
        before, head = head, re.sub(r"<[^<>]*>", "", head)
    found = OWNER.match(head)
    return found["type"][0].upper() + found["type"][1:] + (found["trait"] or "") if found else ""


def marks_in(file, module, marks):
    """Adds what the functions of a source are marked with, by module, owner and name, and by module and name."""
    owner, mine = "", []
    for found in SOURCE.finditer(file.read_text(encoding="utf-8")):
        if found["head"]:
            owner = owner_of(found["head"])
        elif found["mark"]:
            mine.append(ATTRIBUTES[found["mark"]])
        else:
            name, its = found["name"], " ".join(sorted(mine))
            marks[module, owner if found["indent"] else "", name].add(its)
            marks[module, name].add(its)
            mine = []


def marks_of(crates):
    """What the functions of the crates in these folders are marked with."""
    marks = collections.defaultdict(set)
    for crate in crates:
        for file in (crate / "src").rglob("*.rt"):
            parts = [crate.name, *file.relative_to(crate / "src").with_suffix("").parts]
            marks_in(file, "::".join(parts[:-1] if parts[-1] in ("lib", "main", "mod") else parts), marks)
    return marks


def mark_of(name, marks):
    """What the function of this name in LLVM's code is marked with; nothing where two functions could be meant."""
    path, _, function = name.partition("::<")[0].rpartition("::")
    module, _, owner = path.rpartition("::")
    for place in ((path, "", function), (module, owner, function), (module, function)):
        if place in marks:
            return "".join(marks[place]) if len(marks[place]) == 1 else ""
    return ""


def with_marks(code, folders):
    """LLVM's code with the marks that `rt try` drops, from the sources of its crates, which stand in these folders."""
    if '@"core::' not in code:
        return code
    names = {found["name"].partition("::")[0] for found in DEFINED.finditer(code)}
    marks = marks_of(folder / name for folder in folders for name in names)

    def marked(found):
        mark = mark_of(found["name"], marks)
        return f"{found[1]} {mark} {found['group']}" if mark else found[0]

    marked_code = DEFINED.sub(marked, code)
    if marked_code == code:
        sys.exit("as_proved: no function of this code has a mark: its names have another form")
    return marked_code


def with_pauses(code):
    """LLVM's code with the processor's pause in `spin_loop`, as a proved program has it."""
    if f'"{SPIN_LOOP}"' not in code:
        return code
    code, count = SPINS.subn(rf"\1  call void @{PAUSE}()\n", code)
    if count != 1:
        sys.exit(f"as_proved: no pause was put into this code: its {SPIN_LOOP} has another form")
    return f"{code}\ndeclare void @{PAUSE}()\n"


def as_proved(code, folders):
    """LLVM's code of `rt try` as a proved build has it: without what `rt try` adds, with what it leaves out, and for
    the processors of a proved build."""
    code = ADDED.sub("", code).replace("sanitize_address", "")
    code = code.replace('"frame-pointer"="all"', '"frame-pointer"="none"')
    code = code.replace('"target-cpu"="x86-64"', '"target-cpu"="x86-64-v2"')
    return with_pauses(with_marks(code, folders))
