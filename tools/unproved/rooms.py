#!/usr/bin/env python3
"""Moves the rooms of the house in a clone of the repository, and leaves all of it staged.

    rooms.py CLONE [--no-print] [--no-unproved]

1. The crate `pagable_nodes` becomes the module `nodes` of `pagable_core`, `blob_host` the module `host` of `blob_file`.
2. Examples get names that begin with `example_`; crates.txt and docs/DESIGN.md tell the kinds of crates apart.
3. Imports, lists of crates, tools, wrong bodies, pages and kept diffs follow, and docs/INDEX.md is made anew.

The clone has to be clean. `--no-print` leaves out the printing of the printed crate by tools/derive.py, whose program
takes minutes to build, `--no-unproved` the diffs of tools/unproved. What isn't as this script expects is printed as a
line `rooms: ..`, and the status is 1 if there is one.
"""
import os
import pathlib
import re
import shutil
import subprocess
import sys
import tempfile
import textwrap

MERGED = {  # crate: the crate that it joins, the module that it becomes there, and specs that get another name
    "pagable_nodes": ("pagable_core", "nodes", {}),
    "blob_host": ("blob_file", "host", {"Opening": "HostOpening"}),
}
# Whether the names of a joined crate are also names of the root of the other one.
AT_ROOT = {"pagable_nodes"}
RENAMED = {
    "quick": "example_quick",
    "four_threads": "example_four_threads",
    "remote": "example_remote",
    "graph": "example_graph",
    "declared_types": "example_declared_types",
    "commits": "example_commits",
    "history": "example_history",
    "uses": "example_uses",
    "pagable_examples": "example_types",
}
# Names that are no words of a text, so that they are renamed wherever they stand.
TELLING = {"four_threads", "declared_types", "pagable_examples"}
# The rows of `pagable_core`'s page for its nodes.
NODES = """\
| `OneNode`, `EitherNode`, `NodeValue` | nodes of environments with one type of values or three; what a node asks of a value |
| `HasCases`, `HasTags`, `CaseReader` | how enums of any number of cases are listed, written and read |
| `Records`, `Record`, `to_bytes`, `from_bytes` | an environment without types of one's own; values without references as bytes |
"""
PROGRAMS, TESTS = {"pagectl", "blobctl"}, {"vectors"}
# The file that lists the printed crates with their declarations, and where these stand.
DECLARATIONS, DATA = "tools/declarations/check.py", "tools/crates/pagable_derive/data"
WORD = "|".join(RENAMED)
FAULTS = []


def fault(text):
    FAULTS.append(text)
    print(f"rooms: {text}", flush=True)


def ran(top, *words, **more):
    done = subprocess.run([*map(str, words)], cwd=top, capture_output=True, text=True, **more)
    if done.returncode:
        fault(f"{' '.join(map(str, words))} ended with {done.returncode}: {(done.stdout + done.stderr)[-400:]}")
    return done.stdout


def files(top, *folders, ends=(".rt", ".antt", ".rattle")):
    listed = ran(top, "git", "ls-files", "-z", "--", *folders).split("\0")
    return [top / it for it in listed if it.endswith(ends) and (top / it).is_file()]


def changed(file, change):
    """Puts what a function makes of a file's text in its place; tells whether it is other text."""
    old = file.read_text(encoding="utf-8")
    new = change(old)
    if new != old:
        file.write_text(new, encoding="utf-8")
    return new != old


def replaced(file, old, new, count=1):
    """Replaces a text that has to stand in a file, so many times."""
    def change(text):
        if text.count(old) != count:
            fault(f"{file}: {old[:60]!r} stands {text.count(old)} times")
        return text.replace(old, new)
    changed(file, change)


# ---- paths of ghost code


def items(group):
    """The items of a group in braces, each with the space before it and the comma behind it."""
    depth, start, found = 0, 0, []
    for at, letter in enumerate(group):
        depth += (letter == "{") - (letter == "}")
        if letter == "," and not depth:
            found.append(group[start : at + 1])
            start = at + 1
    return [*found, group[start:]]


def end_of_group(text, start):
    depth = 0
    for at in range(start, len(text)):
        depth += (text[at] == "{") - (text[at] == "}")
        if not depth:
            return at + 1
    return len(text)


def in_each(path, change):
    """A path, or each item of the group in braces that it is, changed."""
    if not path.lstrip().startswith("{"):
        return change(path)
    start = path.index("{")
    end = end_of_group(path, start)
    return path[: start + 1] + "".join(in_each(it, change) for it in items(path[start + 1 : end - 1])) + path[end - 1 :]


def path_in(module, names):
    """How what stands behind a joined crate's name is changed: `specs..` and `proofs..`."""
    def in_specs(path):
        path = re.sub(r"^(\s*)(declared|contracts)\.", rf"\1\2.{module}.", path)
        return re.sub(r"^(\s*)(\w+)", lambda it: it[1] + names.get(it[2], it[2]), path)

    def in_proofs(path):
        return re.sub(r"^(\s*)([a-z])", rf"\1{module}.\2", path)

    def in_crate(path):
        head = re.match(r"\s*(specs|proofs)\.", path)
        if not head:
            return path
        return head[0] + in_each(path[head.end() :], in_specs if head[1] == "specs" else in_proofs)

    return in_crate


def with_moved_paths(text, crate, into, module, names):
    """Ghost code in which a joined crate's paths are the other one's."""
    change, out, at = path_in(module, names), "", 0
    for head in re.finditer(rf"\b{crate}\.(?=specs\b|proofs\b|\{{)", text):
        if head.start() < at:
            continue
        end = head.end()
        while end < len(text) and re.match(r"[\w.\-◌{]", text[end]):
            end = end_of_group(text, end) if text[end] == "{" else end + 1
        out += text[at : head.start()] + f"{into}." + in_each(text[head.end() : end], change)
        at = end
    return out + text[at:]


SPEC_USE = r"(?m)^((?:ghost )?use Rattle\.{}\.specs\.)(?![^\n{{]* as \w+;?$)((?:[^\n{{]*\{{[^;]*?\n?\}}|[^\n{{]+))(;?)\n"


def joined_uses(text, crate):
    """A text with one import of a crate's specs where it has several."""
    found = [it for it in re.finditer(SPEC_USE.format(crate), text) if end_of_group(it[2] + "{", 0) > 0]
    if len(found) < 2:
        return text
    every = []
    for it in found:
        whole = it[2].strip()
        listed = [whole] if not whole.startswith("{") else [x.strip().rstrip(",") for x in items(whole[1:-1])]
        every += [re.sub(r"\.\{([^{},\s]+)\}$", r".\1", x) for x in listed if x]
    every.sort(key=lambda x: (x.startswith("declared"), x))
    head, end = found[0][1], found[0][3]
    one = f"{head}{{{', '.join(every)}}}{end}\n"
    if len(one) > 121:
        one = f"{head}{{\n" + "".join(f"  {x},\n" for x in every) + f"}}{end}\n"
    for it in reversed(found[1:]):
        text = text[: it.start()] + text[it.end() :]
    return text[: found[0].start()] + one + text[found[0].end() :]


# ---- pages


def blocks(text):
    """The parts of a page: prose as one string without its breaks, with its indents; other lines as they are."""
    lines, fenced, block = text.split("\n"), False, None
    for line in lines:
        marker = re.match(r"( *)([-*] |\d+\. )?", line)
        is_fence = line.lstrip().startswith("```")
        indent = len(marker[1])
        in_block = block and indent == block[2] and not marker[2]
        plain = not fenced and not is_fence and line.strip() and not line.lstrip().startswith(("|", "#", "<!--", ">", "!["))
        is_code = plain and not marker[2] and not in_block and indent >= 4
        if plain and not is_code:
            if in_block:
                block[1].append(line.strip())
            else:
                if block:
                    yield block
                block = ["prose", [line[len(marker[0]) :].strip()], indent + len(marker[2] or ""), marker[0]]
        else:
            if block:
                yield block
            block = None
            fenced ^= is_fence
            yield ["line", [line], 0, ""]
    if block:
        yield block


def in_columns(old, new):
    """A line whose comment begins in the column in which it began, if it has the room."""
    was, now = (re.match(r"^( {4,}\S.*?)( {2,})(# .*)$", it) for it in (old, new))
    return now[1].ljust(len(was[1] + was[2]) - 1) + " " + now[3] if was and now else new


def filled(words, indent, first, width=120):
    wrap = {"width": width, "break_long_words": False, "break_on_hyphens": False}
    return textwrap.fill(words, initial_indent=first, subsequent_indent=" " * indent, **wrap)


def in_blocks(text, change):
    """A page whose parts a function changes: what it changes of prose is filled anew."""
    out = []
    for kind, lines, indent, first in blocks(text):
        said = " ".join(lines)
        new = change(said)
        if kind == "line":
            out.append(new if new == said else in_columns(said, new))
        elif new == said:
            rest = [" " * indent + it for it in lines[1:]]
            out.append("\n".join([first + lines[0], *rest]))
        else:
            out.append(filled(new, indent, first))
    return "\n".join(out)


def other_words(text):
    """A part of a page, with the new names."""
    text = re.sub(r"(README(?:s)?\s+of )`blob_host`", r"\1`blob_file`", text)
    text = text.replace("Three crates keep a file: `blob_file` and `blob_host`, and above them `pagable_file`.",
                        "Two crates keep a file: `blob_file`, and above it `pagable_file`.")
    text = text.replace("the pager knows values only by `NodeSet`.", "the pager knows values only by `NodeSet`. Of "
                        "`pagable_core` only the module `nodes` uses these types.")
    into = " and ".join(f"`{it[0]}`" for it in MERGED.values())
    text = text.replace("`pagable_pager_spec` and `sha256_lanes` weren't measured.", "`pagable_pager_spec` and "
                        f"`sha256_lanes` weren't measured. The rows of {into} are each the sum of two rows, of the crates "
                        "that they were made of, with the higher peak.")
    text = text.replace(", `blob_file` and `blob_host`", " and `blob_file`")
    text = re.sub(r"\[`blob_host`\]\([^)]*\),? ?", "", text)
    text = text.replace("`pagable_core`, `pagable_nodes`", "`pagable_core`")
    text = text.replace("pagable_core pagable_nodes", "pagable_core")
    text = re.sub(r"the (\d+) of `blob_file`", r"the \1 of `blob_file` besides `host`", text)
    text = text.replace("`blob_host`", "`blob_file::host`").replace("`pagable_nodes`", "`pagable_core`")
    return renamed_words(text)


def renamed_words(text):
    """A text with the new names of the examples, wherever a name can be told from a word."""
    new = lambda it: it[1] + RENAMED[it[2]] + (it[3] if it.re.groups > 2 else "")  # noqa: E731
    for name in TELLING:
        text = re.sub(rf"\b{name}\b", RENAMED[name], text)
    text = re.sub(rf"(`)({WORD})(`)", new, text)
    text = re.sub(rf"(\bcrates/)({WORD})\b", new, text)
    text = re.sub(rf"(\]\(\.\./)({WORD})\b", new, text)
    text = re.sub(rf"(--crate )({WORD})\b", new, text)
    text = re.sub(rf"(copy_crates\.py \S+ )({WORD})\b", new, text)
    text = re.sub(rf"(programs/run\.py )({WORD})\b", new, text)
    text = re.sub(rf"(`out/)({WORD})(`)", new, text)
    text = re.sub(rf"(`)({WORD})(: \w)", new, text)
    text = re.sub(rf"(s/\^)({WORD})(:)", new, text)
    text = re.sub(rf"(the `use` of `)({WORD})(`)", new, text)
    return text


# ---- lists of crates


def listed_anew(names, crate=""):
    """A crate's libraries, with their new names, each once."""
    new = [MERGED[it][0] if it in MERGED else RENAMED.get(it, it) for it in names]
    return list(dict.fromkeys(it for it in new if it != crate))


def crates_txt(top):
    """Rewrites crates.txt: the joined crates' lines go, and each kind of crate stands below its heading."""
    file, rows, notes = top / "crates.txt", {}, []
    for line in file.read_text(encoding="utf-8").splitlines():
        head = re.match(r"(\w+)([^:#]*):(.*)$", line)
        if head:
            rows[head[1]] = (head[2], head[3].split())
        elif line.strip():
            notes.append(line)
    for crate, (into, _, _) in MERGED.items():
        more, own = rows.pop(crate, ("", [])), rows[into]
        if more[0].strip():
            fault(f"crates.txt: {crate} has{more[0]}: add it to {into}")
        fresh = [it for it in more[1] if it not in (*own[1], into)]
        order = [*rows]
        place = lambda it: order.index(it) if it in rows else len(order)  # noqa: E731
        rows[into] = (own[0], sorted([*own[1], *fresh], key=place))
    kinds = {"libraries, the lowest first": [], "programs": [], "examples, to copy": [], "tests": []}
    for crate, (words, used) in rows.items():
        new = RENAMED.get(crate, crate)
        kind = 2 if new.startswith("example_") else 1 if crate in PROGRAMS else 3 if crate in TESTS else 0
        [*kinds.values()][kind].append(f"{new}{words}: {' '.join(listed_anew(used, new))}".rstrip())
    said = "\n".join(notes) + "\n" + "".join(f"\n# {kind}\n" + "".join(f"{it}\n" for it in lines) for kind, lines in kinds.items())
    file.write_text(said, encoding="utf-8")
    list_txt = top / "tools/crates/list.txt"
    each = lambda it: f"{it[1]}: {' '.join(listed_anew(it[2].split(), it[1]))}"  # noqa: E731
    changed(list_txt, lambda text: re.sub(r"(?m)^(\w+): (.*)$", each, text))


def narrow(text, width=120):
    """A tool's text whose comments and lists of words are put on more lines where one has become too long."""
    lines, at = text.split("\n"), 0
    while at < len(lines):
        line = lines[at]
        words = re.match(r'^(.*?"[^"]* )(\w+) "$', line)
        below = re.match(r'^( *)"(.*)$', lines[at + 1]) if at + 1 < len(lines) else None
        if len(line) > width and words and below:
            lines[at], lines[at + 1] = f'{words[1]}"', f'{below[1]}"{words[2]} {below[2]}'
            continue
        comment = re.match(r"^( *//[!/]? |)(?=\S)", line)
        if len(line) > width and comment and (comment[1] or line.startswith('"""')):
            end = at + 1
            while end < len(lines) and lines[end].startswith(comment[1]) and lines[end].strip() not in ("", comment[1].strip(), '"""'):
                end += 1
            said = " ".join(it[len(comment[1]) :].strip() for it in lines[at:end])
            lines[at:end] = textwrap.wrap(said, width, initial_indent=comment[1], subsequent_indent=comment[1],
                                          break_long_words=False, break_on_hyphens=False)
        at += 1
    return "\n".join(lines)


def in_python(text):
    """A tool's text, in which strings that list crates have the new names, each once."""
    known = {*MERGED, *RENAMED}

    def one(it):
        words = it[2].split()
        if len(words) < 3 or not known & {*words} or not re.fullmatch(r"[\w ]+", it[2]):
            return it[0]
        lead, end = re.match(r" *", it[2])[0], re.search(r" *$", it[2])[0]
        return f'{it[1]}"{lead}{" ".join(listed_anew(words))}{end}"'

    return re.sub(r'((?<!\w))"([^"\n]*)"', one, text)


# ---- the moves


def move_crate(top, crate):
    """Moves the files of a crate that joins another one, and joins their lists of modules and wrong bodies."""
    into, module, names = MERGED[crate]
    old, new = top / "crates" / crate, top / "crates" / into
    own = sorted(it.stem for it in (old / "src").glob("*") if it.stem not in ("lib", "tests"))
    if clash := [it for it in (old / "specs").glob("*.antt") if it.stem != "Lib" and (new / "specs" / f"{names.get(it.stem, it.stem)}.antt").exists()]:
        fault(f"{into} has specs of these names: {clash}")
    move = lambda a, b: (b.parent.mkdir(parents=True, exist_ok=True), ran(top, "git", "mv", a, b))  # noqa: E731
    root = (old / "src/lib.rt").read_text(encoding="utf-8")
    move(old / "src/lib.rt", new / f"src/{module}.rt")
    for file in sorted((old / "src").iterdir()):
        move(file, new / "src" / module / file.name)
    for part in ("specs", "proofs"):
        for file in sorted((old / part).iterdir()) if (old / part).exists() else []:
            if file.name == "Lib.antt":
                with open(new / part / "Lib.antt", "a", encoding="utf-8") as listed:
                    listed.write(re.sub(r"\bmod (\w+)", lambda it: f"mod {names.get(it[1], it[1])}", file.read_text(encoding="utf-8")))
                ran(top, "git", "rm", "-q", file)
            elif file.is_dir():
                move(file, new / part / module / file.name)
            elif (new / part / file.name).exists() and file.stem not in names:
                fault(f"{new / part / file.name} is there")
            else:
                move(file, new / part / f"{names.get(file.stem, file.stem)}.antt")
    join_roots(new, crate, module, root)
    for file in files(top, f"crates/{into}/src/{module}.rt", f"crates/{into}/src/{module}"):
        changed(file, lambda text: moved_code(text, new, into, module, own))
    edits, beside = top / f"tools/wrong_bodies/{crate}.edits", top / f"tools/wrong_bodies/{into}.edits"
    if edits.exists():
        text = re.sub(r"(?m)^file: src/", f"file: src/{module}/", edits.read_text(encoding="utf-8"))
        changed(beside, lambda it: with_edits(it, text, module))
        ran(top, "git", "rm", "-q", edits)
    if (old / "README.md").exists():
        join_readme(old / "README.md", new / "README.md", crate, module)
        ran(top, "git", "rm", "-qf", old / "README.md")
    if (old / "must-fail").exists() or any(it for it in old.rglob("*") if it.is_file() and "out" not in it.parts):
        fault(f"crates/{crate} has more files")
    shutil.rmtree(old, ignore_errors=True)


def with_edits(text, more, module):
    """Wrong bodies with those of a joined crate, at the place of its module if the files are in order."""
    parts = re.split(r"(?m)^(?=file: )", text)
    names = [it.split("\n")[0] for it in parts if it]
    at = next((i for i, it in enumerate(parts) if it > f"file: src/{module}/"), len(parts)) if names == sorted(names) else len(parts)
    return "".join([*parts[:at], more, *parts[at:]])


def moved_code(text, new, into, module, own):
    """The code of a moved file: paths below its crate's root, and imports of the crate that it joins."""
    text = re.sub(rf"\bcrate::({'|'.join(own)})\b", rf"crate::{module}::\1", text)
    if re.search(r"\bcrate::(?:\{|[A-Z])", text):
        fault(f"a file of {module} names what stands at its crate's root")
    root = (new / "src/lib.rt").read_text(encoding="utf-8")
    homes = {}
    for it in re.finditer(r"(?m)^pub use ([\w:]+)::(?:\{([^}]*)\}|(\w+));", root):
        homes |= {name: it[1] for name in re.findall(r"\w+", it[2] or it[3])}

    def one(it):
        found = re.findall(r"\w+", it[1] or it[2])
        for name in found:
            if name not in homes:
                fault(f"{into} has no {name} at its root")
        return "".join(f"use crate::{homes.get(name, '?')}::{name};\n" for name in found)

    return re.sub(rf"(?m)^use {into}::(?:\{{([^}}]*)\}}|(\w+));\n", one, text)


def join_roots(new, crate, module, root):
    """Makes the root of a joined crate a module's file, and names it in the other root."""
    uses = re.findall(r"(?m)^pub use [^;]*;\n", root)
    here = "".join(uses) if crate not in AT_ROOT else ""
    here = re.sub(r"(?m)^pub use (?!\w*sqlite)(\w+)", rf"pub use crate::{module}::\1", here)
    body = re.sub(r"(?m)^#!\[.*\n", "", re.sub(r"(?m)^pub use [^;]*;\n", "", root)).rstrip("\n")
    (new / f"src/{module}.rt").write_text(f"{body}\n" + (f"\n{here}" if here else ""), encoding="utf-8")

    def change(text):
        mods = re.findall(r"(?m)^pub mod (\w+);$", text)
        after = [it for it in mods if it < module]
        place = f"pub mod {after[-1]};\n" if after else f"pub mod {mods[0]};\n"
        line = f"pub mod {module};\n"
        text = text.replace(place, place + line if after else line + place)
        if crate in AT_ROOT:
            more = re.sub(r"(?m)^pub use ", f"pub use {module}::", "".join(uses))
            last = [*re.finditer(r"(?m)^pub use [^;]*;\n", text)][-1]
            text = text[: last.end()] + more + text[last.end() :]
        return text

    changed(new / "src/lib.rt", change)


def join_readme(old, new, crate, module):
    """Puts the page of a joined crate behind that of the other one, below a heading of its own."""
    text = old.read_text(encoding="utf-8")
    body = re.sub(r"(?m)^##", "###", re.sub(r"^# .*\n\n", "", text))
    changed(new, lambda it: it.rstrip("\n") + f"\n\n## Files of the operating system: `{module}`\n\n" + body)


def move_examples(top):
    """Gives the examples their new names: folders, wrong bodies, and the test that is called like one."""
    for old, new in RENAMED.items():
        if not (top / "crates" / old).exists():
            fault(f"there is no crates/{old}")
            continue
        ran(top, "git", "mv", f"crates/{old}", f"crates/{new}")
        shutil.rmtree(top / "crates" / old, ignore_errors=True)
        for pattern in ("tools/wrong_bodies/{}.edits", "tools/crate_tests/{}.rattle"):
            if (top / pattern.format(old)).exists():
                ran(top, "git", "mv", pattern.format(old), pattern.format(new))


def users_of(top, crate):
    """The folders of code that may import a crate: the crates whose lines list it, and the tools."""
    lines = [*(top / "crates.txt").read_text(encoding="utf-8").splitlines(), *(top / "tools/crates/list.txt").read_text(encoding="utf-8").splitlines()]
    heads = [(re.match(r"\w+", it)[0], it.split(":", 1)[-1].split()) for it in lines if re.match(r"\w", it)]
    return {name for name, used in heads if crate in used}


def code(top, users):
    """Rewrites what code says of moved crates."""
    for file in files(top, "crates", "tools"):
        inside = file.relative_to(top).parts
        own = inside[1] if inside[0] == "crates" else inside[2] if inside[:2] == ("tools", "crates") else None

        def change(text):
            was = text
            for crate, (into, module, names) in MERGED.items():
                text = with_moved_paths(text, crate, into, module, names)
                text = moved_rust(text, crate, into, module, top)
                text = re.sub(rf"`{crate}`", f"`{into}::{module}`" if crate not in AT_ROOT else f"`{into}`", text)
                text = re.sub(rf'(?m)^    "{crate}",\n', "", re.sub(rf'(add(?:_all)?\()"{crate}"', rf'\1"{into}"', text))
                if file.suffix != ".rattle" or "pagable_derive" not in inside:
                    text = joined_uses(text, into) if into == "pagable_core" else text
            for old, new in RENAMED.items():
                text = re.sub(rf"\bRattle\.{old}\.(?=specs|proofs|\{{)", f"Rattle.{new}.", text)
                text = re.sub(rf"(\bRattle\.\{{[^;\n]*?){old}\.(?=specs|proofs)", rf"\1{new}.", text)
                if old in TELLING or own in users[old] or inside[0] == "tools":
                    text = re.sub(rf"(?<![\w:.>]){old}::(?=[\w{{])", f"{new}::", text) if own != new else text
            new = renamed_words(text)
            return narrow(new) if inside[0] == "tools" and new != was else new

        changed(file, change)
    list_of_names(top)


def list_of_names(top):
    """Counts the reserved names of the printing program anew, which lists the libraries that a printed crate uses."""
    file = top / "tools/crates/pagable_derive/src/names.rattle"

    def change(text):
        head = re.search(r"const MODULES: \[&str; (\d+)\] = \[\n((?:    \"\w+\",\n)*)\];", text)
        if not head:
            fault(f"{file}: there is no list MODULES")
            return text
        return text[: head.start(1)] + str(head[2].count("\n")) + text[head.end(1) :]

    changed(file, change)


def moved_rust(text, crate, into, module, top):
    """Rust code in which what was imported from a joined crate comes from the other one."""
    below = sorted(it.stem for it in (top / "crates" / into / "src" / module).glob("*.rt"))
    if crate not in AT_ROOT:
        text = re.sub(rf"\b{crate}::(?=specs|proofs)", f"{into}::", text)
        return re.sub(rf"\b{crate}::", f"{into}::{module}::", text)
    text = re.sub(rf"\b{crate}::(?=(?:{'|'.join(below)})\b)", f"{into}::{module}::", text)
    text = re.sub(rf"\b{crate}::\{{([^;]*?)\}};", lambda it: f"{into}::{{" + re.sub(rf"\b({'|'.join(below)})::", rf"{module}::\1::", it[1]) + "};", text)
    return re.sub(rf"\b{crate}::", f"{into}::", text)


def formatted(top, touched):
    """Lays out the changed files of crates by `rt fmt`, and those of tools that were in its layout before."""
    crates = {it.relative_to(top).parts[1] for it in touched if it.relative_to(top).parts[0] == "crates"}
    for crate in sorted(crates):
        ran(top / "crates" / crate, "rt", "fmt")
    with tempfile.TemporaryDirectory() as room:
        room = pathlib.Path(room)
        (room / "crates/scratch/src").mkdir(parents=True)
        (room / "crates.txt").write_text("scratch:\n")
        ran(room, "git", "init", "-q")

        def laid_out(text):
            file = room / "crates/scratch/src/lib.rt"
            file.write_text(text, encoding="utf-8")
            subprocess.run(["rt", "fmt"], cwd=file.parent.parent, capture_output=True)
            return file.read_text(encoding="utf-8")

        for file in touched:
            if file.suffix == ".rattle" and not file.relative_to(top).as_posix().startswith("tools/crates/pagable_derive"):
                name = file.relative_to(top).as_posix()
                shown = subprocess.run(["git", "show", f"HEAD:{BEFORE.get(name, name)}"], cwd=top, capture_output=True, text=True)
                if not shown.returncode and laid_out(shown.stdout) == shown.stdout:
                    changed(file, laid_out)


BEFORE = {}


def pages(top):
    """Rewrites the pages."""
    for file in files(top, "*.md", "docs", "crates", "tools", ends=(".md",)):
        name = file.relative_to(top).as_posix()
        if name == "docs/INDEX.md":
            continue
        if name == "docs/DESIGN.md":
            changed(file, design)
        if name == "docs/TESTS.md":
            changed(file, times)
        old = file.read_text(encoding="utf-8")
        crate = file.parent.name
        new = in_blocks(old, (lambda it: it) if "blob_file/README" in name else other_words)
        if in_blocks(old, lambda it: it) != old:
            fault(f"{name}: its parts aren't told apart")
        if file.parent.parent.name == "crates" and crate in RENAMED.values():
            was = next(it for it, now in RENAMED.items() if now == crate)
            new = re.sub(rf"(?m)\A# {was}$", f"# {crate}", new)
        if new != old:
            file.write_text(new, encoding="utf-8")
    page = top / "crates/blob_file/README.md"
    sentences = {
        "Nothing is written yet for a file of the operating system as `Disk`: that is `blob_host`.":
            "The module `host` (below) makes a `Disk` of a file of the operating system.",
        "`blob_file` stands on it: `BlobFile::open(alloc, opened.disk)`.":
            "A file of blobs is opened over it: `BlobFile::open(alloc, opened.disk)`.",
    }
    for old, new in sentences.items():
        if not changed(page, lambda text: in_blocks(text, lambda it: it.replace(old, new))):
            fault(f"{page}: there is no {old[:60]!r}")
    for name, said in {"docs/DESIGN.md": "only the module `nodes` uses these", "docs/TESTS.md": "each the sum of two",
                       }.items():
        if said not in " ".join((top / name).read_text(encoding="utf-8").split()):
            fault(f"{name}: what is to be said of it was not: {said!r}")
    core = top / "crates/pagable_core/README.md"
    row = "| `Sha256Key`, `WeighHash` |"
    if core.exists():
        changed(core, lambda text: re.sub(rf"(?m)^{re.escape(row)}.*\n", lambda it: it[0] + NODES, text))
        if NODES not in core.read_text(encoding="utf-8"):
            fault(f"{core}: there is no row {row}")
    log = top / "CHANGELOG.md"
    before = "  | `pagable_leaf` | the module `leaf` of `pagable_tables` |\n"
    rest = [it for it in RENAMED if it != "pagable_examples"]
    replaced(log, before, before + "  | `pagable_nodes` | the module `nodes` of `pagable_core` |\n"
             "  | `blob_host` | the module `host` of `blob_file` |\n"
             f"  | {', '.join(f'`{it}`' for it in rest[:4])} | the same behind `example_` |\n"
             f"  | {', '.join(f'`{it}`' for it in rest[4:])} | the same behind `example_` |\n"
             "  | `pagable_examples` | `example_types` |\n")


def design(text):
    """docs/DESIGN.md: the tables of crates."""
    def put(old, new):
        nonlocal text
        if text.count(old) != 1:
            fault(f"docs/DESIGN.md: {old[:60]!r} stands {text.count(old)} times")
        text = text.replace(old, new)

    if "\n| Layer | Crates |\n" in text:
        return by_layers(text)
    core, nodes = re.search(r"(?m)^\| `pagable_core` \|.*\n", text), re.search(r"(?m)^\| `pagable_nodes` \|.*\n", text)
    put(nodes[0], "")
    put(core[0], "| `pagable_core` | blobs, keys, serializer and deserializer of a blob, storages; in `nodes` nodes of one "
        "value type, three or more, encodings, enums, `Records`, values to bytes | `pagable_traits`, `sha256_lanes` |\n")
    put("| blobs and names of roots in a file that only grows, over any `Disk` |",
        "| blobs and names of roots in a file that only grows, over any `Disk`; `host` makes one of a file of `std::fs` |")
    put(re.search(r"(?m)^\| `blob_host` \|.*\n", text)[0], "")
    put("| `pagable_core`, `blob_file`, `blob_host` |", "| `pagable_core`, `blob_file` |")
    table = re.search(r"These stand on them:\n\n\| Crate \| Holds \|\n\|---\|---\|\n((?:\|.*\n)+)", text)
    if not table:
        fault("docs/DESIGN.md: there is no table of what stands on the libraries")
        return text
    rows = [re.match(r"\| (.*?) \| (.*) \|$", it).groups() for it in table[1].splitlines()]
    said = []
    for names, holds in rows:
        first = re.findall(r"`(\w+)`", names)[0]
        if first == "named_texts":
            said += [("library", "`named_texts`", "lines about named texts in a pager, and their answers"),
                     ("program", "`pagectl`", "a program that answers such lines over a pager in memory")]
            continue
        if first == "quick":
            holds = "a program that keeps a text in a pager; one whose threads do so in a storage that they share"
        if first == "pagable_examples":
            holds = "types of one's own, to copy: structs, enums, tags, registries, nodes"
        kind = "example" if first in RENAMED else "program" if first in PROGRAMS else "tests" if first in TESTS else "library"
        said.append((kind, names, holds))
    order = ["library", "program", "example", "tests"]
    said.sort(key=lambda it: order.index(it[0]))
    lines = "".join(f"| {kind} | {names} | {holds} |\n" for kind, names, holds in said)
    return text.replace(table[0], "These stand on them. The names of examples begin with `example_`, and `crates.txt` "
                        "lists each kind below its heading:\n\n| Kind | Crate | Holds |\n|---|---|---|\n" + lines)


def by_layers(text):
    """docs/DESIGN.md with a table of crates by layers: the joined crates go, and programs, examples and tests are told
    apart."""
    said = re.search(r"; `pagable_nodes`: ([^|]*?) \|\n", text)
    link = "[`pagable_core`](../crates/pagable_core)"
    if not said or text.count(link) != 1:
        fault("docs/DESIGN.md: the table of crates doesn't tell what `pagable_nodes` holds")
        return text
    text = text.replace(said[0], " |\n").replace(link, f"{link}, whose module `nodes` has {said[1]}")
    rows = re.search(r"(?m)^\| programs \|.*\n\| what they use; examples \|.*\n", text)
    links = re.findall(r"\[`(\w+)`\]\(\S+?\)", rows[0]) if rows else fault("docs/DESIGN.md: no rows of programs") or []
    kinds = {"what programs use": [], "programs": [], "examples, to copy": [], "tests": []}
    for crate in links:
        kind = 2 if crate in RENAMED else 1 if crate in PROGRAMS else 3 if crate in TESTS else 0
        new = RENAMED.get(crate, crate)
        [*kinds.values()][kind].append(f"[`{new}`](../crates/{new})")
    new = "".join(f"| {kind} | {', '.join(crates)} |\n" for kind, crates in kinds.items())
    return text.replace(rows[0], new) if rows else text


def times(text):
    """docs/TESTS.md: the table of the gate, with the sums of crates that were joined."""
    row = re.compile(r"(?m)^\| `(\w+)` \| ([\d.]+) \| ([\d,]+) \|\n")
    rows = {it[1]: [float(it[2]), int(it[3].replace(",", ""))] for it in row.finditer(text)}
    for crate, (into, _, _) in MERGED.items():
        minutes, peak = rows.pop(crate, (0, 0))
        rows[into] = [rows[into][0] + minutes, max(rows[into][1], peak)]
    lines = [f"| `{name}` | {it[0]:.1f} | {it[1]:,} |\n" for name, it in sorted(rows.items(), key=lambda it: -it[1][0])]
    first = row.search(text)
    bare = row.sub("", text)
    text = bare[: first.start()] + "".join(lines) + bare[first.start() :]
    return text


def tools(top):
    """Rewrites the tools that name crates."""
    for file in files(top, "tools", ends=(".py", ".sh")):
        def change(text):
            new = in_python(text).replace("`blob_host`", "`blob_file::host`")
            new = renamed_words(re.sub(rf'"({WORD})(?=/src/)', lambda it: f'"{RENAMED[it[1]]}', new))
            return narrow(new) if new != text else new

        changed(file, change)
    run = top / "tools/programs/run.py"
    here = re.search(r"(?m)^PROGRAMS = \[(.*)\]$", run.read_text(encoding="utf-8"))
    names = [it for it in re.findall(r'"(\w+)"', here[1]) if it in RENAMED] if here else fault("run.py lists no PROGRAMS") or []
    for name in names:
        replaced(run, f"\ndef {name}(program, work):", f"\ndef {RENAMED[name]}(program, work):")
    changed(run, lambda text: re.sub(r"(?m)^PROGRAMS = .*$", lambda it: re.sub(rf'"({WORD})"', lambda x: f'"{RENAMED[x[1]]}"', it[0]), text))
    keys = lambda it: re.sub(rf'"({WORD})":', lambda x: f'"{RENAMED[x[1]]}":', it[0])  # noqa: E731
    changed(top / DECLARATIONS, lambda text: re.sub(r"(?m)^PRINTED = .*$", keys, text))
    changed(top / "tools/planted.py", lambda text: re.sub(rf"\brun\.({'|'.join(names)})\b", lambda it: f"run.{RENAMED[it[1]]}", text))
    for file in files(top, "tools/wrong_bodies", "tools/threads", ends=(".edits",)):
        changed(file, renamed_words)


def print_anew(top):
    """Prints the printed crates anew, by the program of this text, which is kept in XDG_CACHE_HOME if that is set."""
    with tempfile.TemporaryDirectory() as cache:
        listed = re.search(r"(?m)^PRINTED = \{(.*)\}$", (top / DECLARATIONS).read_text(encoding="utf-8"))
        for new, declaration in re.findall(r'"(\w+)": "([\w.]+)"', listed[1]):
            env = {"XDG_CACHE_HOME": cache, **os.environ}
            ran(top, "tools/derive.py", f"{DATA}/{declaration}", new, f"crates/{new}", env=env)


def move_all(top, prints):
    """All moves of a clone."""
    users = {old: users_of(top, old) | {new for it in users_of(top, old) if (new := RENAMED.get(it))} for old in RENAMED}
    for old, new in RENAMED.items():
        BEFORE[f"tools/crate_tests/{new}.rattle"] = f"tools/crate_tests/{old}.rattle"
    for crate in MERGED:
        move_crate(top, crate)
    move_examples(top)
    crates_txt(top)
    code(top, users)
    tools(top)
    pages(top)
    modules_keep_names(top)
    heads(top)
    ran(top, "git", "add", "-A")
    touched = [top / it for it in ran(top, "git", "diff", "--cached", "--name-only", "--diff-filter=d", "-z").split("\0") if it]
    formatted(top, [it for it in touched if it.suffix in (".rt", ".antt", ".rattle")])
    if prints:
        print_anew(top)
    (top / "docs/INDEX.md").write_text(ran(top, "tools/api_index.py"), encoding="utf-8")
    ran(top, "git", "add", "-A")


def modules_keep_names(top):
    """Gives the modules of an example back their names, in the lists of its page and its root, if one is called as it was."""
    for old, new in RENAMED.items():
        if (top / f"crates/{new}/src/{old}.rt").exists():
            for file in (top / f"crates/{new}/README.md", top / f"crates/{new}/src/lib.rt"):
                if file.exists():
                    changed(file, lambda text: re.sub(rf"(?m)^(\| |//! - )`{new}`( \||:)", rf"\1`{old}`\2", text))


def heads(top):
    """The comments at the heads of the two crates that others joined."""
    replaced(top / "crates/pagable_core/src/lib.rt", "a storage in memory, and one that counts.",
             "a storage in memory, and one that counts;\n//! and the nodes that hold values.")
    replaced(top / "crates/blob_file/src/lib.rt", "in one file that only grows, over any `Disk`.",
             "in one file that only grows, over any `Disk`;\n//! `host` makes a `Disk` of a file of the operating system.")


def unproved(top):
    """The diffs of tools/unproved, each as the difference of what is moved without it and with it."""
    head, tree = ran(top, "git", "rev-parse", "HEAD").strip(), ran(top, "git", "write-tree").strip()
    for diff in sorted((top / "tools/unproved").glob("*.diff")):
        with tempfile.TemporaryDirectory() as room:
            other = pathlib.Path(room) / "clone"
            ran(top, "git", "clone", "-q", top, other)
            ran(other, "git", "checkout", "-q", head)
            if subprocess.run(["git", "apply", str(diff)], cwd=other, capture_output=True).returncode:
                fault(f"{diff.name} doesn't apply to the text before")
                continue
            ran(other, "git", "add", "-A")
            ran(other, "git", "-c", "user.name=rooms", "-c", "user.email=rooms@localhost", "commit", "-qm", "with the diff")
            faults = len(FAULTS)
            move_all(other, False)
            # (what the printed crates are made of is no part of these diffs)
            for printed in re.findall(r'"(example_\w+)": "', (top / DECLARATIONS).read_text(encoding="utf-8")):
                shutil.rmtree(other / "crates" / printed, ignore_errors=True)
                shutil.copytree(top / "crates" / printed, other / "crates" / printed, ignore=shutil.ignore_patterns("out"))
            if "+++ b/docs/INDEX.md" not in diff.read_text(encoding="utf-8"):
                shutil.copy(top / "docs/INDEX.md", other / "docs/INDEX.md")
            ran(other, "git", "add", "-A")
            made = ran(other, "git", "write-tree").strip()
            env = {**os.environ, "GIT_ALTERNATE_OBJECT_DIRECTORIES": str(top / ".git/objects")}
            text = ran(other, "git", "diff", "--no-renames", tree, made, "--", ".", ":(exclude)tools/unproved", env=env)
            if len(FAULTS) == faults:
                diff.write_text(text, encoding="utf-8")
    ran(top, "git", "add", "-A")


def left_over(top):
    """Tells where an old name still stands."""
    old = re.compile(rf"\b(?:pagable_nodes|blob_host|{'|'.join(TELLING)})\b|`(?:{WORD})`|\bcrates/(?:{WORD})\b|\bRattle\.(?:{WORD})\b|--crate (?:{WORD})\b")
    for file in files(top, ".", ends=("",)):
        name = file.relative_to(top).as_posix()
        if file.suffix in (".svg",) or name.startswith("tools/unproved") or name == "docs/INDEX.md":
            continue
        try:
            lines = file.read_text(encoding="utf-8").splitlines()
        except UnicodeDecodeError:
            continue
        for number, line in enumerate(lines, 1):
            is_list = name == "CHANGELOG.md" and re.match(r"  \| .* \|$", line)
            is_call = name == "crates/blob_file/README.md" and "`history`, `list`" in line
            is_module = any(re.match(rf"(?:\| |//! - )`{it}`", line) and (top / f"crates/{RENAMED[it]}/src/{it}.rt").exists() for it in RENAMED)
            if old.search(line) and not is_list and not is_call and not is_module:
                fault(f"{name}:{number}: an old name: {line.strip()[:100]}")
            widest = 160 if file.suffix == ".antt" else 120
            if len(line) > widest and file.suffix in (".py", ".rt", ".rattle") and "example_" in line:
                fault(f"{name}:{number}: {len(line)} columns")


def apply_edits(top):
    """Makes each wrong body in the text, one at a time."""
    sys.path.insert(0, str(top / "tools"))
    sys.dont_write_bytecode = True
    from edits import edits_in
    count = 0
    for file in sorted((top / "tools/wrong_bodies").glob("*.edits")):
        every = edits_in(file)
        for edit in every:
            count += 1
            if why := edit.apply({}, top / "crates" / file.stem):
                fault(f"{file.stem}/{edit.name}: {why}")
        if len({it.name for it in every}) < len(every):
            fault(f"{file.stem}: two wrong bodies have one name")
    print(f"{count} wrong bodies can be made")


def main(words):
    if not words or words[0].startswith("-"):
        sys.exit(__doc__)
    top = pathlib.Path(words[0]).resolve()
    if ran(top, "git", "status", "--porcelain"):
        sys.exit("rooms: the clone isn't clean")
    move_all(top, "--no-print" not in words)
    if "--no-unproved" not in words:
        unproved(top)
    left_over(top)
    apply_edits(top)
    print(ran(top, "tools/check_text.py"), end="")
    print(f"{len(re.findall(r'(?m)^[a-z]', (top / 'crates.txt').read_text()))} crates, {len(FAULTS)} faults")
    sys.exit(1 if FAULTS else 0)


if __name__ == "__main__":
    main(sys.argv[1:])
