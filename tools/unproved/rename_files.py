#!/usr/bin/env python3
"""Renames proof files: moves each file, rewrites its `mod` line and every import or citation of it in all crates.

Usage: rename_files.py ROOT [--dry]. ROOT is a clone of the repository. A rename whose file is gone is skipped, so the
script may run again on a tree that has changed since."""
import os
import re
import subprocess
import sys
import textwrap

RENAMES = {
    "blob_file": {
        "Flushing": "FlushedContent",
        "Histories": "NameHistory",
        "Looks": "BatchesAreWhole",
        "Placing": "PlacesOfBlobs",
        "Scans": "BatchScan",
        "Settling": "StoredBlobs",
        "Standing": "NamesHaveBlobs",
        "Walks": "BatchWalk",
    },
    "blobctl": {
        "Caching": "CacheEntries",
        "Keeping": "KeptVersions",
        "Naming": "NamedBlob",
        "Showing": "ShownBlobs",
    },
    "history": {"Refused": "ReadingFields"},
    "pagable_budget": {"Evicting": "Evictions"},
    "pagable_calls": {
        "Driven": "EventsAreSteps",
        "Failing": "FailsByOwnError",
        "Keeping": "MachineFitsPager",
        "Running": "RunsMeetHeadline",
    },
    "pagable_changes": {
        "Changing": "CallsAreTurns",
        "Kept": "PageOutKeepsTrees",
        "Passing": "BringsNoValue",
    },
    "pagable_core": {
        "Adding": "AddedBlobs",
        "Names": "RootNames",
        "Taking": "TakenKeys",
        "Weighing": "PreimageHash",
    },
    "pagable_examples": {"Listed": "BundleReferences"},
    "pagable_file": {
        "Copying": "CopiedRoots",
        "Each": "EachItem",
        "Flawed": "ToldFlaws",
        "Naming": "NamedAfterReopening",
        "Planned": "PlannedWalk",
        "Stored": "BlobsInBodies",
    },
    "pagable_load": {
        "Batches": "ForeseenReferences",
        "FromRoot": "LoadsFromRoot",
        "Keyed": "BlobsHaveTheirKeys",
        "Lending": "LentValues",
    },
    "pagable_locked": {"Numbers": "NewHandleNumbers", "Order": "ResultsInOrder"},
    "pagable_nodes": {"Alone": "BytesAlone", "Held": "HeldByFields"},
    "pagable_pageout": {
        "Joint": "AccessWithTable",
        "Nodes": "NodeInOneCall",
        "Pages": "PageOutsAreRuns",
        "Stacks": "WaitingTasks",
        "Strides": "StepsTogether",
        "Waits": "WaitsEnd",
        "Words": "Prelude",
    },
    "pagable_pager": {
        "Invariant": "KeepsInvariant",
        "LeafCalls": "LeafLoadsKeepInvariant",
        "LeafRuns": "LateLeafLoads",
        "LeafWorker": "LeafWorkerIsWhole",
    },
    "pagable_tables": {
        "AlwaysSound": "WholeIsSound",
        "LastHandles": "LoadNotes",
        "OwnedByLoad": "ReleasedByOwner",
        "SameViews": "AlikeCores",
        "Views": "ChangesKeepWhole",
        "Wholeness": "WholeByCore",
        "Words": "Prelude",
    },
    "pagable_theorems": {
        "Callers": "CallersKeepTrees",
        "CascadeWitness": "LeastSets",
        "Chains": "HeadlineOfChains",
        "Effects": "StepEffects",
        "HandlesKept": "PartsOfCalls",
        "Heights": "DepthIsHeight",
        "LoadProgress": "LoadsFitTrees",
        "Moments": "OperationsAreChains",
        "NewClaims": "WorkersAfterEvents",
        "Operations": "OperationsKeepTrees",
        "TablesKept": "TablesFitTrees",
        "TreeProgress": "StepsFitTrees",
        "Trees": "RelatedMeanings",
        "Words": "Prelude",
    },
    "pagable_traits": {
        "Hashed": "HashMaps",
        "JsonSteps": "WriteAndReadSteps",
        "Lent": "LentValues",
        "Listed": "ListedReferences",
        "Registered": "Registries",
        "Words": "Prelude",
    },
    "record_store": {"Handling": "CallsInTurn"},
    "uses": {"Working": "PinnedTwice"},
}

SEGMENT = re.compile(r"[^\s.,{};]+")
USE = re.compile(r"^(?:ghost |unfoldable |pub |proof )*use ", re.M)
LIMIT = 160


def renamed(path, renames):
    """The new name of the last segment of an import's path, if it names a renamed proof file."""
    if len(path) == 4 and path[0] == "Rattle" and path[2] == "proofs":
        return renames.get(path[1], {}).get(path[3])
    return None


def read_tree(text, at, path, out, renames):
    """Reads one import tree and appends its text, with new names, to out. Returns the place behind it."""
    while True:
        while text[at].isspace():
            out.append(text[at])
            at += 1
        if text[at] == "{":
            return read_group(text, at, path, out, renames)
        segment = SEGMENT.match(text, at)
        if segment is None:
            raise ValueError(f"no path segment at {text[at - 40:at + 20]!r}")
        path = path + [segment.group()]
        out.append(renamed(path, renames) or segment.group())
        at = segment.end()
        if at < len(text) and text[at] == ".":
            out.append(".")
            at += 1
        else:
            return read_alias(text, at, out)


def read_alias(text, at, out):
    alias = re.compile(r" as [^\s,{};]+").match(text, at)
    if alias is None:
        return at
    out.append(alias.group())
    return alias.end()


def read_group(text, at, path, out, renames):
    out.append("{")
    at += 1
    while True:
        while text[at].isspace() or text[at] == ",":
            out.append(text[at])
            at += 1
        if text[at] == "}":
            out.append("}")
            return at + 1
        at = read_tree(text, at, path, out, renames)


def rewrite_imports(text, renames):
    out = []
    at = 0
    for match in USE.finditer(text):
        if match.start() < at:
            continue
        out.append(text[at:match.end()])
        piece = []
        at = read_tree(text, match.end(), [], piece, renames)
        out.append("".join(piece))
    out.append(text[at:])
    return "".join(out)


def is_item(line):
    return line.endswith(",") and line.count("{") == line.count("}") and line.startswith("  ") and line[2] != " "


def sort_groups(old, new):
    """Sorts the lines of each group of imports that was sorted before its names changed."""
    before, after = old.split("\n"), new.split("\n")
    at = 0
    while at < len(after):
        if after[at].endswith("{") and USE.match(after[at]):
            end = at + 1
            while end < len(after) and is_item(after[end]):
                end += 1
            if after[end] == "}" and before[at + 1:end] == sorted(before[at + 1:end]) and before[at:end] != after[at:end]:
                after[at + 1:end] = sorted(after[at + 1:end])
            at = end
        at += 1
    return "\n".join(after)


def split_long(old, new):
    """Splits lines of imports that have become longer than LIMIT into two with the same module."""
    before = set(old.split("\n"))
    out = []
    for line in new.split("\n"):
        item = re.match(r"^((?:  |(?:pub |unfoldable )*use )\S+)\.\{([^{}]*)\}(,?)$", line)
        if len(line) > LIMIT and line not in before and item and (line.startswith("  ") or USE.match(line)):
            names = item.group(2).split(", ")
            first = names
            rest = []
            while len(first) > 1 and len(f"{item.group(1)}.{{{', '.join(first)}}}{item.group(3)}") > LIMIT:
                rest.insert(0, first[-1])
                first = first[:-1]
            out.append(f"{item.group(1)}.{{{', '.join(first)}}}{item.group(3)}")
            out.append(f"{item.group(1)}.{{{', '.join(rest)}}}{item.group(3)}")
        elif len(line) > LIMIT and line not in before and USE.match(line) and line.endswith("}"):
            out += expanded(line)
        else:
            out.append(line)
    return "\n".join(out)


def expanded(line):
    """One import of a group of modules, with a line for each module."""
    head, group = line[:-1].split(".{", 1)
    items = [""]
    depth = 0
    for sign in group:
        depth += (sign == "{") - (sign == "}")
        if sign == "," and depth == 0:
            items.append("")
        else:
            items[-1] += sign
    return [head + ".{", *(f"  {item.strip()}," for item in items), "}"]


def rewrite_citations(text, crate, renames):
    """Rewrites `CRATE::proofs::Old` of tactics, and paths `CRATE/proofs/Old` of pages."""
    def cited(match):
        owner = crate if match.group(1) == "crate" else match.group(1)
        return f"{match.group(1)}::proofs::{renames.get(owner, {}).get(match.group(2), match.group(2))}"

    def filed(match):
        return f"{match.group(1)}/proofs/{renames.get(match.group(1), {}).get(match.group(2), match.group(2))}"

    text = re.sub(r"\b(\w+)::proofs::(\w+)", cited, text)
    return re.sub(r"\b(\w+)/proofs/(\w+)(?=\.antt|`)", filed, text)


def rewrite_contributing(text, renames):
    """Rewrites the names of files in the contributors' page: the table of `pagable_theorems`, and two places by the crate."""
    laws = renames.get("pagable_theorems", {})
    head, start, rest = text.partition("### The proofs of the laws\n")
    table, end, tail = rest.partition("\n## ")
    table = "\n".join(
        re.sub(r"`(\w+)`", lambda match: f"`{laws.get(match.group(1), match.group(1))}`", line) if line.startswith("| ") else line
        for line in table.split("\n"))
    text = head + start + table + end + tail
    if "Words" in laws:
        text = text.replace("`Words.antt` in a crate's `proofs`", f"`{laws['Words']}.antt` in a crate's `proofs`")
    if "Trees" in laws:
        text = text.replace("`Naturality` and `Trees` of `pagable_theorems`", f"`Naturality` and `{laws['Trees']}` of `pagable_theorems`")
        row = "| operations without a machine; callers; held values | `OperationsAreChains`, `OperationsKeepTrees`, "
        text = text.replace(
            row, row.replace("; callers; held values", "").rstrip(", ") + " |\n| callers; held values | ")
    return "\n\n".join(
        "\n".join(textwrap.wrap(part, 120, break_long_words=False, break_on_hyphens=False))
        if "of `pagable_theorems`; in `pagable_traits` a lemma" in part else part
        for part in text.split("\n\n"))


def move(root, crate, old, new):
    source = os.path.join(root, "crates", crate, "proofs", old + ".antt")
    target = os.path.join(root, "crates", crate, "proofs", new + ".antt")
    if not os.path.exists(source):
        print(f"skipped: {crate} has no {old}")
        return False
    if os.path.exists(target):
        raise SystemExit(f"{target} exists already")
    subprocess.run(["git", "-C", root, "mv", source, target], check=True)
    library = os.path.join(root, "crates", crate, "proofs", "Lib.antt")
    with open(library, encoding="utf-8") as file:
        text = file.read()
    changed = re.sub(rf"^((?:pub )?mod ){old}$", rf"\g<1>{new}", text, flags=re.M)
    if changed == text:
        raise SystemExit(f"{library} has no line for {old}")
    with open(library, "w", encoding="utf-8") as file:
        file.write(changed)
    return True


def files(root):
    listed = subprocess.run(["git", "-C", root, "ls-files"], capture_output=True, text=True, check=True).stdout
    return [path for path in listed.split("\n") if path.endswith((".antt", ".rt", ".rattle", ".md", ".py", ".diff"))]


def rewrite(root, path, renames):
    full = os.path.join(root, path)
    if not os.path.exists(full):
        return
    with open(full, encoding="utf-8", newline="") as file:
        old = file.read()
    crate = next((part for before, part in zip(path.split("/"), path.split("/")[1:]) if before == "crates"), "")
    new = rewrite_citations(old, crate, renames)
    if path == "CONTRIBUTING.md":
        new = rewrite_contributing(new, renames)
    if path.endswith(".antt"):
        new = split_long(old, sort_groups(old, rewrite_imports(new, renames)))
    if new != old:
        with open(full, "w", encoding="utf-8", newline="") as file:
            file.write(new)


def main():
    root = sys.argv[1]
    done = {}
    for crate, names in RENAMES.items():
        done[crate] = {old: new for old, new in names.items() if move(root, crate, old, new)}
    for path in files(root):
        rewrite(root, path, done)
    print(f"renamed {sum(len(names) for names in done.values())} files")


main()
