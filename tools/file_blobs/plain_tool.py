#!/usr/bin/env python3
"""What `blobctl` answers, in plain Python, apart from its code.

    tools/file_blobs/plain_tool.py < LINES         # what `blobctl FILE serve` answers to these lines, over a new file

The output for the lines in crates/blobctl/stdin is crates/blobctl/stdout.
"""
import re
import sys
import unicodedata

from plain_file import blob

LONGEST = 65_536
DEEPEST = 32


class Refused(Exception):
    """A command fails, for this reason."""


def escaped(text):
    """A text with what isn't printable spelled, as Rust's `escape_debug` does it."""
    short = {"\0": r"\0", "\t": r"\t", "\n": r"\n", "\r": r"\r", "\\": r"\\", '"': r"\"", "'": r"\'"}
    odd = ("Cc", "Cf", "Cn", "Co", "Cs", "Zl", "Zp", "Zs")
    spelled = lambda it: rf"\u{{{ord(it):x}}}" if it != " " and unicodedata.category(it) in odd else it
    return "".join(short.get(it) or spelled(it) for it in text)


def is_hex(word):
    """Whether a word is hex digits."""
    return all(it in "0123456789abcdefABCDEF" for it in word)


class PlainTool:
    """A file of blobs with named roots: each blob's bytes and children by its key, and the versions of each name, keys
    and None, the last first."""

    def __init__(self):
        self.blobs, self.versions = {}, {}

    @property
    def names(self):
        """The names that stand for keys."""
        return {name: versions[0] for name, versions in self.versions.items() if versions[0]}

    def set(self, name, key):
        """Lets a name stand for a key, or for none. What it stands for already is no new version."""
        known = self.versions.setdefault(name, [])
        if known[:1] != [key]:
            known.insert(0, key)

    def log(self, name):
        """The lines of a name's versions."""
        if name not in self.versions:
            raise Refused(f"no root is called {escaped(name)}")
        return "".join(f"{escaped(name)}~{at} {key or 'dropped'}\n" for at, key in enumerate(self.versions[name]))

    def find_version(self, word):
        """The key of a version, as `main~2`."""
        name, _, back = word.rpartition("~")
        versions = self.versions.get(name, [])
        if int(back) >= len(versions) or not versions[int(back)]:
            raise Refused(f"no root and no key is called {escaped(word)}")
        return versions[int(back)]

    def find(self, word):
        """The key that a word names."""
        if len(word) == 32 and is_hex(word) and int(word, 16):
            return word.lower()
        if word in self.names:
            return self.names[word]
        if re.fullmatch("[0-9]+", word.rpartition("~")[2]) and "~" in word:
            return self.find_version(word)
        is_beginning = 4 <= len(word) < 32 and is_hex(word)
        found = sorted(key for key in self.blobs if is_beginning and key.startswith(word.lower()))
        if not found:
            raise Refused(f"no root and no key is called {escaped(word)}")
        if len(found) > 1:
            raise Refused(f"{word} is the beginning of {len(found)} keys: {' '.join(found[:16])}")
        return found[0]

    def fetch(self, key):
        """The bytes and the children of a blob."""
        if key not in self.blobs:
            raise Refused(f"no blob stands under {key}")
        return self.blobs[key]

    def line(self, key):
        """The line of a blob."""
        data, children = self.fetch(key)
        return f"{key} {len(data)} bytes, {len(children)} children\n"

    def put(self, data, words):
        """Stores a blob."""
        children = [self.find(word) for word in words]
        key, _, _ = blob(data, children)
        self.blobs.setdefault(key, (data, children))
        return f"{key}\n"

    def root(self, name, word):
        """Lets a name stand for a blob."""
        if not name:
            raise Refused("a root's name may not be empty")
        key = self.find(word)
        self.fetch(key)
        self.set(name, key)
        return "set\n"

    def drop(self, name):
        """Lets a name stand for nothing."""
        if name not in self.names:
            raise Refused(f"no root is called {escaped(name)}")
        self.set(name, None)
        return "dropped\n"

    def roots(self):
        """The names in the order of their bytes, with their keys."""
        return sorted(self.names.items(), key=lambda it: it[0].encode())

    def ls(self):
        """The lines of the roots."""
        count = lambda name: f"{len(self.versions[name])} versions"
        return "".join(f"{escaped(name)} {key} {count(name)}\n" for name, key in self.roots())

    def ls_all(self):
        """The lines of all blobs."""
        return "".join(map(self.line, sorted(self.blobs)))

    def ls_children(self, word):
        """The lines of a blob's children."""
        _, children = self.fetch(self.find(word))
        return "".join(self.line(it) if it in self.blobs else f"{it} missing\n" for it in children)

    def tree(self, word):
        """What a blob reaches, each child below its parent."""
        lines, shown, due = [], set(), [(self.find(word), 0)]
        while due:
            key, level = due.pop()
            before = "  " * min(level, DEEPEST) + (f"({level}) " if level > DEEPEST else "")
            if key in shown:
                lines.append(f"{before}{key} shared, shown above\n")
                continue
            shown.add(key)
            if level and key not in self.blobs:
                lines.append(f"{before}{key} missing\n")
                continue
            lines.append(before + self.line(key))
            due += [(child, level + 1) for child in reversed(self.blobs[key][1])]
        return "".join(lines)

    def reached(self, key):
        """The keys that a key reaches, in some order."""
        found, due = {}, [key]
        while due:
            key = due.pop()
            if key not in found:
                found[key] = self.fetch(key)[1]
                due += found[key]
        return found

    def dot(self, word):
        """What a blob reaches as a graph, in the order of a walk that takes the last child first."""
        lines, found = ["digraph blobs {\n"], self.reached(self.find(word))
        for key, children in found.items():
            lines += [f'  "{key}";\n', *(f'  "{key}" -> "{child}";\n' for child in children)]
        for name, key in self.roots():
            if key in found:
                box = '"root ' + escaped(name).replace("\\", r"\\").replace('"', r"\"") + '"'
                lines += [f"  {box} [shape=box];\n", f'  {box} -> "{key}";\n']
        return "".join([*lines, "}\n"])

    def alone(self, first, second):
        """The keys that the first of two keys reaches and the second doesn't, and the other way round, in order."""
        sets = [self.reached_there(key) for key in (first, second)]
        return sorted(sets[0] - sets[1]), sorted(sets[1] - sets[0])

    def compare(self, words):
        """What `diff --exact` finds between what two words name."""
        keys = []
        for word in words:
            keys.append(self.find(word))
            self.fetch(keys[-1])
        return self.alone(*keys)

    def diff(self, *words):
        """The lines of a difference."""
        line = lambda key: self.line(key) if key in self.blobs else f"{key} missing\n"
        return "".join(f"{sign} {line(key)}" for sign, keys in zip("-+", self.compare(words)) for key in keys)

    def sizes(self, key):
        """What a document in JSON tells of a key."""
        if key not in self.blobs:
            return {"key": key, "missing": True}
        data, children = self.blobs[key]
        return {"key": key, "bytes": len(data), "children": len(children)}

    def document(self, word, *words):
        """The document in JSON with which a command that looks answers, as Python reads it."""
        if word == "diff":
            return dict(zip(("first", "second"), ([self.sizes(it) for it in keys] for keys in self.compare(words))))
        if word == "log":
            self.log(*words)
            versions = self.versions[words[0]]
            return [{"version": f"{words[0]}~{at}", "key": key} for at, key in enumerate(versions)]
        if word == "stat":
            total = sum(len(data) for data, _ in self.blobs.values())
            return {"blobs": len(self.blobs), "bytes": total, "names": len(self.names)}
        if words == ("--all",):
            return [self.sizes(key) for key in sorted(self.blobs)]
        if words:
            return [self.sizes(key) for key in self.fetch(self.find(*words))[1]]
        return [{"name": name, "key": key, "versions": len(self.versions[name])} for name, key in self.roots()]

    def stat(self):
        """The counts."""
        total = sum(len(data) for data, _ in self.blobs.values())
        return f"{len(self.blobs)} blobs, {total} bytes, {len(self.names)} names\n"

    def fsck(self, name=None):
        """The flaws, of all blobs or of those that a root reaches: there are none but missing ones."""
        if name is not None and name not in self.names:
            raise Refused(f"no root is called {escaped(name)}")
        keys = self.blobs if name is None else self.reached_there(self.names[name])
        there = [key for key in keys if key in self.blobs]
        lacks = [(key, it) for key in there for it in self.blobs[key][1] if it not in self.blobs]
        lines = [f"{key} refers to {missing}, which is missing\n" for key, missing in lacks]
        return "".join(lines) + f"{len(there)} blobs, {len(lines)} flaws\n"

    def reached_there(self, key):
        """The keys that a key reaches, also those that are missing."""
        found, due = set(), [key]
        while due:
            key = due.pop()
            if key not in found:
                found.add(key)
                due += self.blobs[key][1] if key in self.blobs else []
        return found

    def collect(self, keep):
        """Drops what none of the last versions of a name reaches: how many blobs are kept."""
        for name in [name for name in self.versions if name not in self.names]:
            del self.versions[name]
        found = {}
        for name, versions in self.versions.items():
            keys = [key for key in versions[:keep] if key]
            keys = [key for at, key in enumerate(keys) if not at or keys[at - 1] != key]
            self.versions[name] = keys
            for key in keys:
                found |= self.reached(key)
        self.blobs = {key: self.blobs[key] for key in found}
        return f"{len(found)} blobs kept\n"

    def copy(self, names=None):
        """How many blobs a copy of what roots reach has."""
        names, found = self.names if names is None else names, {}
        if missing := [name for name in names if name not in self.names]:
            raise Refused(f"no root is called {escaped(missing[0])}")
        for name in names:
            found |= self.reached(self.names[name])
        return f"{len(found)} blobs copied\n"

    def put_hex(self, words):
        """Stores the blob that the words of a line spell."""
        first, *children = words.split(" ")
        if first != "-" and (len(first) % 2 or not is_hex(first)):
            raise Refused("the bytes aren't spelled in hex")
        return self.put(bytes.fromhex(first.replace("-", "")), children)

    def answer(self, line):
        """What a line of `serve` is answered."""
        if len(line.encode()) > LONGEST:
            return f"error: the line is longer than {LONGEST} bytes\n"
        word, _, rest = line.rstrip().partition(" ")
        first, _, second = rest.partition(" ")
        alone = {"stat": self.stat, "ls": self.ls, "fsck": self.fsck, "flush": lambda: "flushed\n"}
        behind = {"tree": self.tree, "dot": self.dot, "fsck": self.fsck, "drop": self.drop, "put": self.put_hex,
                  "log": self.log}
        behind |= {"ls": lambda it: self.ls_all() if it == "--all" else self.ls_children(it)}
        behind |= {"copy": lambda _: self.copy()}
        try:
            if word in alone and " " not in line.rstrip():
                return alone[word]()
            if word in behind and " " in line.rstrip():
                return behind[word](rest)
            if word in ("root", "diff") and " " in rest:
                return (self.root if word == "root" else self.diff)(first, second)
        except Refused as refused:
            return f"error: {refused}\n"
        return "bad line\n"


def main():
    tool = PlainTool()
    for line in sys.stdin:
        sys.stdout.write(tool.answer(line.removesuffix("\n")))


if __name__ == "__main__":
    main()
