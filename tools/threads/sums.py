#!/usr/bin/env python3
"""Prints the sums of keys and claims with which the tests of this folder compare what the locked calls return.

    tools/threads/sums.py

Nothing here is asked of the crates: plain_pager.py's `Blob.key` makes a blob's key, by Python's hashlib, of a value as
its `RowTypes.write` writes it, and a claim is an identity, a kind with a node, that references lead to.
"""
import sys
from pathlib import Path

sys.dont_write_bytecode = True
sys.path.insert(0, str(Path(__file__).resolve().parent.parent))
from plain_pager import Blob, RowTypes, Value

WHOLE = 2**128
KINDS = RowTypes.KINDS[RowTypes.MIXED]
SHARED_TEXT, TEXT, SHARED_LIST, LIST = range(4)


class Draws:
    """The numbers of the tests' own linear congruence."""

    def __init__(self, seed):
        self.state = seed

    def below(self, limit):
        self.state = (self.state * 6364136223846793005 + 1442695040888963407) % 2**64
        return (self.state >> 33) % limit


class Graph:
    """A drawn graph of 50 nodes and six items above them, as `drawn` of drawn.rattle draws it."""

    def __init__(self, seed):
        self.draws, self.sorts, self.below, self.keys = Draws(seed), [], [], []
        for _ in range(50):
            self.grow()
        self.items = [(bytes([number]), self.references(3)) for number in range(6)]

    def references(self, many):
        found = []
        for _ in range(many):
            node = self.draws.below(len(self.sorts))
            kind = (0, 1, 6, 7)[self.sorts[node]]
            found.append((kind + self.draws.below(2) * (kind == 7), node) if kind == 7 else (kind, node))
        return found

    def grow(self):
        sort = self.draws.below(4)
        if sort in (SHARED_TEXT, TEXT):
            value = Value(RowTypes.NAME, str(self.draws.below(40)))
        else:
            byte, many = self.draws.below(4), self.draws.below(5)
            drawn = self.references(many if self.sorts else 0)
            listed = sorted(drawn, key=lambda reference: KINDS.index(reference[0]))
            value = Value(RowTypes.MIXED, bytes([byte]), listed)
        self.sorts.append(sort)
        self.below.append(value.references)
        self.keys.append(self.key(RowTypes.write(value), value.references))

    def key(self, data, references):
        return Blob(data, tuple(self.keys[node] for _, node in references)).key(True)

    def claims(self):
        met, open_ones = set(), [reference for _, references in self.items for reference in references]
        while open_ones:
            reference = open_ones.pop()
            if reference not in met:
                met.add(reference)
                open_ones += self.below[reference[1]]
        return len(met)

    def sums(self):
        return sum(self.key(*item) for item in self.items), self.claims()


def key_of(data, *below):
    return Blob(data, below).key(True)


def text_key(text):
    return key_of(RowTypes.write(Value(RowTypes.NAME, text)))


def list_key(byte, *below):
    """The key of a list, where below are pairs of a kind and a key in the order of the kinds."""
    written = RowTypes.write(Value(RowTypes.MIXED, bytes([byte]), list(below)))
    return key_of(written, *(key for _, key in below))


def failing_keys():
    """The keys of the two items of failing.rattle."""
    text, name = text_key("paged out"), text_key("shared")
    low = list_key(1, (1, text), (0, name))
    high = list_key(2, (6, low), (0, name))
    return key_of(b"\0", low, high), key_of(b"\1", high, name)


def sum_above(key):
    """The sum of the keys of the numbers below 100, each with a reference to this key."""
    return sum(key_of(bytes([number]), key) for number in range(100)) % WHOLE


def main():
    print("texts 0 to 999:", sum(text_key(str(number)) for number in range(1000)) % WHOLE)
    print("100 items above a text:", sum_above(text_key("shared")))
    print("100 items above a list of 1,000 bytes:", sum_above(key_of(b"\xe8\x07" + b"\xab" * 1000)))
    print("the text hello world:", text_key("hello world"))
    print("a reference to the text string:", key_of(b"", text_key("string")))
    print("tagged values of the text test:", *(key_of(tag, text_key("test")) for tag in (b"\3Key", b"\3Bar")))
    print("items over a failing storage:", *failing_keys())
    for quarter in range(4):
        first = 100 * quarter
        keys, claims = map(sum, zip(*(Graph(seed).sums() for seed in range(first, first + 100))))
        print(f"graphs {first} to {first + 99}: keys {keys % WHOLE}, claims {claims}")


if __name__ == "__main__":
    main()
