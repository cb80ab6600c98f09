#!/usr/bin/env python3
"""Reads, shows and writes values of carried types by their rules: short and slow, written from the rules of the wire
format and not from the crates. fuzz.py and rows/run.py compare with them. Types are named as in rows.

    plain_values.py FILE..      prints the files, each row of values that are read with the answers that it has to have
"""

import json
import re
import sys
from typing import NamedTuple

sys.dont_write_bytecode = True
from plain_pager import DEEPEST, TOO_DEEP, Bytes, Refused, need, varint

BAD_CHAR = 5
JSON_CASE, JSON_NUMBER, BAD_DURATION, REGEX_REFUSED, UNKNOWN_TAG, BAD_STATIC_INDEX, UNREGISTERED = range(8, 15)


class Read(NamedTuple):
    """A value that was read: what is written of it, how it is shown, and by what it is ordered and told apart."""

    written: bytes
    shown: str
    order: object = None


class Source(Bytes):
    """Bytes, and the levels that are left."""

    levels = DEEPEST

    def inside(self, read):
        """What is read one level below."""
        need(self.levels > 0, TOO_DEEP)
        self.levels -= 1
        value = read(self)
        self.levels += 1
        return value


def split(text):
    """The parts between the outer commas."""
    parts, level, start = [], 0, 0
    for place, sign in enumerate(text):
        level += (sign in "<([") - (sign in ">)]")
        if sign == "," and level == 0:
            parts.append(text[start:place])
            start = place + 1
    return parts + [text[start:]]


def text(string):
    """A text. A quote, a stroke and what isn't printed are shown by their numbers."""
    data = string.encode()
    shown = re.sub(r'["\\\0-\x1f\x7f-\x9f]', lambda sign: f"\\u{ord(sign[0]):04x}", string)
    return Read(varint(len(data)) + data, f'"{shown}"', data)


def number(name):
    """How a number of this type is read."""
    bits, is_signed = 64 if name == "usize" else int(name[1:]), name[0] == "i"

    def read(b):
        if bits == 8:
            data = b.take(1)
            value = int.from_bytes(data, "little", signed=is_signed)
            return Read(data, str(value), value)
        raw = b.varint(bits)
        value = -(raw + 1) // 2 if is_signed and raw % 2 else raw // 2 if is_signed else raw
        return Read(varint(raw), str(value), value)

    return read


def flag(b):
    value = b.bool()
    return Read(bytes([value]), str(value).lower(), value)


def joined(values, signs, front=b""):
    """Values one after the other."""
    shown = ", ".join(value.shown for value in values)
    return Read(front + b"".join(value.written for value in values), signs[0] + shown + signs[1],
                tuple(value.order for value in values))


def counted(name):
    """A list: how it is read."""
    item = reader(name)

    def read(b):
        items = [item(b) for _ in range(b.length())]
        return joined(items, "[]", varint(len(items)))

    return read


def sequence(names, signs):
    """An array, or a tuple."""
    parts = [reader(name) for name in names]
    return lambda b: joined([part(b) for part in parts], signs)


def case(front, word, value):
    return Read(front + value.written, f"{word} {value.shown}", (value.order,))


def optional(name, word="some", nothing="none"):
    item = reader(name)
    return lambda b: case(b"\1", word, item(b)) if b.bool() else Read(b"\0", nothing, ())


def result(names):
    first, second = map(reader, split(names))
    return lambda b: case(b"\1", "ok", first(b)) if b.bool() else case(b"\0", "err", second(b))


def character(b):
    string = b.text()
    need(len(string) == 1, BAD_CHAR)
    return text(string)


def duration(b):
    seconds, nanoseconds = b.varint(64), b.varint(32)
    seconds += nanoseconds // 10**9
    need(seconds < 2**64, BAD_DURATION)
    nanoseconds %= 10**9
    return Read(varint(seconds) + varint(nanoseconds), f"{seconds} s {nanoseconds} ns")


def regex(b):
    """A pattern. Python's own `re` says whether it is one; five digits of repeats are too many for the crate's."""
    pattern = b.text()
    need(not re.search(r"\{\d{5}", pattern), REGEX_REFUSED)
    try:
        re.compile(pattern)
    except re.error:
        raise Refused(REGEX_REFUSED) from None
    return text(pattern)


def mapped(names, is_sorted, is_shown_sorted=False):
    """A map: of a key that comes twice the later value stands, at the key's first place."""
    first, second = map(reader, split(names))

    def read(b):
        pairs = {}
        for _ in range(b.length()):
            key = first(b)
            pairs[key.order] = (pairs.get(key.order, (key,))[0], second(b))
        orders = sorted(pairs) if is_sorted else list(pairs)
        written = b"".join(part.written for order in orders for part in pairs[order])
        shown = [": ".join(part.shown for part in pairs[order]) for order in orders]
        shown = sorted(shown) if is_shown_sorted else shown
        return Read(varint(len(pairs)) + written, "{" + ", ".join(shown) + "}")

    return read


def unique(name, is_sorted):
    """A set: an item that comes twice stands once, at its first place."""
    item = reader(name)

    def read(b):
        items = {}
        for _ in range(b.length()):
            value = item(b)
            items.setdefault(value.order, value)
        orders = sorted(items) if is_sorted else list(items)
        return joined([items[order] for order in orders], "{}", varint(len(items)))

    return read


def thin(names):
    header, items = reader(split(names)[0]), counted(split(names)[1])

    def read(b):
        first, second = header(b), items(b)
        return Read(first.written + second.written, f"{first.shown} {second.shown}")

    return read


def uncounted(b):
    """A list that is written as a lent slice, without its count."""
    value = counted("i32")(b)
    return value._replace(written=value.written[len(varint(len(value.order))):])


def json_value(b):
    found = b.varint(64)
    need(found <= 5, JSON_CASE)
    if found == 2:
        need(not b.bool(), JSON_NUMBER)
        value = number("i64")(b)
        value = value._replace(written=b"\0" + value.written)
    elif found == 3:
        string = b.text()
        value = text(string)._replace(shown=json.dumps(string, ensure_ascii=False))
    elif found > 3:
        count = b.length()
        value = b.inside(lambda b: (json_members if found == 5 else json_items)(b, count))
    else:
        value = flag(b) if found else Read(b"", "null")
    return value._replace(written=varint(found) + value.written)


def json_items(b, count):
    items = [json_value(b) for _ in range(count)]
    shown = ",".join(item.shown for item in items)
    return Read(varint(count) + b"".join(item.written for item in items), f"[{shown}]")


def json_members(b, count):
    """The members of an object, in the order of their keys' bytes."""
    members = {}
    for _ in range(count):
        key = b.text()
        members[key.encode()] = (json.dumps(key, ensure_ascii=False), json_value(b))
    written = b"".join(varint(len(key)) + key + members[key][1].written for key in sorted(members))
    shown = ",".join(f"{members[key][0]}:{members[key][1].shown}" for key in sorted(members))
    return Read(varint(len(members)) + written, f"{{{shown}}}")


# ---- the types of the examples

def dish(b):
    name, grams = text(b.text()), number("u16")(b)
    return Read(name.written + grams.written, f"{name.shown} {grams.shown}")


def expression(b):
    return b.inside(variant)


def variant(b):
    """A number, or two expressions, each a level further down."""
    if b.bool():
        value = number("u64")(b)
        return value._replace(written=b"\1" + value.written)
    left, right = expression(b), expression(b)
    return Read(b"\0" + left.written + right.written, f"({left.shown} + {right.shown})")


ANIMALS = {"Cat": ("Cat", "cat", "()"), "OldCat": ("Cat", "old cat", "u8"), "Dog": ("Dog", "dog", "u8")}


def animal(registered):
    """A tag, and the body that the tag's last registration reads. A cat of old can't be written."""
    readers = {ANIMALS[name][0]: name for name in registered.split(",") if name}

    def read(b):
        tag = text(b.text())
        need(tag.order.decode() in readers, UNKNOWN_TAG)
        name = readers[tag.order.decode()]
        body = reader(ANIMALS[name][2])(b)
        shown = f"{ANIMALS[name][1]} {body.shown}" if body.written else ANIMALS[name][1]
        return Read(Refused(UNREGISTERED) if name == "OldCat" else tag.written + body.written, shown)

    return read


WORDS = {"": ["alpha", "beta", "delta", "gamma"], "twice": ["a", "b", "b"]}


def static_text(names):
    """An index in a sorted registry; the text is shown, and the least index of an equal one."""
    words = WORDS[names]

    def read(b):
        index = b.varint(32)
        need(index < len(words), BAD_STATIC_INDEX)
        return Read(varint(index), f"{words[index]} {words.index(words[index])}")

    return read


def static_bytes(b):
    index = b.varint(32)
    need(index < 3, BAD_STATIC_INDEX)
    return Read(varint(index), ("", "hello", "world")[index])


def new_animal(data):
    """What is written of a new dog of this age, or of a cat."""
    return text("Dog").written + data if data else text("Cat").written


def new_static(data):
    """What is written of a static value that a program made, of an index and a text."""
    words = WORDS["twice"]
    need(words[data[0]:data[0] + 1] == [data[1:].decode()], UNREGISTERED)
    return data[:1]


NEW = {"NewAnimal": new_animal, "NewStatic:twice": new_static}


def new_value(name, data):
    """What comes of writing a value that wasn't read."""
    try:
        return f"ok {len(data)} {NEW[name](data).hex()}"
    except Refused as refusal:
        return f"ok {len(data)} {refusal.text()}"


def string(b):
    return text(b.text())


SIMPLE = {
    "bool": flag, "char": character, "String": string, "Box<str>": string, "PathBuf": string, "Regex": regex,
    "Duration": duration, "()": lambda b: Read(b"", "()", ()), "PhantomData": lambda b: Read(b"", "()", ()),
    "Json": json_value, "AtomicI64": number("i64"), "Ticket": number("u16"), "Boxed<u16>": number("u16"),
    "Dish": dish, "Expression": expression, "StaticBytes": static_bytes, "&[i32]": uncounted,
}


def reader(name):
    """How a value of this type is read from bytes."""
    if name in SIMPLE:
        return SIMPLE[name]
    if re.fullmatch(r"[ui]\d+|usize", name):
        return number(name)
    if name in ("[i32]", "bytes", "Size"):
        return {"[i32]": counted("i32"), "bytes": counted("u8"), "Size": optional("u8", "large", "small")}[name]
    if found := re.fullmatch(r"\[(\w+);(\d+)\]", name):
        return sequence([found[1]] * int(found[2]), "[]")
    if found := re.fullmatch(r"\((.*)\)", name):
        return sequence(split(found[1]), "()")
    if found := re.fullmatch(r"(Animal|StaticStr)(?::(.*))?", name):
        return (animal if found[1] == "Animal" else static_text)(found[2] or "")
    if found := re.fullmatch(r"Box<\[(.*)\]>", name):
        return counted(found[1])
    word, _, inner = name.partition("<")
    inner = inner.removesuffix(">")
    of = {
        "Vec": counted, "Option": optional, "OnceLock": optional, "Box": reader, "Result": result, "Thin": thin,
        "BTreeMap": lambda names: mapped(names, True),
        "IndexMap": lambda names: mapped(names, False),
        "HashMap": lambda names: mapped(names, True, is_shown_sorted=True),
        "BTreeSet": lambda name: unique(name, True),
        "IndexSet": lambda name: unique(name, False),
        "SmallVec": lambda names: counted(names[1:].partition(";")[0]),
    }
    return of[word](inner)


# Types that fuzz.py draws.
TYPES = (
    "u8 u16 u32 u64 u128 usize i8 i16 i32 i64 i128 bool char String Box<str> PathBuf Duration () Json Option<u8>"
    " Option<Option<i32>> Box<u16> Result<String,String> (bool,String) (u8,u16,i32) (u8,String,Vec<u64>,Option<i8>)"
    " (u128,i128,char,bool,()) Vec<u8> Vec<i32> Vec<u64> Vec<String> [u16;2] [String;3] SmallVec<[String;4]>"
    " BTreeMap<u8,u8> IndexMap<String,u8> IndexMap<String,u32> OnceLock<u16>"
).split()


def answer(name, data):
    """What comes of an input, as rows tell it."""
    if name in NEW:
        return new_value(name, data)
    source = Source(data)
    try:
        value = reader(name)(source)
    except Refused as refusal:
        return refusal.text()
    taken = data[:source.place]
    if isinstance(value.written, Refused):
        written = f" {value.written.text()}"
    else:
        written = "" if value.written == taken else f" {value.written.hex() or '-'}"
    return f"ok {len(taken)}{written} = {value.shown}"


def bytes_of(spelled):
    """The bytes of an input as rows spell it."""
    if spelled == "-":
        return b""
    parts = (part.partition("*") for part in spelled.split("+"))
    return b"".join(bytes.fromhex(once) * int(times or 1) for once, _, times in parts)


def answered(line):
    """A row, with the answers of its own rules if it reads values. Worked rows begin with their number."""
    number_of_row, asked = re.fullmatch(r"(\d+: )?(.*?)(?: ->.*)?", line).groups("")
    name, verb, *inputs = f"{asked} ".split(" ")[:-1] + [""] * (asked.count(" ") < 1)
    if line.startswith("#") or verb != "read" or name.endswith(";") or name[0].isdigit():
        return line
    return f"{number_of_row}{asked} -> " + "; ".join(answer(name, bytes_of(spelled)) for spelled in inputs)


def main(files):
    for file in files:
        with open(file, encoding="utf-8") as lines:
            print("\n".join(answered(line) for line in lines.read().splitlines()))


if __name__ == "__main__":
    main(sys.argv[1:])
