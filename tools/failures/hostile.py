"""Hostile input: cut bytes, blobs that are no value's, giant lengths, with each request above a MiB refused."""

import functools
import re

from naming import Unlike
from rows import DATA, Rows, is_of_values
from sweeps import MOST, in_turn

MIB = 1 << 20
# What a reading comes to: how much was taken, and what is written again if it is other bytes; or the number of a
# refusal.
READ = re.compile(r"free (ok \d+( -| [0-9a-f]+| refused \d+)?( = .*)?|refused ([1-9]|1[0-5]|22|26))$", re.S)
TABLE = [
    ("String", "8300616263", 'ok 5 03616263 = "abc"'),
    ("u64", "ff*9+02", "refused 2"),
    ("u128", "ff*18+03", f"ok 19 = {2**128 - 1}"),
    ("u128", "ff*18+04", "refused 2"),
    ("Vec<u8>", "ffffffff0f", "refused 1"),
    ("Vec<()>", "8080808010", "refused 6"),
    ("Vec<()>", "03", "ok 1 = [(), (), ()]"),
]
# Blobs, the type as which they are read, and what the load ends in.
BLOBS = [
    ("01", 3, "refused 2 15"),
    ("01:5", 3, "read 3 = 10:1:1"),
    ("00ff", 3, "read 2 = "),
    ("01:1415", 4, "refused 130 7"),
    ("01:1415", 3, "read 3 = 10:1:1"),
]


def bytes_of(spelled):
    """The bytes of an input as rows spell it."""
    if spelled == "-":
        return b""
    parts = (part.partition("*") for part in spelled.split("+"))
    return b"".join(bytes.fromhex(once) * int(times or 1) for once, _, times in parts)


def inputs():
    """Each input of the rows of values, with its type."""
    for name in ("worked.txt", "by_hand.txt", "original.txt"):
        for line in (DATA / name).read_text(encoding="utf-8").splitlines():
            line = (line.partition(": ")[2] if name == "worked.txt" else line).partition(" ->")[0]
            words = line.split(" ")
            # (a lent slice is written alone, of a list that isn't read nothing is written, and what is new is made)
            is_read = not words[0].endswith("[i32]") and not words[0].startswith("New")
            if len(words) > 2 and words[1] == "read" and is_of_values(line) and is_read:
                yield from ((words[0], bytes_of(word)) for word in words[2:])


def table(server, tally):
    for name, spelled, wanted in TABLE:
        answer = server.ask(f"small {name} {spelled}")
        if answer != f"free {wanted}":
            tally.fault(f"{name} of {spelled}", f"`{answer}` in the place of `{wanted}`")
        # What is refused is so too while every request is refused.
        answer = server.ask(f"value -1 {name} {spelled}")
        if wanted.startswith("refused") and not answer.startswith(f"free {wanted} | {wanted} "):
            tally.fault(f"{name} of {spelled} without memory", f"`{answer}` in the place of `{wanted}`")
        tally.places["hostile", "rows"] += 1
    for blob, node_type, end in BLOBS:
        if (found := read_blob(server, tally, blob, node_type, end.split()[1])) != end:
            tally.fault(f"blob {blob} as {node_type}", f"`{found}` in the place of `{end}`")
        tally.places["hostile", "blobs"] += 1


def counted(tally, answer):
    """Counts what is refused of a reading, or of the writing behind it."""
    if found := re.match(r"free (ok \d+ )?refused (\d+)", answer):
        tally.refusals["value-write" if found[1] else "value-read", int(found[2])] += 1


def written(server, tally):
    """The rows of JSON values that are written, and one that is too deep."""
    counted(tally, "free ok 0 " + server.ask("deep"))
    for line in (DATA / "by_hand.txt").read_text(encoding="utf-8").splitlines():
        if line.startswith("Json write "):
            written = line.removeprefix("Json write ").partition(" ->")[0]
            counted(tally, "free ok 0 " + server.ask(f"write Json {written}"))


def is_long(name, data):
    """Whether a list of items without bytes has so many that what is shown of it takes more than a MiB."""
    return name == "Vec<()>" and sum((byte & 127) << 7 * place for place, byte in enumerate(data)) >= MIB // 4


def cuts(server, tally):
    """Each front of each input, and each input with one byte changed, is read twice from its front, to the same."""
    written(server, tally)
    for name, data in inputs():
        counted(tally, server.ask(f"small {name} {data.hex() or '-'}"))
        fronts = {data[:end] for end in range(len(data))}
        places = [(at, byte) for at in range(min(len(data), 40)) for byte in (0x00, 0x7F, 0x80, 0xFF)]
        changed = {data[:at] + bytes([byte]) + data[at + 1:] for at, byte in places}
        for front in (it for it in fronts | changed if not is_long(name, it)):
            answer = server.ask(f"small {name} {front.hex() or '-'}")
            if not READ.match(answer):
                tally.fault(f"`{name}` of {front.hex()}", f"`{answer}`")
            tally.places["hostile", "cuts"] += 1


def cut_blobs(server, tally, rows):
    """Each front of the bytes and of the keys of each blob of the rows, read as each type: to what the plain pager
    reads."""
    stored = {step.event.partition(" ")[2] for row in rows for step in row.steps if step.name == "store"}
    for blob in sorted(stored):
        data, _, keys = blob.partition(":")
        data, keys = data.strip("-"), [key for key in keys.split(",") if key]
        fronts = {(data[:end], len(keys)) for end in range(0, len(data) + 1, 2)}
        for front, many in sorted(fronts | {(data, many) for many in range(len(keys))}):
            for node_type in range(9):
                read_blob(server, tally, (front or "-") + ":" * (many > 0) + ",".join(keys[:many]), node_type)
                tally.places["hostile", "cut blobs"] += 1


def read_blob(server, tally, blob, node_type, steps=140):
    """Reads a blob as a type, by so many steps, to what the plain pager reads: the last answer."""
    plain = Rows()
    key = plain.call(f"store {blob}").split()[1]
    wanted = "; ".join(plain.answers(f"read {key} {node_type}") + plain.answers(f"step 1 {steps}"))
    server.ask("machine")
    answer = server.ask(f"ask {MIB} store {blob}; read {key} {node_type}; step 1 {steps}")
    if answer != f"free ok {key}; {wanted}":
        tally.fault(f"blob {blob} as {node_type}", f"`{answer}` in the place of `{wanted}`")
    if "read" not in wanted.partition("; ")[2] and server.ask("look 400") != "pending 0":
        tally.fault(f"blob {blob} as {node_type}", "a handle is left of its load")
    return answer.rpartition("; ")[2]


def each_request(server, tally, values):
    """The rows of values: each request of a reading and of a writing is refused in turn, and the same again has the
    row's answer."""
    for number, lines in values.items():
        for asked, wanted in lines:
            name, verb, *spelled = asked.split(" ")
            if verb == "weigh" and server.ask(f"weigh {spelled[0]}") != f"free {wanted}":
                tally.fault(f"row {number}", "its key takes memory")
            tally.places[f"row {number}", "requests"] += 0
            if verb != "read":
                continue
            for one, answer in zip(spelled, wanted.split("; "), strict=True):
                is_met = functools.partial(is_tried, server, tally, name, one, answer)
                in_turn(tally, f"row {number}", f"{name} {one}", "requests", range(1, MOST), is_met)


def is_tried(server, tally, name, spelled, wanted, place):
    """Whether a request was refused at this place, of the reading or of the writing."""
    answer = server.ask(f"value {place} {name} {spelled}")
    if answer.count(" | ") != 3:
        raise Unlike(f"`{answer}` in the place of `{wanted}`")
    read, again, wrote, wrote_again = answer.split(" | ")
    end = " ".join(wanted.split(" ")[:2])
    for told, same, call in ((read, end, "value-read"), (wrote, "", "value-write")):
        if told.startswith("met "):
            if told != "met refused 22":
                raise Unlike(f"`{answer}`, the request being refused")
            tally.refusals[call, 22] += 1
        elif call == "value-read" and told != "free " + same:
            raise Unlike(f"`{answer}` in the place of `{wanted}`")
    if again != end or not wrote_again.startswith(("ok", "refused") if end.startswith("refused") else "ok"):
        raise Unlike(f"`{answer}` in the place of `{wanted}`")
    if end.startswith("refused"):
        tally.refusals["value-read", int(end.split(" ")[1])] += 1
    return read.startswith("met") or wrote.startswith("met")
