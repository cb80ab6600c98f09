"""What docs/FORMAT.md says of a file of blobs, in plain Python: it makes and reads files apart from the program."""
import hashlib
import struct

HEADER = b"pagable blobs 2\n"
SHUT, NAME, GIB4 = b"\0", 2**32 - 1, 2**32
WORD = 2**64 - 1


def turned_left(word, count):
    """A word of 64 bits, turned by so many bits."""
    return (word << count | word >> 64 - count) & WORD


def round_of(v):
    """One round of SipHash."""
    v[0] = v[0] + v[1] & WORD
    v[2] = v[2] + v[3] & WORD
    v[1], v[3] = turned_left(v[1], 13) ^ v[0], turned_left(v[3], 16) ^ v[2]
    v[0] = turned_left(v[0], 32)
    v[2], v[0] = v[2] + v[1] & WORD, v[0] + v[3] & WORD
    v[1], v[3] = turned_left(v[1], 17) ^ v[2], turned_left(v[3], 21) ^ v[0]
    v[2] = turned_left(v[2], 32)


def sip(text):
    """SipHash-1-3 of a text under the key 0."""
    v = [0x736F6D6570736575, 0x646F72616E646F6D, 0x6C7967656E657261, 0x7465646279746573]
    whole = len(text) // 8 * 8
    words = [word for (word,) in struct.iter_unpack("<Q", text[:whole])]
    last = int.from_bytes(text[whole:], "little") | len(text) % 256 << 56
    for word in [*words, last]:
        v[3] ^= word
        round_of(v)
        v[0] ^= word
    v[2] ^= 0xFF
    for _ in range(3):
        round_of(v)
    return v[0] ^ v[1] ^ v[2] ^ v[3]


def sum_of(rows):
    """The sum of a batch's rows."""
    return max(1, sip(bytes(8) + rows))


def key_of(body, children):
    """The key of a blob with this body, which begins with so many child keys."""
    keys, data = body[: 16 * children], body[16 * children :]
    return hashlib.sha256(children.to_bytes(8, "little") + data + keys).digest()[:16].hex()


def blob(data, keys=()):
    """A blob's key, how many children it has, and its body."""
    body = b"".join(map(bytes.fromhex, keys)) + data
    return key_of(body, len(keys)), len(keys), body


def row_of_blob(key, children, body):
    """The row of a blob."""
    return bytes.fromhex(key) + struct.pack("<II", children, len(body) - 16 * children)


def row_of_name(name, key):
    """The row of a name, which stands for a key, or for none."""
    return (bytes.fromhex(key) if key else bytes(16)) + struct.pack("<II", NAME, len(name)) + name


def batch(blobs, names=()):
    """A batch of these blobs, each with its key, its number of children and its body, and of names with their keys."""
    rows = b"".join(row_of_blob(*it) for it in blobs) + b"".join(row_of_name(*it) for it in names)
    bodies = b"".join(body for _, _, body in blobs)
    return b"\1" + struct.pack("<QQQ", len(bodies), len(rows), sum_of(rows)) + bodies + rows


def file_of(*batches):
    """A file of these batches."""
    return HEADER + b"".join(batches) + SHUT


class Refused(Exception):
    """A file isn't opened."""


class PlainFile:
    """What a file stands for: blobs by their keys, each with its number of children and its body, and names with their
    keys, and with how many versions these are of each. `batches` tells where each batch begins and how many bytes its
    bodies and its rows have, `end` where the last one ends."""

    def __init__(self, content):
        self.content, self.blobs, self.names, self.batches, self.end = content, {}, {}, [], 0
        self.versions = {}
        if len(content) <= 17 and all(byte in (0, own) for byte, own in zip(content, HEADER + SHUT)):
            return
        if content[:16] != HEADER:
            raise Refused("the file is none of blobs")
        self.end = 16
        while self.content[self.end : self.end + 1] == b"\1" and self.take():
            pass

    def take(self):
        """Reads the batch at the end: whether it is whole."""
        at, head = self.end, self.content[self.end + 1 : self.end + 25]
        if len(head) < 24:
            return False
        bodies, rows, wanted = struct.unpack("<QQQ", head)
        if at + 25 + bodies + rows > len(self.content):
            return False
        self.end += 25 + bodies + rows
        text = self.content[self.end - rows : self.end]
        if sum_of(text) != wanted or self.read(text, at + 25) != at + 25 + bodies:
            raise Refused("the file is damaged")
        self.batches.append((at, bodies, rows))
        return True

    def read(self, rows, place):
        """Reads rows, of which the first body stands at a place: where the last one ends."""
        while rows:
            if len(rows) < 24:
                raise Refused("the file is damaged")
            key, (children, many) = rows[:16].hex(), struct.unpack("<II", rows[16:24])
            size = 24 + many if children == NAME else 24
            if size > len(rows):
                raise Refused("the file is damaged")
            if children == NAME:
                self.name(rows[24:size], key)
            else:
                self.blobs[key] = (children, self.content[place : place + 16 * children + many])
                place += 16 * children + many
            rows = rows[size:]
        return place

    def name(self, name, key):
        """Lets a name stand for a key, or for none."""
        try:
            text = name.decode()
        except UnicodeDecodeError:
            raise Refused("the file is damaged") from None
        known = self.names.pop(text, bytes(16).hex())
        self.versions[text] = self.versions.get(text, 0) + (known != key or text not in self.versions)
        if key != bytes(16).hex():
            self.names[text] = key

    def children(self, key):
        """The child keys of a blob."""
        children, body = self.blobs[key]
        return [body[at : at + 16].hex() for at in range(0, 16 * children, 16)]

    def listed(self):
        """The lines of `ls --all`, in order."""
        return sorted(f"{key} {len(body) - 16 * children} bytes, {children} children"
                      for key, (children, body) in self.blobs.items())

    def roots(self):
        """The lines of `ls`, in order."""
        return sorted(f"{name} {key} {self.versions[name]} versions" for name, key in self.names.items())

    def reached(self, key):
        """The keys that a key reaches."""
        found, due = set(), [key]
        while due:
            if (key := due.pop()) not in found:
                found.add(key)
                due += self.children(key)
        return found
