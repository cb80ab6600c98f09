#!/usr/bin/env python3
"""Makes texts to which the kit's hasher (`FoldHasher`, with a fixed seed) gives one hash, and forms of maps over them.

    tools/hostile/collide.py COUNT [plain]      # prints a row for `rows`: a map of so many keys, or of plain ones

The hasher goes through a text by pairs of words: it multiplies one word, changed by its state, with the other, changed
by a constant, and the halves of the product make the next state. A key here has 32 bytes: the first two words make a
state that can be spelled, the third is that state, so the next product is 0, and the last is eight digits of its own.
"""
import random
import sys

MASK, SEED, MULTIPLIER = 2**64 - 1, 0x243F6A8885A308D3, 0x9E3779B97F4A7C15
LENGTH = 32
SPELLED = set(range(32, 127))


def folded(one, other):
    """The halves of a product, put together."""
    product = one * other
    return product & MASK ^ product >> 64


def word(data):
    return int.from_bytes(data, "little")


def front():
    """The first three words of all keys that collide, as ASCII."""
    drawn = random.Random(1)
    while True:
        pair = bytes(drawn.choices(range(97, 123), k=16))
        state = folded(word(pair[:8]) ^ SEED + LENGTH, word(pair[8:]) ^ MULTIPLIER)
        third = state.to_bytes(8, "little")
        if set(third) <= SPELLED:
            return pair + third


def keys(count, is_plain=False):
    """So many keys of one hash; or as many plain ones, of the same length."""
    head = front()
    tails = [f"{number:08d}".encode() for number in range(count)]
    return [tail + tail[::-1] + head[:8] + tail if is_plain else head + tail for tail in tails]


def counted(number):
    """A length in the wire format."""
    return bytes([number]) if number < 128 else bytes([number % 128 + 128]) + counted(number // 128)


def form(texts):
    """A map from these texts to 1 in the wire format, each with one byte for its number."""
    return counted(len(texts)) + b"".join(counted(len(text)) + text + b"\x01" for text in texts)


if __name__ == "__main__":
    if sys.argv[2:] not in ([], ["plain"]) or len(sys.argv) < 2:
        sys.exit(__doc__)
    print(f"IndexMap<String,u32> read {form(keys(int(sys.argv[1]), bool(sys.argv[2:]))).hex()}")
