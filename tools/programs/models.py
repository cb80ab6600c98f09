"""A plain model of the program whose texts last in a folder."""
import hashlib


# ---- remote: each text in a file whose name is its hash, with a reference to the one before

def texts_as_files(texts):
    """The files that keep these texts, each of less than 128 bytes: the bytes of each by its name, in their order."""
    files, before = {}, []
    for text in map(str.encode, texts):
        own = bytes([0, len(text)]) + text + bytes([len(before)])
        content = len(before).to_bytes(8, "little") + own + b"".join(before)
        before = [hashlib.sha256(content).digest()[:16]]
        files[before[0].hex()] = content
    return files
