"""Wrong bodies, as files X.edits spell them.

Below a line 'file: PATH' stand the edits of that file, each a line 'NAME: TEXT'. TEXT stands once in the file, but for
each '⟦OLD ⇒ NEW⟧' in it the file has OLD and gets NEW, either of which may be empty. A line 'and: TEXT' does more of the
same edit, on what the line before it made, and a line 'test: NAME' names a test that finds it.
"""
import re

CHANGE = re.compile(r"⟦(.*?) ⇒ (.*?)⟧")


class Edit:
    """A wrong body: its name, of each line the file, the old text and the new one, and the tests that find it; once it
    was made, what stands in each file up to each edited line."""

    def __init__(self, name):
        self.name, self.pairs, self.tests, self.places = name, [], [], set()

    def apply(self, texts, folder):
        """Makes the edit in texts, a map from files to what stands in them; answers why it can't, or None."""
        made = dict(texts)
        for file, old, new in self.pairs:
            text = made.get(file) or (folder / file).read_text(encoding="utf-8")
            if text.count(old) != 1:
                return f"an old text stands {text.count(old)} times in {file}"
            self.places.add((file, text[: text.find("\n", text.index(old))]))
            made[file] = text.replace(old, new)
        texts.update(made)
        return None


def edits_in(path):
    """The wrong bodies of a file."""
    edits = []
    for line in path.read_text(encoding="utf-8").splitlines():
        word, _, text = line.partition(": ")
        if word == "file":
            file = text
        elif word == "test":
            edits[-1].tests.append(text)
        else:
            if word != "and":
                edits.append(Edit(word))
            edits[-1].pairs.append((file, CHANGE.sub(r"\1", text), CHANGE.sub(r"\2", text)))
    return edits
