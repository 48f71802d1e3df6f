"""The edits that the prover must refuse, as the crates have them.

`edits/at-once.txt` and `edits/by-hand.txt` of a crate have an edit after another, each a line `edit:` with its name, a line `file:`, and pairs of lines `old:` and `new:`; a blank line stands between two, and a line that begins with # is a comment. An edit that `rt ci` itself tries is a file of `must-fail/` with the same lines but the first.
"""

import glob
import os

TOP = os.path.dirname(os.path.dirname(os.path.abspath(__file__)))
ALONE, AT_ONCE, BY_HAND = "must-fail", "edits/at-once.txt", "edits/by-hand.txt"
WAYS = (ALONE, AT_ONCE, BY_HAND)


class Text:
    """An edit as it stands: its crate, its name, how it is tried, and its pairs of texts, each with the file that it is of."""

    def __init__(self, crate, name, way):
        self.crate, self.name, self.way, self.pairs = crate, name, way, []

    def label(self):
        return f"crates/{self.crate}/{self.way}: {self.name}"

    def lines(self):
        """Its lines, as a file of `must-fail/` has them."""
        last = None
        for file, old, new in self.pairs:
            if file != last:
                yield f"file: {file}"
            yield from (f"old: {old}", f"new: {new}")
            last = file


def read(path, crate, way, name=None):
    """The edits of a file. One of `must-fail/` has the name that is given."""
    found, file, old = [Text(crate, name, way)] if name else [], "", ""
    with open(path, encoding="utf-8") as lines:
        for line in lines.read().split("\n"):
            word, _, rest = line.partition(": ")
            if word == "edit":
                found.append(Text(crate, rest.strip(), way))
            elif word == "file":
                file = rest.strip()
            elif word == "old":
                old = rest
            elif word.rstrip(":") == "new":
                found[-1].pairs.append((file, old, rest))
    return found


def edits_of(crate, ways=WAYS):
    """The edits of a crate that are tried in these ways, by name in each."""
    folder = f"{TOP}/crates/{crate}"
    found = []
    for way in ways:
        if way == ALONE:
            for path in sorted(glob.glob(f"{folder}/{ALONE}/*.edit")):
                found += read(path, crate, way, os.path.basename(path).removesuffix(".edit"))
        elif os.path.isfile(f"{folder}/{way}"):
            found += sorted(read(f"{folder}/{way}", crate, way), key=lambda it: it.name)
    return found


def crates_with(ways=WAYS):
    """The crates that have edits of these ways."""
    return sorted(
        {
            os.path.relpath(it, f"{TOP}/crates").split("/")[0]
            for way in ways
            for it in glob.glob(f"{TOP}/crates/*/{way}")
        }
    )
