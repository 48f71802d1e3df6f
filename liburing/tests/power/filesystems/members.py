"""Whether a tree that was found is one of those that `explore crash` may leave at a moment, with units of one byte; and of which kinds it is."""

import itertools

from crashing import images
from crashing.filesystems import are_whole, names_with
from crashing.images import assemble, flushed, paint, with_length
from crashing.labels import Parts

MOST = 100000


class Moment:
    """All that may be left of a disk at a moment: names are tried by all lists, and each file by itself."""

    def __init__(self, disk):
        self.disk, self.known, self.groups = disk, {}, []
        for group in disk.name_groups():
            names = {effect[:2] for naming in group for effect in naming.effects}
            self.groups.append((names, Parts(group, disk.name_syncs, disk.now).images(MOST)))

    def ways(self, tree):
        """The operations on names that may be left, each list of them with which the tree's names are there."""
        groups = [
            [left for left in images if self.are_there(names, left, tree)]
            for names, images in self.groups
        ]
        for way in itertools.product(*groups):
            if are_whole(self.disk, way):
                yield [it for own in way for it in own]

    def are_there(self, names, left, tree):
        """Whether of some names those are there which the tree has, in the folders that it has."""
        shown = names_with(self.disk, left)
        for folder, name in names:
            above = "" if folder == self.disk.root else self.disk.short(self.disk.files[folder])
            is_there = f"{above}/{name}".lstrip("/") in tree
            if (not above or above in tree) and is_there != (shown((folder, name)) is not None):
                return False
        return True

    def find(self, tree):
        """The image that this tree is; or None, and why it is none, of the names that come nearest."""
        nearest = -1, f"no such names: {', '.join(sorted(tree))}"
        for left in self.ways(tree):
            numbers = self.numbers(left, tree)
            if numbers is None:
                continue
            synced, told = flushed(self.disk, left), {}
            for path, number in numbers.items():
                told[number] = self.file(number, synced.get(number, []), tree[path][1])
                if told[number] is None:
                    why = self.why(number, path, tree[path][1])
                    nearest = max(nearest, (len(told), why), key=lambda it: it[0])
                    break
            else:
                return assemble(self.disk, [left], self.teller(told)), ""
        return None, nearest[1]

    def teller(self, told):
        own = {id(self.disk.files[number]): it for number, it in told.items()}
        return lambda file, syncs: own[id(file)]

    def numbers(self, left, tree):
        """Which file each path is of; None if these names aren't the tree's."""
        names = {folder: dict(inside) for folder, inside in self.disk.names.items()}
        for naming in sorted(left, key=lambda it: it.begin):
            naming.apply(names)
        found, files = {}, {}

        def walk(folder, above):
            for name, number in names.get(folder, {}).items():
                path = f"{above}/{name}" if above else name
                is_folder = self.disk.files[number].kind == "folder"
                found[path] = None if is_folder else number
                if is_folder:
                    walk(number, path)

        walk(self.disk.root, "")
        if {path: it is None for path, it in found.items()} != {
            path: it is None for path, it in tree.items()
        }:
            return None
        files = {path: number for path, number in found.items() if number is not None}
        pairs = {(number, tree[path][0]) for path, number in files.items()}
        is_one = len(pairs) == len({it[0] for it in pairs}) == len({it[1] for it in pairs})
        return files if is_one else None

    def file(self, number, synced, contents):
        key = number, tuple(id(it.operation) for it in synced), contents
        if key not in self.known:
            file = self.disk.files[number]
            self.known[key] = left_as(self.disk, file, [*file.syncs, *synced], contents)
        return self.known[key]

    def why(self, number, path, contents):
        file = self.disk.files[number]
        lengths = sorted({it[0] for it in lengths_of(self.disk, file, file.syncs)})
        runs = [f"{len(list(own))} of {byte}" for byte, own in itertools.groupby(contents[:20000])]
        return f"{path} has {len(contents)} bytes ({', '.join(runs[:12])}); lengths {lengths}"


def lengths_of(disk, file, syncs):
    """Each length that a file may have, with the changes that it shows."""
    for left in images.lengths_of(disk, file, syncs, MOST):
        yield images.length_of(file, left), left


def left_as(disk, file, syncs, contents):
    """How a file may have been left with these bytes: which change shows where, its length, and the changes that this shows; or None."""
    if not file.changes:
        whole = bytes(file.contents[: file.length]).ljust(file.length, b"\0")
        return (contents, ([], file.length, [])) if whole == contents else None
    for length, left in lengths_of(disk, file, syncs):
        if length == len(contents):
            cells = shown_by(file, with_length(disk, file, left), contents)
            if cells is not None and paint(file, left, cells)[0] == contents:
                return contents, (cells, length, left)
    return None


def shown_by(file, volume, contents):
    """Which change each byte shows, in runs; None if one shows none that it may."""
    found = []
    for cell, own in zip(volume.cells, volume.touching()):
        first, last = cell[0], min(cell[1], len(contents))
        if first >= last:
            continue
        own = [it for it in own if not volume.is_hidden(it, cell[1])]
        options = {volume.shown(cell, own, own[:at])[0][2] for at in range(len(own) + 1)}
        runs = runs_of(file, first, last, options, contents)
        if runs is None:
            return None
        found += runs
    return found


def runs_of(file, first, last, options, contents):
    """A cell's bytes in runs, each with a change that it shows, the latest that may be."""
    order = sorted(options, key=lambda it: -1 if it is None else it.begin, reverse=True)
    texts = [(it, text_of(file, it, first, last)) for it in order]
    for it, text in texts:
        if text == contents[first:last]:
            return [(first, last, it)]
    found = []
    for at in range(first, last):
        it = next((it for it, text in texts if text[at - first] == contents[at]), 0)
        if it == 0:
            return None
        if found and found[-1][2] is it:
            found[-1] = found[-1][0], at + 1, it
        else:
            found.append((at, at + 1, it))
    return found


def text_of(file, change, first, last):
    if change is None:
        return bytes(file.contents[first:last]).ljust(last - first, b"\0")
    if change.data is None:
        return bytes(last - first)
    return change.data[first - change.first : last - change.first]
