"""What a crash leaves of a disk: a tree of folders, files and links. The proved volumes choose; here it is put together and told."""

import itertools

from crashing.changes import Sync
from crashing.filesystems import (
    are_whole,
    hidden_from,
    names_lost,
    names_told,
    part_lost,
    part_of,
    parts,
    with_needed,
)
from crashing.labels import Bytes, Chosen, Parts, hides, merged
from crashing.order import is_open


class Image:
    """The tree, by paths below the disk: each a folder (None), a file (its bytes and mode), or a link (its target); and what is read for words."""

    def __init__(self):
        self.tree, self.links, self.shown, self.left = {}, {}, {}, []

    def key(self):
        return hash(
            (
                tuple(
                    sorted((path, it if it is None else it[:2]) for path, it in self.tree.items())
                ),
                tuple(sorted(self.links.items())),
            )
        )

    def bare(self):
        """What has to be there, without what is read for words."""
        bare = Image()
        bare.tree, bare.links = self.tree, self.links
        return bare


def image_of(disk, chosen):
    groups = disk.name_groups()
    left = [Parts(group, disk.name_syncs, disk.now).crash(chosen) for group in groups]
    return assemble(
        disk,
        with_needed(disk, groups, left),
        lambda file, syncs: crash_file(disk, file, syncs, chosen),
    )


def assemble(disk, groups, contents_of):
    """The image with these operations on names left, and each file's contents by a call."""
    image, made = Image(), {}
    names = {folder: dict(inside) for folder, inside in disk.names.items()}
    image.left = sorted((naming for left in groups for naming in left), key=lambda it: it.begin)
    for naming in image.left:
        naming.apply(names)
    synced = flushed(disk, image.left)

    def put(number, path, above=()):
        file = disk.files[number]
        if file.kind == "folder":
            if path:
                image.tree[path] = None
            for name, inside in sorted(names.get(number, {}).items()):
                # (with `apart` a folder may have two names, one of them in itself: that one isn't there)
                if inside != number and inside not in above:
                    put(inside, f"{path}/{name}" if path else name, (*above, number))
        elif file.kind == "link":
            image.tree[path] = ("link", bytes(file.contents))
        elif number in made:
            image.links[path] = made[number]
            image.tree[path] = image.tree[made[number]]
        else:
            contents, image.shown[number] = contents_of(
                file, [*file.syncs, *synced.get(number, [])]
            )
            image.tree[path], made[number] = ("file", contents, file.mode), path

    put(disk.root, "")
    return image


def flushed(disk, left):
    """A rename that replaces a file isn't left without the length of the one that takes its place, where the rules say so: as if that had been synced before it (ext4's auto_da_alloc). Its bytes may be lacking: they are written once the length is there."""
    found = {}
    for naming in left if disk.rules.flushes_renamed else []:
        if naming.replaced is not None:
            for number in naming.files:
                found.setdefault(number, []).append(
                    Sync(naming.operation, naming.begin, naming.begin + 0.5, True)
                )
    return found


def crash_file(disk, file, syncs, chosen):
    if not file.changes:
        return bytes(file.contents[: file.length]).ljust(file.length, b"\0"), ([], file.length, [])
    left = Parts(file.changes, syncs, disk.now).crash(chosen)
    left += part_of(disk, file, left, length_of(file, left), chosen)
    cells = with_length(disk, file, left, tears_of(file, disk.unit, chosen)).crash(chosen)
    return paint(file, left, cells)


def with_length(disk, file, left, tears=()):
    """A file's bytes, once it is known which changes its length shows.

    A truncation changes bytes and length as one (our own rule; `apart`: not), but for the block in which its place lies: if its length isn't left, neither are its zeros, nor what was written after it once it had ended. What is there for certain is said to the volume as a sync of its range.
    """
    kept, lost = list(file.syncs), [] if disk.is_apart else [
        (it, hidden_from(disk.rules, it)) for it in file.changes if it.is_exact and it not in left
    ]
    for change in [] if disk.is_apart else left:
        if change.is_exact and change.last > change.first and not is_open(change, disk.now):
            kept.append(
                Sync(
                    change.operation,
                    change.end + 0.25,
                    change.end + 0.5,
                    True,
                    (change.first, change.last),
                )
            )
    changes = [
        it
        for it in file.changes
        if not any(hides(cut, it, it.first - it.first % disk.unit + disk.unit) for cut in lost)
    ]
    return Bytes(changes, kept, disk.now, disk.unit, tears, lost)


def tears_of(file, unit, chosen):
    """Where writes are cut, by chance."""
    dice, found = chosen.dice, []
    for change in file.changes if chosen.torn else []:
        found += [place for part in chosen.torn.get(change.operation.number, []) for place in part]
    for change in file.changes[-20:] if chosen.is_torn else []:
        units = (change.last - change.first) // unit
        if units > 1 and dice.random() < 0.7:
            found += [
                change.first + dice.randrange(1, units) * unit for _ in range(dice.randrange(1, 4))
            ]
    return found


def length_of(file, left):
    """What these changes make of a file's length, in the order of their ends."""
    length = file.length
    for change in sorted(
        left, key=lambda it: (it.end if it.end is not None else float("inf"), it.begin)
    ):
        length = change.lengthen(length)
    return length


def paint(file, left, cells):
    length, contents = length_of(file, left), bytearray(file.contents)
    for first, last, change in cells:
        if change is not None:
            if len(contents) < last:
                contents.extend(bytes(last - len(contents)))
            contents[first:last] = (
                change.data[first - change.first : last - change.first]
                if change.data is not None
                else bytes(last - first)
            )
    return bytes(contents[:length]).ljust(length, b"\0"), (cells, length, left)


def unsettled(disk):
    """The numbers of the operations that needn't be left, in their order."""
    found = set()
    for file in disk.files:
        if file.changes:
            safe = Parts(file.changes, file.syncs, disk.now).safe()
            safe &= Bytes(file.changes, file.syncs, disk.now, disk.unit).safe() | {
                it for it in safe if it.last == it.first
            }
            found |= {it.operation.number for it in file.changes if it not in safe}
    for group in disk.name_groups():
        safe = Parts(group, disk.name_syncs, disk.now).safe()
        found |= {it.operation.number for it in group if it not in safe}
    return sorted(found)


def all_images(disk, most):
    """All images there are; None if these are more than so many."""
    groups = [Parts(group, disk.name_syncs, disk.now).images(most) for group in disk.name_groups()]
    if None in groups:
        return None
    kept = {}
    for left in itertools.product(*groups):
        if not are_whole(disk, left):
            continue
        synced = flushed(disk, [naming for it in left for naming in it])
        kinds = {}
        for number, file in enumerate(disk.files):
            if file.changes:
                kinds[number] = ways_of(disk, file, [*file.syncs, *synced.get(number, [])], most)
                if kinds[number] is None:
                    return None
        numbers = sorted(kinds)
        for ways in itertools.product(*(kinds[number] for number in numbers)):
            chosen = dict(zip((id(disk.files[number]) for number in numbers), ways))
            image = assemble(
                disk,
                left,
                lambda file, syncs: chosen[id(file)]
                if id(file) in chosen
                else crash_file(disk, file, syncs, Chosen("least")),
            )
            kept.setdefault(image.key(), image)
            if len(kept) > most:
                return None
    return list(kept.values())


def ways_of(disk, file, syncs, most):
    """Each way in which a file may be left."""
    kept = {}
    for left in lengths_of(disk, file, syncs, most) or [None]:
        cells = left is not None and every_cell(
            disk, most, lambda tears: with_length(disk, file, left, tears)
        )
        if not cells:
            return None
        for shown in cells:
            contents, told = paint(file, left, shown)
            kept.setdefault(contents, (contents, told))
        if len(kept) > most:
            return None
    return list(kept.values())


def lengths_of(disk, file, syncs, most):
    """Each list of changes that a file's length may show, the last of them in part; none if these are too many."""
    found = []
    for left in Parts(file.changes, syncs, disk.now).images(most) or []:
        found.append(left)
        found += [[*left, it] for it in parts(disk, file, left, length_of(file, left))]
        if len(found) > most:
            return []
    return found


def every_cell(disk, most, bytes_of):
    """All that may be left of a file's bytes, which are given by where they are cut; None if that is more than so many. A run of units that the same changes touch is cut into these, if it may be left in several ways: each doubles the images at least."""
    runs, units = bytes_of(()).images(most), []
    for ways in zip(*runs or []):
        first, last, _ = ways[0]
        if len(set(ways)) > 1 and last - first > disk.unit:
            units += range(first, last, disk.unit)
    if runs is None or len(units) >= most.bit_length():
        return None
    return bytes_of(units).images(most)


def losses(disk, image, whole):
    """What an image lacks of the one in which nothing is lost, in words."""
    found = []
    for naming in names_told(image, whole):
        found.append(
            f"{told_naming(disk, naming)} is lost: {why_lost(disk, naming, disk.name_syncs, 'its folder')}"
        )
    for number in sorted(whole.shown):
        if number not in image.shown:
            continue
        file, (cells, length, _), (shown, shorter, _) = (
            disk.files[number],
            whole.shown[number],
            image.shown[number],
        )
        name, lost = disk.short(file), lost_ranges(cells, shown)
        for change, ranges in lost.items():
            zeros = ", and read as zeros" if are_zeros(ranges, shown, file.length, shorter) else ""
            found.append(
                f"{told_ranges(ranges)} of {name} are lost{zeros}: {why_lost(disk, change, file.all_syncs, name)}"
            )
        if length != shorter and not are_lost(lost, shorter, length):
            found.append(f"the length of {name} is {shorter} and not {length}")
    return found


def are_zeros(ranges, shown, first, last):
    """Whether nothing shows in these ranges, which lie behind the bytes that are settled and before a file's end."""
    is_grown = all(first <= low and high <= last for low, high in ranges)
    return is_grown and not any(
        change and one < high and low < other
        for one, other, change in shown
        for low, high in ranges
    )


def are_lost(lost, first, last):
    """Whether what is lost of changes says already that a file is shorter."""
    return any(
        one <= first < last <= other
        for one, other in merged([it for ranges in lost.values() for it in ranges])
    )


def pieces(image, whole):
    """The losses that make an image of the one in which nothing is lost."""
    found = names_lost(image, whole)
    for number in sorted(whole.shown):
        if number in image.shown:
            (cells, _, left), (shown, _, shorter) = whole.shown[number], image.shown[number]
            found += [
                (change.operation.number, first, last)
                for change, ranges in lost_ranges(cells, shown).items()
                for first, last in ranges
            ]
            found += [
                (change.operation.number, part_lost(change, shorter))
                for change in left
                if change not in shorter
            ]
    return found


def lost_ranges(cells, shown):
    """Of each change that shows in the one and not in the other: where. Both are in the order of their places."""
    found, at = {}, 0
    for first, last, change in cells:
        while at < len(shown) and shown[at][1] <= first:
            at += 1
        for one, other, now in itertools.takewhile(
            lambda it: it[0] < last, itertools.islice(shown, at, None)
        ):
            if change is not None and now is not change:
                put_range(found.setdefault(change, []), max(first, one), min(last, other))
    return found


def put_range(ranges, low, high):
    if ranges and ranges[-1][1] == low:
        low = ranges.pop()[0]
    ranges.append((low, high))


def told_ranges(ranges):
    return "bytes " + ", ".join(f"{first} to {last - 1}" for first, last in ranges)


def told_naming(disk, naming):
    operation = naming.operation
    if naming.part == "old":
        return f"the end of the old name {relative(disk, operation.path)}"
    words = {
        7: "the name {0}",
        8: "the folder {0}",
        9: "the link {0}",
        10: "the name {0}",
        11: "the rename of {0} to {1}",
        12: "the removal of {0}",
    }[operation.kind]
    return words.format(relative(disk, operation.path), relative(disk, operation.second_path))


def relative(disk, path):
    return path[len(disk.folder) + 1 :] if path.startswith(disk.folder + "/") else path


def why_lost(disk, change, syncs, name):
    operation = change.operation
    what = f"write {operation.nth}" if operation.nth else "it"
    if change.end is None or change.end >= disk.now:
        return f"{what} hadn't ended"
    own = [it for it in syncs if it.covers is None or it.covers(change)]
    since = [it for it in own if it.begin > change.end and it.begin < disk.now]
    across = [
        it
        for it in own
        if it.begin < change.end
        and not is_open(it, disk.now)
        and it.end > change.end
        and it.is_done
    ]
    if any(not it.is_done and not is_open(it, disk.now) for it in own if it.begin > change.end):
        return f"an fsync of {name} that reached {what} failed"
    if any(not is_open(it, disk.now) for it in since):
        return f"{what} doesn't lie whole in what the fsync of {name} is of"
    if across:
        return f"the fsync of {name} was issued before {what} ended"
    if since:
        return f"the fsync of {name} that was issued since hadn't ended"
    return f"no fsync of {name} was issued since {what} ended"
