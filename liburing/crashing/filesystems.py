"""What file systems leave of names, of lengths and of files that are cut: rules for each, which docs/CRASHES.md has with their sources. The proved volumes choose by them."""

from typing import NamedTuple

from crashing.events import CREATE, IS_OF_DATA, LENGTH, SPACE
from crashing.order import first_end, is_open


class Rules(NamedTuple):
    is_ordered: bool = False  # names are lost from the end, in one order for the whole disk
    syncs_names: bool = False  # a sync of a file makes its own names safe
    parts_renames: bool = False  # a rename is left in parts
    flushes_renamed: bool = False  # a rename over a file waits for the new file's length
    block: int = 512  # a write's length may be left up to each multiple of so many bytes in it
    cut_block: int = 4096  # in a block of so many bytes a truncation writes its zeros in place


RULES = {
    "any": Rules(parts_renames=True),
    "ext4": Rules(is_ordered=True, syncs_names=True, flushes_renamed=True, block=4096),
    "xfs": Rules(is_ordered=True, syncs_names=True, block=4096),
    "btrfs": Rules(syncs_names=True, parts_renames=True, block=4096),
}
RULES["ordered"] = RULES["ext4"]


def rules_of(word):
    """By a name, which may have the size of a block after it: ext4:1024."""
    name, _, block = word.partition(":")
    if not block:
        return RULES[name]
    return RULES[name]._replace(block=int(block), cut_block=max(4096, int(block)))


def in_turn(namings, is_new, has_one):
    """The parts of a rename: what it replaces goes, the new name comes, and the old one ends.

    The old name doesn't end without the new one, but of a file whose creation isn't settled: then another file may have its old name, and it none. If it `has_one` name of the two, which is so within a folder, it doesn't have both.
    """
    *gone, new, old = namings
    new.part, old.part, new.sources = "new", "old", old.folders
    for it in gone:
        it.part, it.end, it.sources, new.begin = (
            "gone",
            it.begin + 0.125,
            old.folders,
            it.begin + 0.25,
        )
    if has_one:
        old.new = new
    if not is_new:
        new.end, old.begin, old.needs = new.begin + 0.125, new.begin + 0.25, [new]


def with_needed(disk, groups, left):
    """What is left of operations on names, by groups: each part of a rename with the one that it needs, and what came before that."""
    found = {it for own in left for it in own}
    while True:
        wanted = lacking(disk, found)
        if not wanted:
            return [[it for it in group if it in found] for group in groups]
        for part in wanted:
            group = next(it for it in groups if part in it)
            found |= {
                it for it in group if it is part or (it.end is not None and it.end < part.begin)
            }


def lacking(disk, found):
    """The parts of renames that are wanted beside those that are found: a name of a file whose old one has ended, or that was synced with one; and the end of an old one of a file that would have both."""
    needed = [it.needs for it in found if it.needs]
    for sync in disk.name_syncs:
        if isinstance(sync.covers, Held) and sync.is_done and not is_open(sync, disk.now):
            needed += sync.covers.names.values()
    wanted = [own[0] for own in needed if not any(it in found or it.is_folded for it in own)]
    lost = [it for it in disk.namings if it.new and it not in found]
    shown = names_with(disk, found) if lost else None
    return wanted + [it for it in lost if has_both(it, found, shown)]


def names_with(disk, found):
    """Which file a name has, with these operations left."""
    last = {}
    for naming in sorted(found, key=lambda it: it.begin):
        last.update((effect[:2], effect[2]) for effect in naming.effects)
    return lambda it: last[it] if it in last else disk.names.get(it[0], {}).get(it[1])


def has_both(old, found, shown):
    """Whether a renamed file still has its old name, the end of which is lost, beside the new one. It doesn't once another file has taken either."""
    new = old.new
    ((folder, name, file),) = new.effects
    is_there = new in found or new.is_folded
    return is_there and shown((folder, name)) == file == shown(old.effects[0][:2])


def are_whole(disk, left):
    """Whether no part of a rename is wanted besides."""
    return not lacking(disk, {it for own in left for it in own})


def names_lost(image, whole):
    """The operations on names that are lost, as losses; of a rename in parts all of it, or some."""
    lost, found = {it for it in whole.left if it not in image.left}, set()
    for it in lost:
        is_whole = all(one in lost for one in whole.left if one.operation is it.operation)
        found.add((it.operation.number,) if is_whole else (it.operation.number, it.part))
    return sorted(found)


def names_told(image, whole):
    """The operations on names of which it is told that they are lost: of a rename in parts one."""
    lost = [it for it in whole.left if it not in image.left]
    news = {it.operation for it in lost if it.part == "new"}
    return [it for it in lost if it.part in ("", "new") or it.operation not in news]


def changed_at(disk, number, sync):
    """Where the last change began, of those that had ended before a sync of a file or a folder, that the sync commits to the journal; -1: there is none. It may be of the file's length, or of names: of an fdatasync its creation alone."""
    own = [it for it in disk.namings if number in it.folders or names_whole(it, number, sync)]
    own += lengthening(disk.files[number])
    return max((it.begin for it in own if it.end is not None and it.end < sync.begin), default=-1)


def names_whole(naming, number, sync):
    """Whether a sync of a file waits for an operation on its names."""
    is_of_data = sync.flags & IS_OF_DATA
    return number in naming.files and (not is_of_data or naming.operation.kind == CREATE)


def lengthening(file):
    """The changes that made a file longer or shorter."""
    length = file.length
    for change in file.changes:
        before, length = length, change.lengthen(length)
        if length != before:
            yield change


def covered_names(disk, number, sync, at):
    """Which operations on names a sync of a file or a folder makes safe, as a call; None: none. In a journal those that had ended before the last change began which it commits."""
    if disk.files[number].kind == "folder":
        return lambda naming: number in naming.folders and naming.is_over(sync.begin)
    if disk.is_ordered:
        return lambda it: names_whole(it, number, sync) or (it.end is not None and it.end < at)
    return None


class Held:
    """Operations on names that a sync makes safe while their files have the names, as a call. `names` has of each file these names and those that it was given since: it has one of them until it is removed."""

    def __init__(self, disk, own):
        self.disk, self.own, self.names = disk, own, {}
        for naming in own:
            for _, _, file in naming.effects:
                if file is not None:
                    self.names.setdefault(file, []).append(naming)

    def __call__(self, naming):
        return naming in self.own and has_names(self.disk, naming)


def has_names(disk, naming):
    """Whether a file has the names still that an operation gave it."""
    now = [disk.current(folder, name) for folder, name, _ in naming.effects]
    return all(it in naming.files for it in now)


def held_names(disk, number, sync):
    """What a sync makes safe of names while files have them: of a file its own, where the rules say so; of a folder those of files that were renamed from it to another. None if that is nothing, or if a sync has done it."""
    if disk.files[number].kind == "folder":
        own = [it for it in disk.namings if number in it.sources - it.folders]
    else:
        syncs = disk.rules.syncs_names and not disk.is_ordered
        own = [it for it in disk.namings if syncs and names_whole(it, number, sync)]
    own = {it for it in own if it.is_over(sync.begin) and has_names(disk, it)}
    ended = [it for it in disk.name_syncs if it.is_done and not is_open(it, sync.begin)]
    before = [it.covers for it in ended if isinstance(it.covers, Held)]
    is_new = own and not any(own <= it.own and it.names for it in before)
    return Held(disk, own) if is_new else None


class Lengths(frozenset):
    """Changes of a file's length that a commit of the journal makes safe; called, whether one is among them."""

    __call__ = frozenset.__contains__


def committed(file, at, sync):
    """The changes of a file's length that had been given to the journal by then, if no sync before has made them safe: those of a truncation and of fallocate are as they end, those of a write once its blocks are."""
    own = [it for it in lengthening(file) if it.operation.kind in (LENGTH, SPACE)]
    found = Lengths(it for it in own if it.end is not None and it.end < at)
    before = [it.covers for it in file.syncs if it.end is not None and it.end < sync.begin]
    return None if any(isinstance(it, Lengths) and found <= it for it in before) else found


def hidden_from(rules, cut):
    """From which place on nothing is left of a truncation whose length isn't, nor of what was written once it had ended: in the block in which it cuts, bytes are written in their place."""
    return -(-cut.length // rules.cut_block) * rules.cut_block


class Part:
    """The length of a write up to a boundary: no bytes of it, which go by themselves."""

    __slots__ = ("operation", "begin", "end", "first", "last", "data", "length", "is_exact")

    def __init__(self, change, length):
        self.operation, self.begin, self.end = change.operation, change.begin, change.end
        self.first, self.last, self.data, self.length = change.first, change.first, None, length
        self.is_exact = False

    def lengthen(self, length):
        return max(length, self.length)


def boundaries(disk, file, left, length):
    """Of each write whose length isn't left, and may come next: up to which lengths it may be left in part. `length` is what the others make."""
    there = set(left)
    lost = [it for it in file.changes if it not in there]
    first, block = first_end(lost), disk.rules.block
    for it in lost:
        if it.begin <= first and it.length is not None and not it.is_exact:
            low = max(length, it.first)
            own = range(low // block * block + block, it.length, block)
            more = [at for at in ends_of_spaces(file) if length < at < it.length]
            if own or more:
                yield it, sorted({*own, *more}) if more else own


def ends_of_spaces(file):
    """Where what fallocate was called for ends: ext4 gives the length up to there to its journal, if the file was longer by then."""
    own = [it.operation for it in file.changes if it.operation.kind == SPACE]
    return [it.offset + it.length for it in own]


def parts(disk, file, left, length):
    """Each part of a length that may be left, with these changes."""
    return [Part(it, at) for it, own in boundaries(disk, file, left, length) for at in own]


def part_of(disk, file, left, length, chosen):
    """The part of a length that a crash leaves, with these changes; or none: as it is lost, or by chance."""
    ways = list(boundaries(disk, file, left, length))
    if chosen.kind == "seed" and ways and chosen.dice.random() < 0.5:
        change, own = chosen.dice.choice(ways)
        return [Part(change, chosen.dice.choice(own))]
    named = dict(read_part(it) for it in chosen.losses if is_part(it))
    return [
        Part(it, named[it.operation.number])
        for it, own in ways
        if named.get(it.operation.number) in own
    ]


def part_lost(change, shorter):
    """The loss of a write's length that is left in part, or not at all."""
    found = [
        it.length for it in shorter if isinstance(it, Part) and it.operation is change.operation
    ]
    return f"length={found[0]}" if found else "length"


def is_part(loss):
    return len(loss) == 2 and loss[1].startswith("length=")


def read_part(loss):
    return loss[0], int(loss[1].partition("=")[2])
