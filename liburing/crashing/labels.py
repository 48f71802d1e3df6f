"""How the log's operations are put into proved volumes, and what is read from these.

A volume's bytes are labels here: each change writes its own label where it writes, so that the label which a crash leaves says
which change shows there. Parts of a file that the same changes touch are one unit, and what nobody touches is left out; the order
of places stays. So a crash costs as much as there are changes, however long the file is.
"""

import array
import bisect
import functools
import itertools

from crashing.order import at_once, first_end, telling
from crashing.volumes import Volume

WHOLE = 1 << 40  # a unit that is larger than any volume here


class Chosen:
    """What is left: every change that may be (`most`), none that needn't (`least`), all but some (`lose`), or by chance (`seed`): then writes are left whole or torn.

    A loss is (number,) of an operation, (number, first, last) of some of its bytes, or (number, "length"): the file isn't made longer or shorter by it.
    """

    def __init__(self, kind, losses=(), dice=None):
        self.kind, self.losses, self.dice = kind, tuple(losses), dice
        self.lost = {it[0] for it in self.losses if len(it) == 1}
        self.short = self.lost | {
            it[0] for it in self.losses if len(it) == 2 and it[1].startswith("length")
        }
        self.torn = {}
        for number, first, last in (it for it in self.losses if len(it) == 3):
            self.torn.setdefault(number, []).append((first, last))
        self.is_torn = dice is not None and dice.random() < 0.5
        self.chance = dice.choice([0.1, 0.3, 0.5, 0.7, 0.9]) if dice is not None else None

    def named(self, changes):
        """The changes of one list that aren't lost, in the order of their begins."""
        if self.kind == "seed":
            return sorted(self.some(changes), key=lambda it: it.begin)
        return [] if self.kind == "least" else [it for it in changes if not self.loses_whole(it)]

    def loses_whole(self, change):
        """Whether an operation on names is lost, or a write's length."""
        number, part = change.operation.number, getattr(change, "part", "")
        return number in self.short or (part and (number, part) in self.losses)

    def everywhere(self, changes):
        """What a seed leaves of a file where writes aren't torn: each with its place in the order."""
        return (
            {it: at for at, it in enumerate(self.some(changes))}
            if self.kind == "seed" and not self.is_torn
            else {}
        )

    def named_in(self, first, last, changes, same):
        """Those of the changes of a cell that aren't lost there."""
        if self.kind != "seed":
            return (
                []
                if self.kind == "least"
                else [it for it in changes if not self.loses(it.operation.number, first, last)]
            )
        return (
            self.some(changes)
            if self.is_torn
            else sorted((it for it in changes if it in same), key=same.get)
        )

    def loses(self, number, first, last):
        return number in self.lost or any(
            one < last and first < other for one, other in self.torn.get(number, [])
        )

    def some(self, changes):
        """Some of these, as many as the dice say, now and then those that ran at once in another order."""
        if self.dice.random() < 0.3:
            changes = [it for own in at_once(changes) for it in self.dice.sample(own, len(own))]
        return [it for it in changes if self.dice.random() < self.chance]


class History:
    """A volume with the changes and syncs up to now, made when it is first asked. Where a change is, and what of it a sync covers, says who inherits."""

    def __init__(self, changes, syncs, now):
        self.changes, self.now = changes, now
        self.syncs = list(
            telling(changes, (it for it in syncs if it.end is not None and it.end < now))
        )
        self.last_sync = max((it.begin for it in self.syncs if it.is_done), default=-1)

    def marks(self):
        """What begins and what ends, in its order."""
        for change in self.changes:
            yield change.begin, 1, change
            if change.end is not None and change.end < self.now:
                yield change.end, 2, change
        for sync in self.syncs:
            yield sync.begin, 0, sync
            yield sync.end, 3, sync

    @functools.cached_property
    def volume(self):
        volume, self.numbers, begun = self.empty(), {}, {}
        for _, rank, it in sorted(self.marks(), key=lambda mark: mark[:2]):
            if rank == 1:
                self.numbers[it] = volume.begin_write(*self.written(it))
            elif rank == 2:
                volume.end_write(self.numbers[it])
            elif rank == 0:
                begun[it] = [
                    volume.begin_sync() if range is None else volume.begin_range_sync(*range)
                    for range in self.synced(it)
                ]
            else:
                for number in begun[it]:
                    volume.end_sync(number, it.is_done)
        return volume

    def may_be_safe(self, change):
        """Whether a sync has ended with success that began after a change: without one it isn't safe."""
        return change.end is not None and change.end < self.last_sync

    def safe(self):
        """The changes that are safe. Each is asked about by itself, since no other one decides it."""
        return {it for it in self.changes if self.may_be_safe(it) and self.of([it]).is_safe(it)}

    def is_safe(self, change):
        volume = self.volume
        return volume.is_safe(self.numbers[change])

    def folded(self):
        """The changes that the volume folds: it forgets them, and they were safe before."""
        before = self.safe()
        if not before:
            return before
        self.volume.fold()
        return {it for it in before if not self.is_safe(it)}


class Parts(History):
    """Changes of which each is left or not, in one order: a file's length, or names. Each has one byte of its own, and all one unit."""

    def __init__(self, changes, syncs, now):
        super().__init__(changes, syncs, now)
        # (what a range covers lies side by side)
        beside = sorted(changes, key=lambda it: (getattr(it, "first", 0), getattr(it, "last", 0)))
        self.places = {change: at for at, change in enumerate(beside)}

    def of(self, changes):
        return Parts(changes, self.syncs, self.now)

    def empty(self):
        return Volume(WHOLE, bytes(len(self.changes)))

    def written(self, change):
        return self.places[change], b"\1"

    def synced(self, sync):
        if sync.covers is None and sync.range is None:
            return [None]
        met = merged(
            (at, at + 1) for change, at in self.places.items() if self.is_met(sync, change)
        )
        return [(first, last - first) for first, last in met]

    @staticmethod
    def is_met(sync, change):
        if sync.covers is not None:
            return sync.covers(change)
        first, last = sync.range
        if change.is_exact:
            return False
        if sync.is_done:
            return first <= change.first and change.last <= last
        return change.first < last and first < change.last

    def crash(self, chosen):
        """Which are left. The volume is asked about those that wait for a lost one, of which the safe ones are left, and what is before these."""
        named = set(chosen.named(self.changes))
        first = first_end(it for it in self.changes if it not in named)
        kept = {it for it in named if it.begin <= first}
        others = [it for it in self.changes if it not in kept]
        if any(map(self.may_be_safe, others)):
            asked = self.of(others)
            kept.update(asked.read(asked.volume.crash(array.array("Q"))))
        return [it for it in self.changes if it in kept]

    def read(self, image):
        return [it for it in self.changes if image[self.places[it]]]

    def images(self, most):
        found = self.volume.images(most)
        return None if found is None else [self.read(it) for it in found]


class Bytes(History):
    """A file's bytes. `tears` are places at which a run of units is cut, so that what is on both sides is chosen apart."""

    def __init__(self, changes, syncs, now, unit, tears=(), cuts=()):
        super().__init__([it for it in changes if it.last > it.first], syncs, now)
        self.unit, self.cuts = unit, cuts
        self.lay_out(
            unit,
            [
                *tears,
                *(at for _, place in self.cuts for at in (place, place + unit - 1)),
            ],
        )
        self.width = 2 if len(self.changes) < 1 << 16 else 4
        self.labels = {change: at + 1 for at, change in enumerate(self.changes)}

    def of(self, changes):
        return Bytes(changes, self.syncs, self.now, self.unit)

    def empty(self):
        return Volume(self.slots * self.width, bytes(len(self.cells) * self.slots * self.width))

    def lay_out(self, unit, tears):
        """Cells: runs of whole units that the same changes touch, or one unit with the cuts in it."""
        cuts = sorted({it.first for it in self.changes} | {it.last for it in self.changes})
        borders, inner = set(), {}
        for cut in cuts:
            if cut % unit == 0:
                borders.add(cut)
            else:
                first = cut - cut % unit
                borders.update((first, first + unit))
                inner.setdefault(first, []).append(cut)
        borders.update(it - it % unit for it in tears)
        covered = merged(
            [(it.first - it.first % unit, -(-it.last // unit) * unit) for it in self.changes]
        )
        borders = sorted(borders)
        self.cells = []
        for first, last in covered:
            inside = borders[
                bisect.bisect_right(borders, first) : bisect.bisect_left(borders, last)
            ]
            points = [first, *inside, last]
            self.cells += [
                (one, other, inner.get(one, [])) for one, other in zip(points, points[1:])
            ]
        self.slots = 1 + max((len(it[2]) for it in self.cells), default=0)
        self.starts = [it[0] for it in self.cells]

    def slot(self, place, is_last):
        """Where a cut is in the volume; as the end of something, or as its begin."""
        if not self.cells:
            return 0
        at = max(0, bisect.bisect_right(self.starts, place - 1 if is_last else place) - 1)
        first, last, inner = self.cells[at]
        if place <= first:
            return at * self.slots
        if place >= last:
            return (at + 1) * self.slots
        index = bisect.bisect_left(inner, place)
        if is_last:
            # (of a range that isn't cut here: what lies in it whole)
            return at * self.slots + (
                index + 1 if index < len(inner) and inner[index] == place else index
            )
        return at * self.slots + index + 1 if index < len(inner) else (at + 1) * self.slots

    def slot_at(self, place):
        """Where a byte is that a change writes."""
        at = bisect.bisect_right(self.starts, place) - 1
        return at * self.slots + bisect.bisect_right(self.cells[at][2], place)

    def written(self, change):
        first, last = self.slot(change.first, False), self.slot(change.last, True)
        return first * self.width, self.labels[change].to_bytes(self.width, "little") * (
            last - first
        )

    def synced(self, sync):
        if sync.covers is not None:
            # (of lengths alone)
            return []
        if sync.range is None:
            return [None]
        first, last = sync.range
        if not sync.is_done:
            # (a failed one reaches what lies in it in part)
            met = [it for it in self.changes if it.first < last and first < it.last]
            return [(self.slot_at(max(first, it.first)) * self.width, 1) for it in met]
        met = [it for it in self.changes if first <= it.first and it.last <= last]
        if not met:
            return []
        begin, end = min(self.slot(it.first, False) for it in met), max(
            self.slot(it.last, True) for it in met
        )
        return [(begin * self.width, (end - begin) * self.width)]

    def is_hidden(self, change, last):
        """Whether nothing of a change is left of units up to a place, since a truncation isn't."""
        return any(hides(cut, change, last) for cut in self.cuts)

    def crash(self, chosen):
        """Which change shows where: ranges, each with its change or None. Each cell goes by itself, with the changes that touch it."""
        same, found = chosen.everywhere(self.changes), []
        for (first, last, inner), own in zip(self.cells, self.touching()):
            named = chosen.named_in(
                first, last, [it for it in own if not self.is_hidden(it, last)], same
            )
            found += self.shown((first, last, inner), own, named)
        return found

    def touching(self):
        """Of each cell the changes that touch it, in the order of their begins."""
        found = [[] for _ in self.cells]
        for change in self.changes:
            first = bisect.bisect_right(self.starts, change.first) - 1
            for own in found[first : bisect.bisect_left(self.starts, change.last)]:
                own.append(change)
        return found

    def shown(self, cell, own, named):
        """What a cell shows, if these of its changes are named. What is named before a lost one has ended is left: the volume is asked about the others, if one of them may be safe, and where the names are in another order."""
        others = set(own).difference(named)
        first = first_end(others)
        if any(one.begin > other.begin for one, other in itertools.pairwise(named)):
            return self.asked(cell, own, named)
        kept = [it for it in named if it.begin <= first]
        others.update(it for it in named if it.begin > first)
        found = painted(cell, kept)
        if any(map(self.may_be_safe, others)):
            above = self.asked(cell, [it for it in own if it in others], [])
            found = [one if one[2] else other for one, other in zip(above, found)]
        return found

    def asked(self, cell, own, named):
        """What the volume leaves of a cell, by these names."""
        file = self.of(own)
        at = bisect.bisect_right(file.starts, cell[0]) - 1
        volume = file.volume
        image = volume.crash(
            array.array("Q", [*[0] * (at + 1), *(file.numbers[it] for it in named), 0])
        )
        return [(one, other, file.label(image, file.slot_at(one))) for one, other in pairs(cell)]

    def label(self, image, slot):
        """Whose label an image has in a slot."""
        label = int.from_bytes(image[slot * self.width : (slot + 1) * self.width], "little")
        return self.changes[label - 1] if label else None

    def read(self, image):
        return [
            (one, other, self.label(image, at * self.slots + slot))
            for at, cell in enumerate(self.cells)
            for slot, (one, other) in enumerate(pairs(cell))
        ]

    def images(self, most):
        found = self.volume.images(most)
        return (
            None
            if found is None
            else [cells for cells in map(self.read, found) if not self.shows_hidden(cells)]
        )

    def shows_hidden(self, cells):
        lasts = (last for _, last, inner in self.cells for _ in range(len(inner) + 1))
        return bool(self.cuts) and any(
            change and self.is_hidden(change, last) for (_, _, change), last in zip(cells, lasts)
        )


def hides(lost, change, last):
    """Whether nothing of a change is left of units up to a place where a truncation's length isn't: of the truncation's zeros, and of what was written once it had ended, if they have bytes after the place from which it hides them."""
    cut, place = lost
    return last > place and (change is cut or (cut.end is not None and cut.end < change.begin))


def pairs(cell):
    """The parts of a cell, between the cuts in it."""
    first, last, inner = cell
    return itertools.pairwise([first, *inner, last])


def painted(cell, changes):
    """A cell with these changes over it, one after the other."""
    first, last, inner = cell
    points = [first, *inner, last]
    found = [None] * (len(points) - 1)
    for it in changes:
        for slot in range(
            bisect.bisect_left(points, max(it.first, first)),
            bisect.bisect_left(points, min(it.last, last)),
        ):
            found[slot] = it
    return [(one, other, it) for (one, other), it in zip(itertools.pairwise(points), found)]


def merged(ranges):
    """Ranges that meet, as one."""
    found = []
    for first, last in sorted(ranges):
        if found and first <= found[-1][1]:
            found[-1] = (found[-1][0], max(last, found[-1][1]))
        else:
            found.append((first, last))
    return found
