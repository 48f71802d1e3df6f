"""A run's disk: the files and names that it began with, and what has happened to each since and isn't settled yet.

What is settled is in every image. A change is settled once the volume folds it: then it is painted, and forgotten.
"""

import os
import stat

from crashing.changes import Change, Naming, Sync, written
from crashing.events import (
    COPY,
    CREATE,
    IS_OF_RANGE,
    LENGTH,
    LINK,
    MAKE_FOLDER,
    MAKE_LINK,
    MAPPED,
    OF_NAMES,
    REMOVE,
    SPACE,
    SYNC,
    SYNC_ALL,
    SYNCS_ITS_RANGE,
    WRITE,
)
from crashing.filesystems import (
    Held,
    Rules,
    changed_at,
    committed,
    covered_names,
    held_names,
    in_turn,
)
from crashing.labels import Bytes, Parts
from crashing.order import is_open, settled

# Modes of fallocate, and a flag of renameat2.
KEEP_SIZE, PUNCH_HOLE, COLLAPSE_RANGE, ZERO_RANGE, INSERT_RANGE = 1, 2, 8, 16, 32
EXCHANGE = 2


class File:
    """A file, a folder or a symbolic link; what is settled of it, and what isn't."""

    def __init__(self, kind, path, contents=b"", mode=0o644):
        self.kind, self.path, self.mode = kind, path, mode
        self.contents, self.length = bytearray(contents), len(contents)
        self.changes, self.syncs, self.all_syncs, self.writes = [], [], [], 0

    def extent(self):
        return max(
            [
                self.length,
                *(change.length or 0 for change in self.changes),
                *(change.last for change in self.changes),
            ]
        )


class Disk:
    rules = Rules()

    def __init__(self, folder, is_ordered, unit, is_apart=False):
        self.folder, self.is_ordered, self.unit, self.is_apart = folder, is_ordered, unit, is_apart
        self.files, self.by_inode, self.names, self.seen = [], {}, {}, {}
        self.namings, self.name_syncs, self.remarks, self.now = [], [], [], 0
        self.root = self.scan(folder)

    def follow(self, rules):
        """Takes the rules of a file system."""
        self.rules, self.is_ordered = rules, rules.is_ordered

    def scan(self, path):
        about = os.lstat(path)
        if stat.S_ISDIR(about.st_mode):
            number = self.add(File("folder", path, mode=about.st_mode), about.st_ino)
            self.names[number] = {name: self.scan(f"{path}/{name}") for name in os.listdir(path)}
            return number
        if stat.S_ISLNK(about.st_mode):
            return self.add(File("link", path, os.fsencode(os.readlink(path))), about.st_ino)
        if about.st_ino in self.by_inode:
            return self.by_inode[about.st_ino]
        with open(path, "rb") as file:
            return self.add(File("file", path, file.read(), about.st_mode), about.st_ino)

    def add(self, file, inode):
        self.files.append(file)
        if inode:
            self.by_inode[inode] = len(self.files) - 1
        return len(self.files) - 1

    def remark(self, text):
        if text not in self.remarks:
            self.remarks.append(text)

    def begin_with(self, log):
        """What begins and ends in each event of this log."""
        self.log, self.begins, self.ends = log, {}, {}
        for operation in log.operations:
            self.begins.setdefault(operation.begin, []).append(operation)
            if operation.end is not None:
                self.ends.setdefault(operation.end, []).append(operation)

    def advance(self, moment):
        """Goes on to the moment after so many events."""
        for at in range(self.now, moment):
            self.now = at + 1
            for operation in self.begins.get(at, []):
                self.begin(operation)
            for operation in self.ends.get(at, []):
                self.end(operation)

    def file_of(self, operation):
        number = self.by_inode.get(operation.file)
        if number is None:
            # (made in a way that wasn't seen, or without a name)
            number = self.add(File("file", operation.path), operation.file)
        file = self.files[number]
        if operation.path and not operation.path.endswith(" (deleted)"):
            file.path = operation.path
        return number

    def begin(self, operation):
        kind = operation.kind
        if kind in OF_NAMES:
            if not operation.fails():
                self.begin_naming(operation)
        elif kind == SYNC_ALL:
            for number, file in enumerate(self.files):
                self.begin_sync(number, operation, None)
            self.name_syncs.append(
                Sync(
                    operation,
                    operation.begin,
                    operation.end,
                    not operation.fails(),
                    covers=lambda naming: naming.is_over(operation.begin),
                )
            )
        elif kind == SYNC:
            number = self.file_of(operation)
            self.begin_sync(
                number,
                operation,
                (operation.offset, operation.offset + operation.length)
                if operation.flags & IS_OF_RANGE
                else None,
            )
            self.begin_name_sync(number, operation)
        else:
            self.begin_change(operation)

    def begin_name_sync(self, number, operation):
        """What a sync of a file or a folder makes safe of names, and of lengths of other files: as the rules say."""
        is_done = not operation.fails()
        # (one that fails commits nothing, and gives up no more than the file's own names)
        at = changed_at(self, number, operation) if is_done else -1
        covers = covered_names(self, number, operation, at)
        for own in covers, held_names(self, number, operation):
            if own:
                self.name_syncs.append(
                    Sync(operation, operation.begin, operation.end, is_done, covers=own)
                )
        if self.is_ordered and is_done:
            self.commit_lengths(number, operation, at)

    def commit_lengths(self, number, operation, at):
        """What a sync of a file or a folder commits of other files' lengths."""
        for other, file in enumerate(self.files):
            covers = committed(file, at, operation) if other != number and file.changes else None
            if covers:
                sync = Sync(operation, operation.begin, operation.end, True, covers=covers)
                file.syncs.append(sync)

    def begin_sync(self, number, operation, range):
        file = self.files[number]
        if file.kind == "file":
            sync = Sync(operation, operation.begin, operation.end, not operation.fails(), range)
            # (one of no byte makes none safe)
            if range is None or range[0] < range[1]:
                file.syncs.append(sync)
            file.all_syncs = [*file.all_syncs[-99:], sync]

    def begin_change(self, operation):
        file = self.files[self.file_of(operation)]
        if operation.kind in (WRITE, COPY, MAPPED):
            file.writes += 1
            operation.nth = file.writes
            for first, data, ends in written(operation):
                self.put(
                    file,
                    Change(operation, first, first + len(data), data, first + len(data), ends=ends),
                )
        elif not operation.fails() and operation.kind == LENGTH:
            extent = max(file.extent(), operation.offset)
            self.put(
                file, Change(operation, operation.offset, extent, None, operation.offset, True)
            )
        elif not operation.fails() and operation.kind == SPACE:
            self.begin_space(file, operation)

    def begin_space(self, file, operation):
        mode, first, last = operation.flags, operation.offset, operation.offset + operation.length
        if mode & (COLLAPSE_RANGE | INSERT_RANGE):
            self.remark(f"{self.short(file)}: fallocate moved bytes, which isn't followed")
        longer = None if mode & KEEP_SIZE else last
        is_zero = mode & (PUNCH_HOLE | ZERO_RANGE)
        self.put(file, Change(operation, first, last if is_zero else first, None, longer))

    def put(self, file, change):
        file.changes.append(change)
        operation = change.operation
        if (
            operation.flags & SYNCS_ITS_RANGE
            and operation.kind in (WRITE, COPY)
            and change.end is not None
        ):
            # (a sync of its range, begun once it has ended: RWF_DSYNC, O_DSYNC)
            file.syncs.append(
                Sync(
                    operation,
                    change.end + 0.25,
                    change.end + 0.5,
                    True,
                    (change.first, change.last),
                )
            )

    def end(self, operation):
        if operation.kind == SYNC_ALL:
            for file in self.files:
                self.fold(file)
            self.fold_names()
        elif operation.kind == SYNC or (
            operation.flags & SYNCS_ITS_RANGE and operation.kind in (WRITE, COPY)
        ):
            self.fold(self.files[self.by_inode[operation.file]])
            self.fold_names()

    def fold(self, file):
        """What the volume folds is painted."""
        if not file.changes:
            file.syncs = [it for it in file.syncs if it.end is None or it.end >= self.now]
            return
        found = settled(file.changes, lambda some: self.foldable(some, file.syncs))
        for change in file.changes:
            if change in found:
                change.paint(file.contents)
                file.length = change.lengthen(file.length)
        file.changes = [it for it in file.changes if it not in found]
        last = max(
            (it.end for it in file.changes if it.end is not None and it.end < self.now),
            default=None,
        )
        first = min(
            (it.end for it in file.changes if it.end is not None and it.end < self.now),
            default=None,
        )
        file.syncs = [
            it
            for it in file.syncs
            if is_open(it, self.now) or (last is not None and it.begin > first)
        ]

    def foldable(self, changes, syncs):
        """Those of some changes of a file that can be folded, their length and their bytes."""
        found = Parts(changes, syncs, self.now).folded()
        return found and found & (
            Bytes(changes, syncs, self.now, self.unit).folded()
            | {it for it in found if it.last == it.first}
        )

    def name_groups(self):
        """The operations on names that a crash leaves together, in one order: all, or those that a chain of names joins."""
        if self.is_ordered:
            return [self.namings] if self.namings else []
        group_of, groups = {}, {}
        for at, naming in enumerate(self.namings):
            keys, members = {(folder, name) for folder, name, _ in naming.effects}, [naming]
            for number in {group_of[it] for it in keys if it in group_of}:
                others = groups.pop(number)
                keys |= others[0]
                members += others[1]
            groups[at] = keys, members
            group_of.update(dict.fromkeys(keys, at))
        return [sorted(members, key=lambda it: it.begin) for _, members in groups.values()]

    def fold_names(self):
        # (what is safe while a file has its names isn't settled)
        syncs = [it for it in self.name_syncs if not isinstance(it.covers, Held)]
        for group in self.name_groups():
            found = settled(group, lambda some: Parts(some, syncs, self.now).folded())
            for naming in group:
                if naming in found:
                    naming.apply(self.names)
                    naming.is_folded = True
        self.namings = [it for it in self.namings if not it.is_folded]
        first = min(
            (it.end for it in self.namings if it.end is not None and it.end < self.now),
            default=None,
        )
        self.name_syncs = [
            it
            for it in self.name_syncs
            if is_open(it, self.now) or (first is not None and it.begin > first)
        ]

    def begin_naming(self, operation):
        folder, name = self.by_inode.get(operation.file), os.path.basename(operation.path)
        kind = operation.kind
        if kind == CREATE and not operation.path:
            self.add(File("file", ""), operation.made)
        elif kind == CREATE:
            self.name(
                operation, [(folder, name, self.add(File("file", operation.path), operation.made))]
            )
        elif kind == MAKE_FOLDER:
            number = self.add(File("folder", operation.path, mode=0o755), operation.made)
            self.names[number] = {}
            self.name(operation, [(folder, name, number)])
        elif kind == MAKE_LINK:
            self.name(
                operation,
                [
                    (
                        folder,
                        name,
                        self.add(
                            File("link", operation.path, os.fsencode(operation.second_path)),
                            operation.made,
                        ),
                    )
                ],
            )
        elif kind == LINK:
            self.name(operation, [(folder, name, self.known(operation.second, operation.path))])
        elif kind == REMOVE:
            self.untie(self.current(folder, name))
            self.name(operation, [(folder, name, None)])
        else:
            self.rename(operation, folder, name)

    def known(self, inode, path):
        return (
            self.by_inode[inode] if inode in self.by_inode else self.add(File("file", path), inode)
        )

    def rename(self, operation, folder, name):
        other, second = self.by_inode.get(operation.second), os.path.basename(operation.second_path)
        moved = self.known(operation.length, operation.path)
        replaced = self.current(other, second)
        if operation.flags & EXCHANGE:
            effects = [(other, second, moved), (folder, name, replaced)]
        elif (folder, name) == (other, second) or replaced == moved:
            return
        else:
            effects = [(other, second, moved), (folder, name, None)]
        self.files[moved].path = operation.second_path or self.files[moved].path
        if not operation.flags & EXCHANGE:
            self.untie(replaced)
        effects = [it for it in effects if it[0] is not None]
        if self.is_apart:
            for effect in effects:
                self.name(operation, [effect], moved)
        elif self.rules.parts_renames and not operation.flags & EXCHANGE:
            self.name_in_parts(operation, effects, moved, replaced)
        else:
            self.name(operation, effects, moved, None if operation.flags & EXCHANGE else replaced)

    def untie(self, number):
        """Of a file that loses a name to another or is removed: that it is gone may be left alone, and so may what its syncs made safe."""
        for it in self.namings:
            if it.needs and not it.new and number in it.files:
                it.needs = []
        for own in self.held():
            own.names.pop(number, None)

    def held(self):
        return [it.covers for it in self.name_syncs if isinstance(it.covers, Held)]

    def add_name(self, naming, number):
        """A file has another name in the place of an earlier one."""
        for it in self.namings:
            if it.needs and it is not naming and number in it.files:
                it.needs.append(naming)
        for own in self.held():
            if number in own.names:
                own.names[number].append(naming)

    def is_new(self, number):
        """Whether a file's creation isn't settled."""
        return any(it.operation.kind == CREATE and number in it.files for it in self.namings)

    def name_in_parts(self, operation, effects, moved, replaced):
        """A rename as its parts; what it replaces goes by itself where the new name is in another folder."""
        is_new, before = self.is_new(moved), len(self.namings)
        is_within = len({folder for folder, _, _ in effects}) == 1
        if replaced is not None and not is_within:
            self.name(operation, [(*effects[0][:2], None)], moved)
        for effect in effects:
            self.name(operation, [effect], moved, replaced if effect[2] == moved else None)
        if len(effects) == 2:
            has_one = is_within or self.files[moved].kind == "folder"
            in_turn(self.namings[before:], is_new, has_one)
            self.add_name(self.namings[-2], moved)

    def current(self, folder, name):
        """The file that has a name, as the program sees it."""
        return (
            self.seen[folder, name]
            if (folder, name) in self.seen
            else self.names.get(folder, {}).get(name)
        )

    def name(self, operation, effects, moved=None, replaced=None):
        effects = [it for it in effects if it[0] is not None]
        if effects:
            files = {file for _, _, file in effects if file is not None} | (
                {moved} if moved is not None else set()
            )
            self.namings.append(Naming(operation, effects, files, replaced))
            self.seen.update(((folder, name), file) for folder, name, file in effects)

    def short(self, file):
        return (
            os.path.relpath(file.path, self.folder)
            if file.path.startswith(self.folder)
            else file.path or "a file without a name"
        )
