"""File systems on disks whose power fails: a sequence of calls on one, and the trees that are found on what the disk may have kept of what it was given."""

import os
import subprocess
import time

from devices import Loop
from server import Served, mount, unmount

from calls import Calls, fill
from crashing.disk import Disk
from crashing.events import Log

MB = 1 << 20
# How a disk is made, how large it is, and how it is mounted.
MAKES = {
    "ext4": (16 * MB, "mkfs.ext4 -q -b 4096 -E lazy_itable_init=0", "ext4", "noinit_itable"),
    "ext4:1024": (16 * MB, "mkfs.ext4 -q -b 1024 -E lazy_itable_init=0", "ext4", "noinit_itable"),
    "xfs": (320 * MB, "mkfs.xfs -q -f", "xfs", ""),
    "btrfs": (128 * MB, "mkfs.btrfs -q -f", "btrfs", ""),
}


class Sequence:
    """What calls did, and what the disk was given meanwhile."""

    def __init__(self, disk, calls, records):
        self.disk, self.log, self.marks, self.told = disk, Log(calls.log), calls.marks, calls.told
        self.records = records

    def moment(self, position):
        """How many events had happened by then."""
        found = 0
        for before, after, begun, ended in self.marks:
            if position >= after:
                found = ended
            else:
                return begun + 1 if position > before and ended > begun else found
        return found

    def told_until(self, moment, position):
        """The calls up to a crash, in words."""
        for told, (before, _, begun, ended) in zip(self.told, self.marks):
            if begun < moment or (begun == ended == moment and before <= position):
                yield told if ended <= moment else f"{told} (which runs)"

    def crashes(self, dice, count):
        """Crashes in the order of their moments: each with its place in the disk's log, and what is kept."""
        return sorted(
            ((self.moment(it[0]), *it) for it in (self.kept(dice) for _ in range(count))),
            key=lambda it: it[0],
        )

    def kept(self, dice):
        """One crash: where in the disk's log, and the writes that it has kept: all, or of those since the last flush some."""
        last = self.marks[-1][1]
        ends = [0, *(it for it, _, _ in self.records if it <= last)]
        position = dice.choice([dice.choice(ends), *(it[1] for it in self.marks)])
        given = [it for it in self.records if it[0] <= position]
        flushed = max((at + 1 for at, it in enumerate(given) if it[2] is None), default=0)
        chance = dice.choice([1, 1, 1, 0.5, 0])
        writes = [it[1:] for it in given[:flushed] if it[2] is not None]
        for _, offset, data in given[flushed:]:
            writes += [it for it in pieces(offset, data) if dice.random() < chance]
        return position, chance, writes


def pieces(offset, data):
    """A write as the disk may have kept it: each page by itself."""
    return [(offset + at, data[at : at + 4096]) for at in range(0, len(data), 4096)]


class Filesystem:
    """A kind of file system, with a disk that it is on, and one for what a crash has left."""

    def __init__(self, kind, room):
        size, make, self.kind, self.options = MAKES[kind]
        self.size, self.folder, self.copy = size, f"{room}/folder", f"{room}/copy"
        os.mkdir(self.folder)
        self.served = Served(room, size)
        for at in range(5):
            # (mkfs.btrfs looks at all loop devices, of which one may just go)
            words = [*make.split(), f"{room}/store"]
            if subprocess.run(words, check=at == 4, capture_output=True).returncode == 0:
                break
        self.mounted(f"{room}/store", self.begin)
        self.first = extents(self.served.store)
        self.image = os.open(self.copy, os.O_RDWR | os.O_CREAT, 0o600)

    def close(self):
        self.served.close()
        os.close(self.image)

    def begin(self, folder):
        open(f"{folder}/other", "wb").close()
        fill(f"{folder}/disk")

    def mounted(self, path, act):
        loop = Loop(path)
        try:
            mount(loop.path, self.folder, self.kind, 0, self.options)
            try:
                return act(self.folder)
            finally:
                self.unmount()
        finally:
            loop.close()

    def unmount(self):
        for _ in range(100):
            try:
                unmount(self.folder)
                return
            except OSError:
                time.sleep(0.01)
        unmount(self.folder, 2)

    def sequence(self, dice, is_of_names=False):
        """Calls by chance; in between the journal is committed, and pages are written back, as time does it."""
        os.ftruncate(self.served.store, 0)
        self.put(self.served.store, [])
        os.ftruncate(self.served.log, 0)

        def act(folder):
            disk = Disk(f"{folder}/disk", False, 1)
            self.served.delay[0] = dice.choice([0, 0, 1, 5])
            calls = Calls(f"{folder}/disk", dice, self.served.position, is_of_names)
            for _ in range(dice.randrange(2, 12)):
                calls.step()
                self.pass_time(folder, calls, dice)
            self.served.delay[0] = 0
            calls.close()
            return Sequence(disk, calls, self.served.records())

        return self.mounted(self.served.path, act)

    def pass_time(self, folder, calls, dice):
        chance = dice.random()
        if chance < 0.15:
            calls.push()
        elif chance < 0.3:
            other = os.open(f"{folder}/other", os.O_RDWR)
            os.pwrite(other, b"other" * dice.randrange(1, 3000), 0)
            os.ftruncate(other, dice.randrange(5000))
            os.fsync(other)
            os.close(other)
        elif chance < 0.4:
            time.sleep(0.01)

    def put(self, file, writes):
        os.ftruncate(file, 0)
        os.ftruncate(file, self.size)
        for offset, data in [*self.first, *writes]:
            os.pwrite(file, data, offset)

    def left(self, writes):
        """The tree that is found where the disk has kept these writes."""
        self.put(self.image, writes)
        return self.mounted(self.copy, lambda folder: tree_of(f"{folder}/disk"))


def extents(file):
    """What a sparse file has."""
    found, at, end = [], 0, os.fstat(file).st_size
    while at < end:
        try:
            at = os.lseek(file, at, os.SEEK_DATA)
        except OSError:
            break
        last = os.lseek(file, at, os.SEEK_HOLE)
        data = os.pread(file, last - at, at)
        found += [it for it in pieces(at, data) if it[1].count(0) != len(it[1])]
        at = last
    return found


def tree_of(folder, above=""):
    """What is below a folder: of each path None for a folder, or a file's inode and bytes."""
    found = {}
    for it in os.scandir(f"{folder}/{above}"):
        path = f"{above}/{it.name}" if above else it.name
        if it.is_dir(follow_symlinks=False):
            found[path] = None
            found.update(tree_of(folder, path))
        else:
            with open(f"{folder}/{path}", "rb") as file:
                found[path] = it.inode(), file.read()
    return found
