"""Random calls on the files of a disk, and the log that `explore crash` would have of them: calls one after the other, each with its begin and its end."""

import ctypes
import os

from crashing.disk import KEEP_SIZE, PUNCH_HOLE, ZERO_RANGE
from crashing.events import (
    CREATE,
    END,
    HEAD,
    IS_OF_DATA,
    LENGTH,
    LINK,
    MAKE_FOLDER,
    REMOVE,
    RENAME,
    SPACE,
    SYNC,
    WRITE,
)

libc = ctypes.CDLL(None, use_errno=True)
SIZES = (1, 60, 100, 900, 1000, 2000, 4000, 6000, 9000, 30000)
FILES = {"a": 100, "b": 4096, "c": 6000, "d/e": 50, "d/f": 0}


def fill(folder):
    """What is there, and safe, before the first call."""
    os.mkdir(folder)
    os.mkdir(f"{folder}/d")
    for at, (name, size) in enumerate(FILES.items()):
        with open(f"{folder}/{name}", "wb") as file:
            file.write(bytes([201 + at]) * size)
    folder = os.open(folder, os.O_RDONLY)
    libc.syncfs(folder)
    os.close(folder)


class Calls:
    """A sequence: `log` has its events, and `marks` where the disk's log was before and after each call, with how many events had happened before and after."""

    def __init__(self, folder, dice, position, is_of_names=False):
        self.folder, self.dice, self.position = folder, dice, position
        self.letters = "abcefg" if is_of_names else "ghijkl"
        self.kinds = self.of_names() if is_of_names else self.of_all()
        self.log, self.count, self.marks, self.told, self.byte = b"", 0, [], [], 0
        self.files = {it: os.open(f"{folder}/{it}", os.O_RDWR) for it in FILES}
        self.folders = ["", "d"]

    def close(self):
        for it in self.files.values():
            os.close(it)

    def event(self, kind, file=0, path="", second_path="", data=b"", **more):
        own = dict(flags=0, second=0, offset=0, length=0, result=0)
        own.update(more)
        one, other = path.encode(), second_path.encode()
        size = HEAD.size + len(one) + len(other) + len(data)
        self.log += HEAD.pack(
            size,
            kind,
            own["flags"],
            1,
            1,
            0,
            file,
            own["second"],
            own["offset"],
            own["length"],
            own["result"],
            len(one),
            len(other),
            len(data),
        )
        self.log += one + other + data
        self.count += 1

    def call(self, told, kind, act, **words):
        """One call between its begin and its end."""
        before, at = self.position(), self.count
        self.event(kind, **words)
        result = act() or 0
        made = os.stat(words["path"]).st_ino if kind in (CREATE, MAKE_FOLDER) else 0
        self.event(END, file=made, result=result)
        self.marks.append((before, self.position(), at, self.count))
        self.told.append(told)

    def number(self, path):
        return os.stat(path).st_ino

    def whole(self, name):
        return f"{self.folder}/{name}" if name else self.folder

    def above(self, name):
        return self.number(os.path.dirname(self.whole(name)))

    def any_file(self):
        return self.dice.choice(sorted(self.files))

    def free_name(self):
        taken = {*self.files, *self.folders}
        names = (f"{it}/{n}" if it else n for it in self.folders for n in self.letters)
        return self.dice.choice([it for it in names if it not in taken])

    def of_all(self):
        kinds = (self.append,) * 5 + (self.overwrite,) * 3 + (self.rename,) * 3
        kinds += (self.sync,) * 4 + (self.create,) * 2 + (self.replace,) * 2
        kinds += (self.cut, self.cut, self.space, self.link, self.unlink, self.make_folder)
        return kinds + (self.sync_folder, self.push)

    def of_names(self):
        """Names for the most part; they are few, so that one is another file's again."""
        kinds = (self.append,) * 2 + (self.overwrite,) + (self.rename,) * 6
        kinds += (self.sync,) * 5 + (self.create,) * 2 + (self.replace,) * 3
        kinds += (self.link,) * 2 + (self.unlink,) * 2 + (self.make_folder,)
        return kinds + (self.sync_folder,) * 2 + (self.push,)

    def step(self):
        """One call by chance."""
        self.dice.choice(self.kinds)()

    def write(self, name, offset, size, what):
        self.byte = self.byte % 200 + 1
        data, file = bytes([self.byte]) * size, self.files[name]
        words = dict(file=os.fstat(file).st_ino, path=self.whole(name), data=data)
        self.call(
            f"{what} {name} {offset}+{size}",
            WRITE,
            lambda: os.pwrite(file, data, offset),
            offset=offset,
            length=size,
            **words,
        )

    def append(self):
        name = self.any_file()
        self.write(name, os.fstat(self.files[name]).st_size, self.dice.choice(SIZES), "append")

    def overwrite(self):
        name = self.any_file()
        length = os.fstat(self.files[name]).st_size
        beyond = self.dice.choice([0, 0, 0, 1000, 20000])
        place = self.dice.randrange(length + beyond + 1)
        self.write(name, place, self.dice.choice(SIZES), "write")

    def sync(self):
        name, is_data = self.any_file(), self.dice.random() < 0.5
        file = self.files[name]
        self.call(
            f"{'fdatasync' if is_data else 'fsync'} {name}",
            SYNC,
            lambda: os.fdatasync(file) if is_data else os.fsync(file),
            file=os.fstat(file).st_ino,
            path=self.whole(name),
            flags=IS_OF_DATA if is_data else 0,
        )

    def sync_folder(self):
        name = self.dice.choice(self.folders)
        whole = self.whole(name)
        folder = os.open(whole, os.O_RDONLY)
        self.call(
            f"fsync {name or '.'}",
            SYNC,
            lambda: os.fsync(folder),
            file=self.number(whole),
            path=whole,
        )
        os.close(folder)

    def create(self):
        name = self.free_name()
        whole = self.whole(name)

        def act():
            self.files[name] = os.open(whole, os.O_RDWR | os.O_CREAT | os.O_EXCL, 0o644)

        self.call(f"create {name}", CREATE, act, file=self.above(name), path=whole)
        if self.dice.random() < 0.7:
            self.write(name, 0, self.dice.choice(SIZES), "write")

    def rename(self):
        name = self.any_file()
        self.rename_to(name, self.dice.choice([self.free_name(), self.any_file()]))

    def rename_to(self, name, other):
        one, two = self.whole(name), self.whole(other)
        if os.path.exists(two) and os.path.samefile(one, two):
            return
        words = dict(file=self.above(name), second=self.above(other), length=self.number(one))
        self.call(
            f"rename {name} {other}",
            RENAME,
            lambda: os.rename(one, two),
            path=one,
            second_path=two,
            **words,
        )
        if other in self.files:
            os.close(self.files.pop(other))
        self.files[other] = self.files.pop(name)

    def replace(self):
        """A new file takes another's place, as editors and stores do it."""
        name, other = self.free_name(), self.any_file()
        whole = self.whole(name)

        def act():
            self.files[name] = os.open(whole, os.O_RDWR | os.O_CREAT | os.O_EXCL, 0o644)

        self.call(f"create {name}", CREATE, act, file=self.above(name), path=whole)
        self.write(name, 0, self.dice.choice(SIZES), "write")
        self.rename_to(name, other)

    def cut(self):
        name = self.any_file()
        file = self.files[name]
        length = os.fstat(file).st_size
        place = self.dice.choice([0, length // 2, length + self.dice.choice(SIZES)])
        self.call(
            f"ftruncate {name} {place}",
            LENGTH,
            lambda: os.ftruncate(file, place),
            file=os.fstat(file).st_ino,
            path=self.whole(name),
            offset=place,
        )

    def space(self):
        name = self.any_file()
        file = self.files[name]
        mode = self.dice.choice([0, KEEP_SIZE, KEEP_SIZE | PUNCH_HOLE, ZERO_RANGE])
        offset = self.dice.randrange(os.fstat(file).st_size + 1)
        length = self.dice.choice(SIZES)

        def act():
            long = ctypes.c_long
            if libc.fallocate(file, mode, long(offset), long(length)) != 0:
                return -ctypes.get_errno()

        self.call(
            f"fallocate {name} mode {mode} {offset}+{length}",
            SPACE,
            act,
            file=os.fstat(file).st_ino,
            path=self.whole(name),
            flags=mode,
            offset=offset,
            length=length,
        )

    def link(self):
        name, other = self.any_file(), self.free_name()
        one, two = self.whole(name), self.whole(other)
        self.call(
            f"link {name} {other}",
            LINK,
            lambda: os.link(one, two),
            file=self.above(other),
            path=two,
            second=self.number(one),
        )
        self.files[other] = os.dup(self.files[name])

    def unlink(self):
        if len(self.files) > 2:
            name = self.any_file()
            whole = self.whole(name)
            self.call(
                f"unlink {name}",
                REMOVE,
                lambda: os.unlink(whole),
                file=self.above(name),
                path=whole,
            )
            os.close(self.files.pop(name))

    def make_folder(self):
        if len(self.folders) < 4:
            name = self.free_name()
            whole = self.whole(name)
            self.call(
                f"mkdir {name}",
                MAKE_FOLDER,
                lambda: os.mkdir(whole),
                file=self.above(name),
                path=whole,
            )
            self.folders.append(name)

    def push(self):
        """Pages of a file are written back, which promises nothing: sync_file_range, with what its call waits for. The tool sees no event."""
        name = self.any_file()
        flags = self.dice.choice([2, 7])
        before, at = self.position(), self.count
        libc.sync_file_range(self.files[name], ctypes.c_int64(0), ctypes.c_int64(0), flags)
        self.told.append(f"sync_file_range {name} {flags}")
        self.marks.append((before, self.position(), at, self.count))
