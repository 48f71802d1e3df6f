"""A run of the program whose log is kept, so that the power can fail in it at any moment without running it again."""

import copy
import glob
import os
import shutil
import stat
import tempfile
from typing import NamedTuple

from crashing.disk import Disk
from crashing.events import Log
from crashing.filesystems import rules_of
from exploring.ending import children, end_adopted, run_to_end
from exploring.runs import stop

HERE = os.path.dirname(os.path.dirname(os.path.realpath(__file__)))
PRELOADED, TURNING = (
    next(
        (it for it in (f"{HERE}/out/{name}", f"{HERE}/{name}") if os.path.exists(it)),
        f"{HERE}/out/{name}",
    )
    for name in ("uring-run.so", "uring-threads.so")
)
RUNNER = f"{HERE}/uring-run"


TAIL, LINES = 4096, 5  # of what a run printed: the bytes and the lines that are told


def run_and_end(words, seconds, **how):
    """The status of a program or a check, in words if it took too long. Nothing of it runs on: it would change the next one's files."""
    others = children()
    try:
        status, is_late = run_to_end(words, seconds, **how)
    except OSError as error:
        stop(f"{words[0]}: {error.strerror}")
    finally:
        end_adopted(others)
    return "none: it took too long" if is_late else status


def copy_folder(there, folder):
    """With its links: a file that has two names has them in the copy too."""
    copies = {}

    def copy_file(path, other):
        about = os.lstat(path)
        if (about.st_dev, about.st_ino) in copies:
            os.link(copies[about.st_dev, about.st_ino], other)
        else:
            copies[about.st_dev, about.st_ino] = other
            shutil.copy2(path, other)

    shutil.copytree(there, folder, symlinks=True, copy_function=copy_file)


class Start(NamedTuple):
    """With what a run begins: its words, and the folder that its disk is a copy of; if it recovers from a crash, what had been printed by then, and the crashes before it."""

    words: list
    disk: str
    earlier: bytes = b""
    epochs: tuple = ()


class Run:
    """What a run did: its log, what it printed, its choices, and its disk as it was when it began."""

    def __init__(self, options, policy, start=None):
        start = start or Start(options.words, options.disk)
        self.policy, self.earlier, self.epochs = policy, start.earlier, start.epochs
        place = tempfile.mkdtemp(prefix="run-", dir=options.place)
        try:
            folder = os.path.realpath(f"{place}/disk")
            copy_folder(start.disk, folder) if start.disk else os.mkdir(folder)
            self.disk = Disk(folder, options.names == "ordered", options.unit, options.apart)
            self.status, self.said, self.output = self.call(options, start.words, place, folder)
            with open(f"{place}/log", "rb") as file:
                self.log = Log(file.read())
                self.is_ended = not os.fstat(file.fileno()).st_mode & stat.S_IWUSR
            self.disk.follow(rules_of(options.names))
            self.choices = self.read_choices(place)
            self.remarks = self.compare() + self.compare_output(f"{place}/printed")
        finally:
            shutil.rmtree(place, ignore_errors=True)

    def call(self, options, words, place, folder):
        """Its status, and what it said on its standard error and, at the end, on its standard output. One that recovers reads what had been printed."""
        open(f"{place}/log", "wb").close()
        with open(f"{place}/earlier", "wb") as file:
            file.write(self.earlier)
        own = dict(
            WULGACH_LOG=f"{place}/log",
            WULGACH_DISK=folder,
            WULGACH_OUTPUT=f"{place}/printed",
            WULGACH_POLICY=self.policy,
            WULGACH_CHOICES=f"{place}/choices",
            WULGACH_CHOOSE="ends" if options.ends else "events",
            WULGACH_SYNC="",
            DISK=folder,
        )
        if options.fsync_fails:
            own["WULGACH_SYNC_FAILS"] = str(options.fsync_fails)
        if options.threads:
            words = [RUNNER, "--threads", "--", *words]
        else:
            own["LD_PRELOAD"] = ":".join([PRELOADED, *filter(None, [os.environ.get("LD_PRELOAD")])])
        with open(f"{place}/earlier", "rb") as earlier, open(
            f"{place}/printed", "wb"
        ) as printed, open(f"{place}/said", "wb") as said:
            status = run_and_end(
                words,
                options.seconds,
                cwd=folder,
                env={**os.environ, **own},
                stdin=earlier,
                stdout=printed,
                stderr=said,
            )
        with open(f"{place}/said", "rb") as said, open(f"{place}/printed", "rb") as printed:
            printed.seek(max(0, os.path.getsize(f"{place}/printed") - TAIL))
            return status, said.read(), printed.read()

    def last_lines(self):
        """The last lines that it said, on its standard output and on its standard error."""
        return b"".join(
            line.rstrip(b"\n") + b"\n"
            for said in (self.output, self.said)
            for line in said.splitlines()[-LINES:]
        )

    def read_choices(self, place):
        found = []
        for path in sorted(glob.glob(f"{glob.escape(place)}/choices.*")):
            with open(path) as lines:
                words = [line.rstrip("\n").split(" ", 3) for line in lines if line[0].isdecimal()]
            found += [(int(it[0]), int(it[1]), int(it[2]), it[3]) for it in words]
        return found

    def items(self):
        return [(at, way) for at, way, _, _ in self.choices if way]

    def begin(self):
        """The disk as it was when the run began, and the log that goes on from there."""
        disk = copy.deepcopy(self.disk)
        disk.begin_with(self.log)
        return disk

    def moments(self):
        """Where something has happened: after so many events."""
        marks = {0, self.log.count}
        for operation in self.log.operations:
            marks.add(operation.begin + 1)
            if operation.end is not None:
                marks.add(operation.end + 1)
        return sorted(marks | {at + 1 for at, _ in self.log.printed})

    def printed(self, moment):
        return self.earlier + b"".join(data for at, data in self.log.printed if at < moment)

    def compare(self):
        """What the log makes of the disk, beside what is there: a difference was made in a way that the log doesn't see."""
        disk = self.begin()
        disk.advance(self.log.count)
        remarks = list(disk.remarks)
        if self.log.is_cut or self.is_ended:
            remarks.append(
                "the log couldn't be written to the run's end: what happened after it isn't crashed"
            )
        names = {folder: dict(inside) for folder, inside in disk.names.items()}
        for naming in sorted(disk.namings, key=ended):
            if naming.end is not None:
                naming.apply(names)
        remarks += differences(disk, names, disk.root, disk.folder, "")
        return remarks

    def compare_output(self, path):
        """More was printed than the log has: nobody would look for what that acknowledges."""
        is_seen = os.path.getsize(path) <= sum(len(data) for _, data in self.log.printed)
        return (
            []
            if is_seen
            else [
                "the standard output was written to in a way that wasn't seen, so a check isn't given all that was acknowledged"
            ]
        )


def ended(it):
    return it.end if it.end is not None else float("inf")


def differences(disk, names, number, real, path):
    file, found = disk.files[number], []
    if file.kind == "folder":
        inside = names.get(number, {})
        there = set(os.listdir(real)) if os.path.isdir(real) else set()
        for name in sorted(there ^ set(inside)):
            found.append(
                f"{path}{name}: {'was made' if name in there else 'was removed'} in a way that wasn't seen"
            )
        for name in sorted(there & set(inside)):
            found += differences(disk, names, inside[name], f"{real}/{name}", f"{path}{name}/")
    elif file.kind == "file" and os.path.isfile(real):
        contents, length = bytearray(file.contents), file.length
        for change in sorted(file.changes, key=ended):
            if change.end is not None:
                change.paint(contents)
                length = change.lengthen(length)
        with open(real, "rb") as there:
            if there.read() != bytes(contents[:length]).ljust(length, b"\0"):
                found.append(f"{path[:-1]}: was written in a way that wasn't seen")
    return found
