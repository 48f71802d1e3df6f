"""One crash in words: the call that repeats it, what happened up to it, and what is lost."""

import shlex
import sys

from crashing.epochs import Left
from crashing.events import COPY, MAPPED, NAMES, WRITE
from crashing.images import losses
from crashing.pictures import draw, printing
from exploring.kinds import first_line

LAST = 12  # operations


class Told:
    """What is told of a crash that was made again: of each run up to it lines, what it loses, what the check says then, and the image."""

    def __init__(self, options, crasher, example):
        self.repeat, self.lines, self.pictures = repeated(options, example.epochs), [], []
        self.example, runs = example, runs_of(crasher, example)
        for number, (run, epoch) in enumerate(zip(runs, example.epochs)):
            if number:
                self.lines.append("then what recovers from that runs")
            image = crasher.image(run, epoch.moment, epoch.left)
            whole = crasher.image(run, epoch.moment, Left("most"))
            self.lost = losses(crasher.disk, image, whole)
            self.lines += told_epoch(crasher.disk, run, epoch.moment, self.lost)
            self.pictures.append((run, epoch.moment, image, whole))
        self.image, self.run = image, run
        self.status, self.said = crasher.verdict(run, epoch.moment, epoch.left, image)
        self.first = first_line(self.said)

    def text(self):
        """As it is printed, but for what the check says."""
        return "\n".join(["", f"    {self.repeat}", "", *self.lines, "", f"status {self.status}"])

    def show(self):
        print(self.text(), flush=True)
        sys.stdout.buffer.write(self.said)
        sys.stdout.flush()

    def data(self, options):
        """The page of it is written and its data are given, if either is asked for."""
        if not options.page and not options.json:
            return None
        return draw(options, self.pictures, self.status, self.said)


def runs_of(crasher, example):
    """The run that each of its crashes ends."""
    count = len(example.epochs)
    return [crasher.run_of(example.epochs[: at + 1], example.first) for at in range(count)]


def told_epoch(disk, run, moment, lost):
    yield from (
        f"choice {at}: {what}, way {way} of 0 to {count - 1}"
        for at, way, count, what in run.choices
        if way
    )
    yield from told_operations(disk, run, moment)
    for at, data in [it for it in run.log.printed if it[0] < moment][-1:]:
        last = printing(data.rstrip(b"\n")[-200:])
        yield f"the last that was printed, in event {at + 1}: {last}"
    yield f"the power fails after event {moment}"
    yield from lost or ["nothing is lost of what was written by then"]


def told_operations(disk, run, moment):
    """The last operations before a moment, a line each."""
    begun = [it for it in run.log.operations if it.begin < moment]
    if len(begun) > LAST:
        yield f"({len(begun) - LAST} operations before)"
    for it in begun[-LAST:]:
        path = it.path[len(disk.folder) + 1 :] if it.path.startswith(disk.folder) else it.path
        what = NAMES[it.kind]
        if it.kind in (WRITE, COPY, MAPPED):
            what = f"{what} {it.nth}, {it.length} bytes at {it.offset},"
        end = (
            f"ends in {it.end + 1}{f' with {it.result}' if it.result and it.result < 0 else ''}"
            if it.end is not None and it.end < moment
            else "hasn't ended"
        )
        yield f"operation {it.number}: {what} of {path or 'the folder'} begins in event {it.begin + 1}, {end}"


def repeated(options, epochs):
    """The call that makes these crashes."""
    words = [sys.argv[0], "crash"]
    for name, value, usual in (
        ("--disk", options.disk, None),
        ("--fs", options.names, "any"),
        ("--unit", options.unit, 1),
        ("--fsync-fails", options.fsync_fails, None),
        ("--status", options.status, 0),
        ("--depth", options.depth, 1),
    ):
        if value != usual:
            words += [name, str(value)]
    words += ["--threads"] if options.threads else []
    words += ["--apart"] if options.apart else []
    words += ["--ends"] if options.ends else []
    lists = "/".join(it.policy.removeprefix("list:") for it in epochs)
    words += ["--list", lists] if lists.strip("/") else []
    words += ["--at", "/".join(str(it.moment) for it in epochs)]
    words += ["--lose", "/".join(it.left.told() for it in epochs)]
    return shlex.join([*words, *options.shown])
