"""Tells failures by their kinds, each once, with an example that was made short."""

import sys
import time

from crashing.crasher import Crasher
from crashing.kept import keep
from crashing.kinds import key_of, kinds_of, names_of
from crashing.shortening import shortened
from crashing.showing import Told, runs_of
from exploring.kinds import first_line


class Example:
    """A kind with what is told of it."""

    def __init__(self, kind, told, crasher):
        self.failure, self.count, self.told, self.kept = kind.failure, kind.count, told, kind.kept
        self.failure.first = first_line(self.failure.said)
        self.is_over = crasher.is_over()
        if told:
            # (by what the example loses, and what the check says of it)
            self.failure.said = told.said
            self.failure.lost = names_of(crasher.disk, told.run, told.example.last.left.losses)


def tell_kinds(options, failures, report, run):
    """All of them take so many seconds at most, and each tells what it has by then."""
    crasher, end = Crasher(options), time.monotonic() + options.shorten
    try:
        found, kinds = {}, kinds_of(failures)
        for left, kind in zip(range(len(kinds), 0, -1), kinds):
            now = time.monotonic()
            crasher.deadline = now + max(0, end - now) / left
            it = shorten(options, crasher, kind, run)
            key = key_of(it.failure)
            if key in found:
                found[key].count += it.count
            else:
                found[key] = it
        for number, it in enumerate(found.values()):
            tell(options, it, (number + 1, len(found)) if options.keep_going else None)
            kept = keep_one(options, crasher, it) if options.keep else None
            report.add_kind(it.count, it.told, it.failure, kept)
            if it.told and report.data is None:
                report.data = it.told.data(options)
    finally:
        crasher.close()


def shorten(options, crasher, kind, run):
    example = shortened(options, crasher, kind.failure, run)
    return Example(kind, Told(options, crasher, example) if example else None, crasher)


def tell(options, it, place):
    failure = it.failure
    if place:
        lost = ", ".join(failure.lost) or "nothing"
        print(
            f"\nkind {place[0]} of {place[1]}, {it.count} crashes: {failure.first or 'the check says nothing'}; lost: {lost}"
        )
    how = {"list:": "in order"}.get(failure.policy, failure.policy)
    crash = f"after event {failure.moment}, status {failure.status}"
    where = f"recovery {len(failure.epochs)}" if failure.epochs else f"run {how}"
    print(f"a crash fails: {where}, {crash}", flush=True)
    if not it.told:
        print("that isn't so if it is made again: the program doesn't do the same in each run")
        sys.stdout.flush()
        sys.stdout.buffer.write(failure.said)
        return
    if failure.items and not failure.epochs:
        enough = len(it.told.run.items())
        print(
            f"the run made {failure.choices} choices; {enough} {'is' if enough == 1 else 'are'} enough"
        )
    if it.is_over:
        print("the time was over before it was as short as it goes (--shorten SECONDS)")
    it.told.show()


def keep_one(options, crasher, it):
    """The crash that is told; of one that can't be made again that which was found."""
    text, told = it.failure.said, it.told
    if told:
        logs = [run.log.data for run in runs_of(crasher, told.example)]
        printed = told.run.printed(told.example.last.moment)
        text = f"{told.text().lstrip()}\n".encode(errors="surrogateescape") + told.said
        folder = keep(options, crasher, told.image, printed, logs, text)
    else:
        image, printed, data = it.kept
        folder = keep(options, crasher, image, printed, [data], text)
    print(f"kept in {folder}: ./replay there asks the check again", flush=True)
    return folder
