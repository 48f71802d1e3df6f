"""The power fails in runs of a program, and a check looks at what is left: until one fails, which is then made short and told; or in all crashes, whose failures are told by kinds."""

import contextlib
import os
import shutil
import sys
import tempfile
import time

from crashing.crasher import EACH, Crasher, plan
from crashing.epochs import Left, read_epochs
from crashing.images import image_of
from crashing.remarks import Remarks
from crashing.report import Report
from crashing.runs import PRELOADED, TURNING, Run
from crashing.shortening import Example
from crashing.showing import Told
from crashing.telling import tell_kinds
from crashing.volumes import LIBRARY
from crashing.workers import answers
from exploring.ending import adopt, children, end_adopted
from exploring.runs import Stopped, priorities, stop, told_error
from exploring.serving import ROOM

CHUNK = 50  # crashes that are given away at once, where runs don't differ
DEPTHS = 3


crasher = shared = None


def begin_worker(options):
    global crasher
    adopt()
    crasher = Crasher(options)


def work(task):
    """A run of its own with some crashes, or some crashes of the run that all share."""
    policy, specs, count, seed = task
    before, crasher.remarks = (crasher.crashes, len(crasher.known), crasher.passed), []
    run = Run(crasher.options, policy) if policy else shared
    if crasher.options.all:
        found = crasher.crash_all(run)
    else:
        found = crasher.crash(run, specs or plan(run, count, seed))
    return (
        found,
        crasher.crashes - before[0],
        len(crasher.known) - before[1],
        (policy, run.status, run.last_lines(), run.remarks, crasher.remarks),
        crasher.passed - before[2],
    )


def tasks(options, run):
    """Where the program chooses, runs by different seeds with a few crashes each; else crashes of the one run."""
    if options.list is not None or not run.choices:
        if options.all:
            return [(None, None, 0, 0)]
        specs = sorted(plan(run, options.crashes, options.first))
        return [
            (None, specs[at :: -(-len(specs) // CHUNK)], 0, 0)
            for at in range(-(-len(specs) // CHUNK))
        ]
    each = options.each or EACH
    return [
        (
            policy_of(options, seed, len(run.choices)),
            None,
            min(each, options.crashes - at * each),
            seed,
        )
        for at, seed in enumerate(range(options.first, options.first + -(-options.crashes // each)))
    ]


def policy_of(options, seed, choices):
    """The first run is in order; then choices are rolled and by priorities, in turn."""
    if seed == 1:
        return "list:"
    if options.policy == "pct" or (options.policy == "both" and seed % 2 == 0):
        return priorities(seed, 1 + (seed // 2) % DEPTHS, max(1, choices))
    return f"seed:{seed}"


def crash(options, program):
    """The command: all that it makes lies in one folder, which is removed at its end."""
    report = Report(options)
    try:
        report.status = crash_in_a_place(options, report)
    except Stopped as why:
        report.status, report.stopped = 2, why.message
        raise
    except OSError as error:
        report.status, report.stopped = 2, told_error(error)
        raise
    except KeyboardInterrupt:
        report.stopped = "it was interrupted"
        raise
    finally:
        report.write()
    return report.status


def crash_in_a_place(options, report):
    split_words(options)
    options.place, others = tempfile.mkdtemp(prefix="wulgach-crash-", dir=ROOM), children()
    adopt()
    try:
        return crash_in_place(options, report)
    finally:
        # (what workers ran that were ended)
        end_adopted(others)
        shutil.rmtree(options.place, ignore_errors=True)


def crash_in_place(options, report):
    global shared
    run = shared = Run(options, "list:" + (options.list or "").split("/")[0])
    look_at(options, run)
    report.remarks = Remarks(options.status, run)
    if options.at is not None:
        return max(repeat(options, report), 1 if report.remarks.told else 0)
    failures, begun = crash_all_runs(options, run, report), time.monotonic()
    seconds = max(begun - report.begun, 1e-9)
    more = f"; {report.passed} moments have more than {options.most} images" * bool(report.passed)
    print(
        f"{report.crashes} crashes, {report.checked} checked: {len(failures)} fail; {report.crashes / seconds:.0f} a second{more}{report.remarks.in_short()}",
        flush=True,
    )
    if failures:
        tell_kinds(options, failures if options.keep_going else failures[:1], report, run)
    return 1 if failures or report.remarks.told or report.passed else 0


def crash_all_runs(options, run, report):
    """The failures, in the order in which they are found: until one is, if not all are wanted."""
    failures = []
    with contextlib.closing(
        answers(tasks(options, run), options.jobs, lambda: begin_worker(options), work)
    ) as answered:
        for found, count, different, ended, passed in answered:
            report.remarks.add(*ended)
            report.runs += 1
            report.crashes += count
            report.checked += different
            report.passed += passed
            failures += found
            report.failures = len(failures)
            if failures and not options.keep_going:
                break
            if options.time and time.monotonic() - report.begun > options.time:
                break
    return failures


def repeat(options, report):
    """The one crash that the options name, told."""
    epochs = read_epochs(options.list, options.at, options.lose)
    options.depth = max(options.depth, len(epochs) - 1)
    if len(epochs) > 1 and not options.recover:
        stop("--at names a crash of what recovers: crash wants PROGRAM.. -- RECOVER.. -- CHECK..")
    own = Crasher(options)
    try:
        run = own.run_of(epochs, shared)
        look_for_losses(run, epochs[-1])
        told = Told(options, own, Example(epochs, run, shared))
    finally:
        own.close()
    told.show()
    report.data = told.data(options)
    report.crashes = report.checked = 1
    return 1 if told.status != 0 else 0


def look_for_losses(run, epoch):
    """(a run that isn't the same each time may have other events)"""
    if epoch.moment > run.log.count:
        stop(f"--at {epoch.moment}: the run has {run.log.count} events")
    for number in (it[0] for it in epoch.left.losses):
        if number >= len(run.log.operations):
            stop(f"--lose {number}: the run has {len(run.log.operations)} operations, from 0 on")


def split_words(options):
    """PROGRAM.. -- CHECK.., or PROGRAM.. -- RECOVER.. -- CHECK.."""
    parts, words = [[]], options.words
    for word in words:
        parts.append([]) if word == "--" else parts[-1].append(word)
    if len(parts) not in (2, 3) or not all(parts):
        stop("crash wants PROGRAM.. -- CHECK.., or PROGRAM.. -- RECOVER.. -- CHECK..")
    options.shown = words
    options.words, *recover, options.check = ([real(it[0]), *it[1:]] for it in parts)
    options.recover = recover[0] if recover else None
    if options.disk is not None and not os.path.isdir(options.disk):
        stop(f"--disk {options.disk}: there is no such folder")
    if options.keep:
        os.makedirs(options.keep, exist_ok=True)
    if options.threads:
        needed = TURNING, "out/uring-threads.so"
    else:
        needed = PRELOADED, "out/uring-run.so"
    for path, target in (needed, (LIBRARY, "out/volumes.so")):
        if not os.path.exists(path):
            stop(f"{path} isn't there: make -C liburing {target}")


def real(word):
    return os.path.abspath(word) if "/" in word else word


def look_at(options, run):
    if not run.log.operations:
        sys.stdout.buffer.write(run.last_lines())
        stop(
            f"{options.words[0]} did nothing to files below its disk (status {run.status}): it runs in that folder, which DISK names too"
        )
    if options.at is not None:
        return
    own, disk, left = Crasher(options), run.begin(), Left("most")
    disk.advance(run.log.count)
    status, said = own.verdict(run, run.log.count, left, image_of(disk, left.chosen()))
    own.close()
    if status != 0:
        sys.stdout.buffer.write(run.last_lines() + said)
        stop(
            f"the check fails (status {status}) where nothing is lost and the run has ended (status {run.status})"
        )
