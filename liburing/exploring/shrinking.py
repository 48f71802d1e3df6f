"""Makes a failing run short, and prints a run as one reads it."""

import os
import re
import sys

from exploring.lines import places_of
from exploring.runs import Policies, list_of, replay_line, stop
from exploring.traces import URING

# How a choice begins by which time passes.
TIME = "time passes", "the wait's time"
# By how many numbers choices are moved at most, if it isn't by as many as one finds.
MOST_MOVED = 4
POLICY = re.compile(r"order|lazy|seed:\d+|pct:\d+:\d+(:\d+)?|list:(\d+(=\d+)?(,\d+(=\d+)?)*)?")


def shortest(program, items, beside=(), is_over=lambda: False):
    """Leaves choices out, so that they are made in order, as long as the run still fails with those beside, and there is time."""
    size = max(1, len(items) // 2)
    while True:
        at = 0
        while at < len(items) and not is_over():
            fewer = items[:at] + items[at + size :]
            run = program.run(list_of(sorted([*fewer, *beside])))
            if run.fails():
                # (what the run didn't come to, or couldn't do, isn't needed either)
                items = [it for it in run.items() if it in fewer]
            else:
                at += size
        if size == 1 or is_over():
            return items
        size //= 2


def least(program, items, is_over=lambda: False):
    """The same, also where those after a choice have other numbers once it is left out."""
    while True:
        fewer = shortest(program, items, (), is_over)
        if len(fewer) == len(items):
            fewer = without_one(program, items, is_over)
        if fewer is None:
            return items
        items = fewer


def without_one(program, items, is_over):
    """Leaves one choice out, and moves those after it to other numbers, so that the run still fails; None if that can't be."""
    for place in range(len(items) - 1):
        if is_over():
            break
        for fewer in moved_lists(program, items[:place], items[place], items[place + 1 :]):
            run = program.run(list_of(fewer))
            if run.fails():
                return [it for it in run.items() if it in fewer]
    return None


def moved_lists(program, before, item, after):
    """The lists to be tried without a choice. Those after it are moved by as many choices as a run that goes on in order makes more without it than with it, and then by a few."""
    without, with_it = (len(program.run(list_of(it)).choices) for it in (before, [*before, item]))
    few = (by for size in range(1, MOST_MOVED + 1) for by in (-size, size))
    for by in dict.fromkeys([without - with_it, *few]):
        moved = [(at + by, way) for at, way in after]
        if by and moved[0][0] > (before[-1][0] if before else -1):
            yield before + moved


def without_times(program, run):
    """The choices of a failing run, without those by which time passes that aren't needed."""
    times = [(at, way) for at, way, _, what in run.choices if way and what.startswith(TIME)]
    others = [it for it in run.items() if it not in times]
    return sorted([*shortest(program, times, others), *others]) if times else others


def need_uring(options):
    """A page takes the program `uring`: without it nothing is run."""
    if (options.page or options.json) and not os.path.exists(URING):
        stop(f"a page takes the program uring, and {URING} isn't there: ./uring prove")


def shrink(options, program):
    need_uring(options)
    if options.seed.isdecimal():
        policy, name = (
            Policies(program, options.policy).of(int(options.seed)),
            f"seed {options.seed}",
        )
    elif POLICY.fullmatch(options.seed):
        policy = name = options.seed
    else:
        stop(f"{options.seed}: a seed is wanted, or a policy as seed:7 or pct:7:2")
    run = program.run(policy)
    if not run.fails():
        print(f"{name} doesn't fail")
        return 2
    items = run.items()
    if not program.run(list_of(items)).fails():
        print(
            f"{name} fails, and its list of choices doesn't: the program doesn't do the same in each run"
        )
        return 2
    before, items = len(run.choices), without_times(program, run)
    items = least(program, items)
    if not program.run(list_of(items)).fails():
        print(
            f"{name} fails, and the list that is left passes when it is run again: the program doesn't do the same in each run"
        )
        return 2
    enough = (
        f"{name} made {before} choices; {len(items)} {'is' if len(items) == 1 else 'are'} enough"
    )
    print(f"{enough}:\n")
    return print_run(options, program, list_of(items), enough)


def show(options, program):
    need_uring(options)
    policy = (
        options.list
        if ":" in options.list or options.list in ("order", "lazy")
        else "list:" + options.list
    )
    if not POLICY.fullmatch(policy):
        stop(f"{options.list}: a list of choices is wanted, as 3=1,7=2, or a policy")
    return print_run(options, program, policy, f"the run by {policy}")


def print_run(options, program, policy, title):
    """Prints a run: the choices that aren't in order, then what happened on each ring. Draws it too, if a page is asked for."""
    run = program.run(policy, is_tracing=True)
    print(f"    {replay_line(program, run)}\n")
    for at, way, count, what in run.choices:
        if way:
            print(f"choice {at}: {what}, way {way} of 0 to {count - 1}")
    for index, trace in enumerate(run.traces):
        print(f"\nring {index}:")
        for line in trace.splitlines():
            print_line(line)
    print(f"\nstatus {run.status}")
    sys.stdout.flush()
    sys.stdout.buffer.write(run.output)
    sys.stdout.flush()
    if options.page or options.json:
        from exploring.pictures import draw

        draw(options, program, run, title)
    return 1 if run.fails() else 0


def print_line(line):
    if line.startswith("# called from "):
        places = places_of(line[len("# called from ") :])
        if places:
            print(f"    submitted at {', from '.join(places)}")
    elif line.startswith("# "):
        is_plain = line.startswith("# choice ") and " is 0 of " in line
        if not is_plain:
            print("    " + line[2:])
    elif line.startswith("begin "):
        print("call")
    elif line.endswith(" = not ready"):
        print("    refused: it isn't ready")
    elif line.startswith("reap "):
        print("    the application reaps " + line.split(" = cqe ")[1].split(" ")[0])
