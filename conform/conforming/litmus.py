"""Runs the litmus tests of litmus/ on this machine's ring, many times each, and says which of the outcomes that the rules allow were seen, how often, and whether one was seen that they don't allow.

What may be seen is what `uring outcomes` writes; of its completions the recorder sees user data and result, and no bytes. A test with a line `# Linux: NAME` is known to differ there, for the sentence of docs/PROTOCOL.md that conforming/differences.py has under this name.
"""

import os
import subprocess
import sys
from collections import Counter

from conforming.differences import DIFFERENCES
from conforming.machines import TOP, NoTrace, record

sys.path.insert(0, f"{TOP}/litmus")
REPEAT = 20
MOST_SHOWN = 4


def told(line):
    """The completions of an outcome as the recorder tells them."""
    parts = [part.split() for part in line.split(", ")]
    return ", ".join(f"{words[1]} {words[2]}" for words in parts if words[0] == "cqe") or "none"


def that_may_be_seen(program, test):
    """What the rules allow of a test."""
    done = subprocess.run(
        [*program, "outcomes", *test.options], input=test.calls, capture_output=True, text=True
    )
    if done.returncode:
        raise NoTrace(done.stderr.strip() or f"uring outcomes ended with status {done.returncode}")
    return {told(line) for line in done.stdout.splitlines()[:-1]}


def seen_of(test):
    """What a run of a test showed."""
    scenario = (
        ("# setup " + " ".join(test.options) + "\n" if test.options else "") + test.calls + "\n"
    )
    completions = [
        line.split() for line in record(scenario).splitlines() if line.startswith("cqe ")
    ]
    return ", ".join(f"{words[1]} {words[2]}" for words in completions) or "none"


def difference_of(test):
    """Why Linux is known to differ in a test, if it is."""
    for remark in test.remarks:
        if remark.startswith("Linux: "):
            name = remark.removeprefix("Linux: ")
            if name not in DIFFERENCES:
                raise NoTrace(f"no such difference: {name}")
            return name
    return ""


def is_bad(report, program, test, repeat):
    """Says what was seen of a test, and whether something was that may not be, and isn't known to be."""
    may = that_may_be_seen(program, test)
    known = difference_of(test)
    seen = Counter(seen_of(test) for _ in range(repeat))
    within = {outcome: count for outcome, count in seen.items() if outcome in may}
    beyond = {outcome: count for outcome, count in seen.items() if outcome not in may}
    most = sorted(within.items(), key=lambda it: (-it[1], it[0]))[:MOST_SHOWN]
    report.say(
        f"{test.name}: seen {len(within)} of {len(may)}"
        + "".join(f"; {outcome} ({count} of {repeat})" for outcome, count in most)
        + ("; .." if len(within) > len(most) else "")
    )
    for outcome, count in sorted(beyond.items()):
        report.say(
            f"    {'differs as told' if known else 'MAY NOT BE SEEN'}: {outcome} ({count} of {repeat})"
            + (f": {known}" if known else "")
        )
    return bool(beyond) and not known


def run(words, report, program):
    """Runs the tests that are asked for, and returns the status."""
    if not program:
        print("conform: litmus tests take the proved program: ./uring prove", file=sys.stderr)
        return 2
    if not os.path.isdir(f"{TOP}/litmus"):
        print("conform: there are no litmus tests here", file=sys.stderr)
        return 2
    from tests import tests

    them = [test for test in tests() if not words.scenario or words.scenario in test.name]
    repeat = words.repeat if words.repeat > 1 else REPEAT
    bad = tried = 0
    for at, test in enumerate(them, 1):
        try:
            bad += is_bad(report, program, test, repeat)
            tried += 1
        except NoTrace as fault:
            report.say(f"{test.name}: not tried: {fault}")
        report.progress(at, len(them))
    report.say(
        f"litmus: {tried} of {len(them)} tests, {repeat} runs each, {bad} with what may not be seen"
    )
    return 1 if bad or not them else 0
