"""Judges what was seen of a scenario: where the proved program is built by `uring fill`, and by a quick search, that of fill.py or by Linux's rules that of linux.py."""

import subprocess

from conforming import by_count, gaps, machines
from conforming.fill import Fill, GaveUp
from conforming.linux import BEYOND
from conforming.linux_fill import LinuxFill
from conforming.machines import NoTrace
from conforming.seen import events_of
from conforming.scenarios import Setup

MOST_HISTORIES = 500_000
KINDS = {0: "lawful", 1: "unexplained", 3: "gave up"}


class Verdict:
    """What became of a run: `lawful` with a trace, `unexplained` with the trace that comes furthest and the first completion that no history reaches (its place, or None if it is none of them), `told` with the name of what the kernel does beyond Linux's rules, `gave up`, or `differ` if the two searches don't agree."""

    def __init__(self, kind, trace="", why="", first=None):
        self.kind, self.trace, self.why, self.first = kind, trace, why, first


def quick(setup, fill, is_linux):
    """The verdict of a quick search, which isn't proved."""
    head = setup.line(is_linux) + "\n"
    try:
        steps = fill.trace()
    except GaveUp:
        return Verdict("gave up", why=f"after {len(fill.been)} states")
    if steps is None:
        why, first = fill.why()
        return Verdict(
            "unexplained", head + "\n".join([*fill.furthest_trace(), f"# {why}"]) + "\n", why, first
        )
    return Verdict("lawful", head + "\n".join(steps) + "\n")


def filled(uring, setup, events, is_linux):
    """The verdict of the proved search."""
    ran = subprocess.run(
        [*uring, "fill", "--most", str(MOST_HISTORIES)],
        input=gaps.text_of(setup, events, is_linux),
        capture_output=True,
        text=True,
    )
    if ran.returncode not in KINDS or ran.stderr:
        raise NoTrace(ran.stderr.strip() or f"uring fill ended with status {ran.returncode}")
    kind = KINDS[ran.returncode]
    return Verdict(
        kind, ran.stdout, "" if kind == "lawful" else ran.stdout.splitlines()[-1].removeprefix("# ")
    )


def told_of(setup, events, is_linux):
    """The name of what the kernel does beyond the rules, if the quick search finds a history with it, and else nothing: by Linux's rules what its cancels do, and by either the drains of a kernel that counts. It differs from the search by the rules in nothing else."""
    for names in BEYOND if is_linux else []:
        if quick(setup, LinuxFill(setup, events, names), True).kind == "lawful":
            return names[-1]
    is_counting = machines.machine is not None and by_count.counts(machines.machine.release)
    return by_count.BY_COUNT if is_counting and by_count.explains(setup, events, quick) else ""


def agreed(found, proved, told):
    """The verdict of the quick search and the proved one, and of what the kernel does beyond the rules. What no history explains is told by the quick search, which comes furthest by completions; where one gives up, the other decides, but for what differs as told."""
    if proved.kind == "gave up":
        return (
            Verdict("gave up", why=f"{proved.why}; by the quick search {told}") if told else found
        )
    if found.kind not in ("gave up", proved.kind):
        return Verdict(
            "differ",
            proved.trace,
            f"{proved.kind} by the proved search, {found.kind} by the quick one",
        )
    if proved.kind == "lawful" or found.kind == "gave up" and not told:
        return proved
    return Verdict("told", why=told) if told else found


def explain(scenario, recorded, uring=None, is_linux=False):
    """The verdict on what was recorded, by the rules of the profile or of Linux: that of both searches, if these are the words that run the proved program, and else that of the quick one."""
    setup, events = Setup(scenario), events_of(scenario, recorded)
    found = quick(setup, (LinuxFill if is_linux else Fill)(setup, events), is_linux)
    proved = filled(uring, setup, events, is_linux) if uring else found
    is_unexplained = "unexplained" in (found.kind, proved.kind)
    told = told_of(setup, events, is_linux) if is_unexplained else ""
    return agreed(found, proved, told)


def judged(uring, trace):
    """What the proved checker says of a trace: nothing if it is lawful."""
    ran = subprocess.run(
        [*uring, "check", "--results"], input=trace, capture_output=True, text=True
    )
    return "" if ran.returncode == 0 else ran.stdout + ran.stderr
