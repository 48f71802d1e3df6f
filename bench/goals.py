"""The goals of speed and memory: what was measured beside each, whether it is met, and why one is missed."""

from dataclasses import dataclass

# The steps of the path whose goal is 1.2 times the unproved program's, in rounds of 64.
STEPS = "fill index tail begin take head issue finish cqtail reap cqhead flush".split()

SHELL = "each step and each answer is 136 bytes, and is copied once for each layer that it passes"
SETS = "whoever asks for the next request gets it at once, and for that a step keeps two sets of numbers up to date, which the unproved program lacks: it searches"
COPIES = "an entry is checked for its faults and kept whole (128 bytes, and its operation beside it), where the unproved program keeps its user data, flags and operation"
# Why a goal is missed, where it is; by the names of `steps`, `path` and the others below.
REASONS = {
    "path": f"its steps: {SHELL}; {SETS}",
    "end": f"{SETS}; {COPIES}",
    "issue": SETS,
    "finish": f"{SETS}; the slab gives back the whole request",
    "fill": f"{SHELL}, and an entry goes from the step into its slot by one copy more",
    "begin": "it asks for the memory of the whole call at once, for each of five lists; the unproved program asks as it goes, and ends if memory is refused",
    "whole": "of a no-op, an issue and a finish stay calls of their own, each some 330 instructions dearer through C than in Rattle",
    "cancel": "the first cancel notes the user data of all that were accepted since the last one",
    "plays": "a play keeps its whole trace, since its report promises that: an event takes 40 bytes, and an entry 128 more",
    "rates": "two threads at least hand each request over twice, each turn of the dispatcher is written into the trace, and threads that wait spin",
}


@dataclass
class Goal:
    """A number that was measured, and the most, or the least if `is_least`, that it is to be."""

    name: str
    measured: float
    limit: float
    reason: str
    unit: str = "times"
    is_least: bool = False

    def is_met(self):
        return self.measured >= self.limit if self.is_least else self.measured <= self.limit

    def row(self):
        bound = "at least" if self.is_least else "at most"
        shown = f"{self.measured:,.0f}" if self.measured >= 100 else f"{self.measured:.2f}"
        verdict = "met" if self.is_met() else f"missed: {REASONS.get(self.reason, SHELL)}"
        return f"| {self.name} | {bound} {self.limit:,g} {self.unit} | {shown} | {verdict} |"


def table(goals):
    """The goals as lines of a table."""
    met = sum(goal.is_met() for goal in goals)
    heads = [
        "",
        f"Goals: {met} of {len(goals)} are met.",
        "",
        "| what | goal | measured | |",
        "|---|---|---:|---|",
    ]
    return [*heads, *[goal.row() for goal in goals]]


def of_steps(ratio):
    """The goals of the steps, by the ratio of a measure in the proved and the unproved program."""
    paths = [
        Goal(f"the full path, ring of {size:,}", ratio(f"path_{size}_all"), 1.1, "path")
        for size in (1, 8, 64, 4096)
    ]
    steps = [Goal(f"`{kind}`", ratio(f"accepted_1024_{kind}"), 1.2, kind) for kind in STEPS]
    return [*paths, *steps, Goal("`end`", ratio("accepted_1024_end"), 1.3, "end")]


def of_cancels(nanoseconds):
    """Whether a cancel beside 4,096 that run takes what it takes beside 16."""
    grown = nanoseconds("cancel_4096_issue") / nanoseconds("cancel_16_issue")
    return [Goal("a cancel beside 4,096 that run, of one beside 16", grown, 1.3, "cancel")]
