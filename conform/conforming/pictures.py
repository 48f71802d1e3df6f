"""The page of a run: what was seen, beside the history that explains it, or the one that comes furthest."""

import os
import platform
import sys
from collections import Counter

from conforming.requests import Requests
from conforming.seen import item_of, statements_of
from conforming.scenarios import Setup

sys.path.insert(
    0,
    os.path.join(
        os.path.dirname(os.path.dirname(os.path.dirname(os.path.realpath(__file__)))), "page"
    ),
)
from parts import write  # noqa: E402
from recorded import Differs, explained, fields_of  # noqa: E402

HOLD = "hold: a read of an empty pipe"


def data_of(uring, outcomes, kernel="a kernel"):
    """The data of a page of these outcomes, each a group of one run or two. A scenario's second run has its number in the group's name."""
    runs, counts = [], Counter()
    for outcome in outcomes:
        name = outcome.scenario.name
        counts[name] += 1
        seen = Seen(outcome)
        group = [seen.run()]
        history = history_of(uring, outcome)
        if history:
            put_beside(seen, history)
            group.append(history)
        runs += [
            {"group": name if counts[name] == 1 else f"{name}, run {counts[name]}", **run}
            for run in group
        ]
    return {
        "form": 2,
        "title": f"What {kernel} did",
        "told": "each scenario as it was seen, beside a history that the rules allow",
        "runs": runs,
    }


def faulty_fields(kind, operation):
    return {"operation": operation, "told": f"{operation}, with a fault: {kind}"}


class Seen:
    """What the recorder wrote, as the data of a run: a request is hidden from the call that took it until its completion is seen."""

    def __init__(self, outcome):
        self.outcome, self.setup = outcome, Setup(outcome.scenario.text)
        self.statements = statements_of(outcome.scenario.text)
        self.lines, self.requests, self.staged, self.taken, self.calls, self.completions = (
            [],
            [],
            [],
            0,
            0,
            0,
        )
        self.waiting, self.places = {}, {}

    def run(self):
        for words in (it.split() for it in self.outcome.seen.splitlines()):
            getattr(self, f"see_{words[0]}")(*words[1:])
        setup = {"sq": self.setup.sq, "cq": self.setup.cq, "start": 0, "stops": self.setup.is_stop}
        it = self.outcome
        return {
            "form": 1,
            "name": "what was seen",
            "told": f"{it.kind}: {it.why}" if it.why else it.kind,
            "setup": setup,
            "lines": self.lines,
            "requests": self.requests,
        }

    def add(self, kind, text, answer=None, **more):
        """Adds a line, with those of its members that there are. Of a kind that a history has too, it is kept which line that is."""
        line = {"line": len(self.lines) + 1, "text": text, "answer": answer, **more}
        self.lines.append({name: it for name, it in line.items() if it is not None and it != []})
        self.places.setdefault(kind, []).append(self.lines[-1])

    def see_call(self, asked, returned, head, dropped):
        for text in next(self.statements, []):
            self.staged.append(text)
            self.add("bad" if text.startswith("bad") else "fill", text)
        items = [(text, item_of(text.split())) for text in self.staged[self.taken : int(head)]]
        entries = [(text, it) for text, it in items if not isinstance(it, int)]
        changes = self.accept(entries) if entries else []
        is_told = self.taken != int(head) or int(returned) >= 0
        self.taken = int(head)
        self.add(
            "tail" if is_told else "refused",
            f"call {asked}",
            f"returned {returned} head {head} dropped {dropped}",
            changes=changes,
            sq_tail=len(self.staged),
            sq_head=self.taken,
        )

    def accept(self, entries):
        """The changes by a call that took these."""
        first = len(self.requests)
        groups = Requests().accepted([it for _, it in entries]).groups
        chains = {first + number: first + group[0] for group in groups for number in group}
        for number, (text, entry) in enumerate(entries, first):
            fields = (
                {"operation": "hold", "told": HOLD}
                if entry.is_hold
                else faulty_fields(*text.split()[1:3])
                if entry.name == "fault"
                else fields_of(text.split())
            )
            self.requests.append(
                {
                    "request": number,
                    "user_data": str(entry.user_data),
                    **fields,
                    "flags": entry.flags,
                    "call": self.calls,
                    "chain": chains[number],
                }
            )
            self.waiting.setdefault(entry.user_data, []).append(number)
        self.calls += 1
        numbers = range(first, first + len(entries))
        return [{"request": it, "is": "accepted"} for it in numbers] + [
            {"request": it, "is": "hidden", "why": "on its way, unseen"} for it in numbers
        ]

    def see_tail(self, word):
        self.add("cqtail", "look", f"tail {word}", cq_tail=int(word), cq_tail_seen=int(word))

    def see_cqe(self, user_data, result):
        numbers = self.waiting.get(int(user_data))
        changes = []
        if numbers:
            number = numbers.pop(0)
            changes = [
                {"request": number, "is": "ended", "result": int(result)},
                {"request": number, "is": "reaped"},
            ]
        wrong = self.outcome.why if self.completions == self.outcome.first else None
        self.completions += 1
        self.add("reap", "reap", f"cqe {user_data} {result}", changes=changes, wrong=wrong)

    def see_head(self, word):
        self.add("cqhead", "cqhead", f"head {word}", cq_head=int(word))

    def see_events(self):
        self.add("events", "events")

    def see_released(self, user_data):
        self.add("release", f"release {user_data}")


def history_of(uring, outcome):
    """The data of the history, with the reasons of the proved program; nothing if it has no line."""
    lines = [
        tuple(it.split(" = ", 1)) for it in outcome.trace.splitlines() if not it.startswith("#")
    ]
    if not lines:
        return None
    fills = [step.split()[2:] for step, _ in lines if step.startswith("fill ")]
    ends = [
        (int(step.split()[1]), int(answer.split()[1]))
        for step, answer in lines
        if step.startswith("finish ")
    ]
    failed = {number for number, result in ends if not item_of(fills[number]).is_success(result)}
    try:
        run = explained(uring, Setup(outcome.scenario.text).options, lines, failed)
    except Differs as why:
        raise SystemExit(f"conform: {outcome.scenario.name}: {why}") from why
    del run["setup"]["files"]
    holds = {
        int(words[1])
        for words in (it.split() for it in outcome.scenario.text.splitlines())
        if words and words[0] == "hold"
    }
    for request in run["requests"]:
        if int(request["user_data"]) in holds:
            request.update(operation="hold", told=HOLD)
    name, told = (
        ("a history that shows the same", "lawful")
        if outcome.is_explained()
        else ("the history that comes furthest", outcome.why)
    )
    return {**run, "name": name, "told": told}


def put_beside(seen, history):
    """Says which line of the one stands beside which of the other: the n-th item, call, look, completion and stored head are the n-th fill, tail, look, reap and stored head there. Beside a call stands where it ends there."""
    places, last = {kind: iter(lines) for kind, lines in seen.places.items()}, None
    for line in history["lines"]:
        kind = line["text"].split()[0]
        if kind in ("fill", "tail", "cqtail", "reap", "cqhead"):
            last = next(places.get(kind, iter(())), last)
            line["beside"], last["beside"] = last["line"], line["line"]
        elif kind == "end":
            last["beside"] = line["line"]


def draw(uring, outcomes, page, other):
    """Writes the page, and its data, of what is unexplained first."""
    write(
        data_of(
            uring, sorted(outcomes, key=lambda it: it.is_explained()), f"Linux {platform.release()}"
        ),
        page,
        other,
    )
