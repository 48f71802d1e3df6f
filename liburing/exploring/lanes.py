"""The lanes of a program's threads, for the page of a run: what its log of turns says, as lines and as states of threads."""

import re

from recorded import printing

CALL = re.compile(r"(.*\)) = (-?\d+), at \d+ ns")
CHOICE = re.compile(r"choice (\d+) is (\d+) of (\d+): (.*)")
LINE = re.compile(r"\d+: thread (\d+)(: | )(.*)")
# A page's lines are all in it.
MOST = 20000
LAST = ("exit(", "exit_group(")


class Lanes:
    """What the lines of a log make of the threads, which are the requests of the page: who runs, who waits, who could go on."""

    def __init__(self):
        self.lines, self.threads, self.running = [], [], None
        self.lane_of, self.state_of = {}, {}

    def take(self, text):
        found = LINE.fullmatch(text)
        if not found:
            self.add(text.partition(": ")[2], [])
            return
        thread, rest = int(found[1]), found[3]
        choice = CHOICE.fullmatch(rest)
        if choice:
            self.choose(thread, choice)
        elif found[2] == " ":
            self.add_of(thread, rest, "waits")
        else:
            self.add_of(thread, rest, "runs")

    def choose(self, thread, choice):
        """A turn is a line of its own, since a lock may make no call; a ring's choice belongs to the step before it."""
        told = {
            "choice": int(choice[1]),
            "way": int(choice[2]),
            "of": int(choice[3]),
            "what": printing(choice[4].encode()),
        }
        if choice[4].startswith("thread ") and thread in self.lane_of:
            self.add_of(thread, choice[4].split(" ", 2)[2], self.state_of.get(thread, "runs"))
        self.lines[-1].setdefault("choices", []).append(told)

    def add_of(self, thread, text, state):
        """A line of a thread, which has run until then."""
        changes = self.turn_to(thread)
        lane, call = self.lane_of[thread], CALL.fullmatch(text)
        if state == "runs" or self.state_of.get(thread) != state:
            changes.append({"request": lane, "is": state, "why": call[1] if call else text})
        self.state_of[thread] = state
        if text.startswith(LAST):
            changes.append({"request": lane, "is": "ended", "result": 0})
            del self.lane_of[thread], self.state_of[thread]
            self.running = None
        self.add(f"thread {thread}: {call[1] if call else text}", changes, call and call[2])
        if state == "waits":
            self.running = None

    def turn_to(self, thread):
        """This thread runs: another one that did could go on."""
        changes = []
        if thread not in self.lane_of:
            self.lane_of[thread] = len(self.threads)
            self.threads.append(thread)
            changes.append({"request": self.lane_of[thread], "is": "accepted"})
        if self.running not in (None, thread):
            changes.append(
                {"request": self.lane_of[self.running], "is": "ready", "why": "could go on"}
            )
        self.running = thread
        return changes

    def add(self, text, changes, answer=None):
        line = {"line": len(self.lines) + 1, "text": printing(text.encode())}
        line["answer"] = "" if answer is None else answer
        if changes:
            line["changes"] = changes
        self.lines.append(line)

    def requests(self):
        return [
            {
                "request": lane,
                "user_data": f"thread {thread}",
                "operation": "thread",
                "told": "again" if thread in self.threads[:lane] else "",
                "flags": "",
                "call": 0,
                "chain": lane,
            }
            for lane, thread in enumerate(self.threads)
        ]


def lanes_of(log):
    """The data of a run's threads, by its log of turns."""
    lanes, texts = Lanes(), log.splitlines()
    for text in texts[:MOST]:
        lanes.take(text)
    if len(texts) > MOST:
        lanes.add(f"and {len(texts) - MOST} more lines", [])
    return {
        "setup": {"sq": 0, "cq": 0, "start": 0, "stops": False},
        "headings": ["threads"],
        "lines": lanes.lines,
        "requests": lanes.requests(),
    }
