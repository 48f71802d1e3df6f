#!/usr/bin/env python3
"""What a power failure may show of calls, without proofs: written from the words of docs/PROTOCOL.md and docs/CRASHES.md, and not from the code.

    simulation/power.py [--sq N] [--files N] [--unit N] < CALLS

Writes what `uring outcomes --crash` is to write. It lets the power fail in every state that moves lead to, and tries all lists of writes for each unit of a file.
"""

import itertools
import sys

from outcomes import FSYNC, LARGEST, WRITE, Run, calls_of, completion_text


def logged(run, standing, after, logs):
    """What has happened to each file after a move: (kind, request) in order, where a write begins as w and ends as e, and a sync as s and S."""
    for n, now in enumerate(after):
        then = standing[n] if n < len(standing) else "waits"
        entry = run.entries[n]
        if now == then or entry.op not in (FSYNC, WRITE) or not 0 <= entry.fd < len(logs):
            continue
        if entry.op == WRITE and (not entry.length or entry.off + entry.length > LARGEST):
            continue
        begins, ends = ("w", "e") if entry.op == WRITE else ("s", "S")
        if now == "runs":
            event = (begins, n)
        elif then == "runs" and now == "done":
            event = (ends, n)
        else:
            continue
        logs = logs[: entry.fd] + (logs[entry.fd] + (event,),) + logs[entry.fd + 1 :]
    return logs


class Volume:
    """A file after a log: its writes, which are safe, and which had ended when another began."""

    def __init__(self, run, log):
        at = {event: time for time, event in enumerate(log)}
        never = len(log)
        self.writes = [n for kind, n in log if kind == "w"]
        self.entries = run.entries
        self.before = {
            (m, n)
            for m in self.writes
            for n in self.writes
            if at.get(("e", m), never) < at[("w", n)]
        }
        syncs = [n for kind, n in log if kind == "S"]
        self.safe = {
            w for w in self.writes if any(at.get(("e", w), never) < at[("s", s)] for s in syncs)
        }

    def lists(self, writes):
        """Each list of some of these writes that may be left."""
        for many in range(len(writes) + 1):
            for some in itertools.permutations(writes, many):
                place = {n: k for k, n in enumerate(some)}
                if any(n in self.safe and n not in place for n in writes):
                    continue
                if all(
                    m in place and place[m] < place[n]
                    for n in some
                    for m in writes
                    if (m, n) in self.before
                ):
                    yield some

    def end_of(self, n):
        return self.entries[n].off + self.entries[n].length

    def contents(self, begin, end):
        """What may be left of these bytes."""
        on = [n for n in self.writes if max(begin, self.entries[n].off) < min(end, self.end_of(n))]
        found = set()
        for some in self.lists(on):
            left = bytearray(end - begin)
            for n in some:
                for at in range(max(begin, self.entries[n].off), min(end, self.end_of(n))):
                    left[at - begin] = self.entries[n].data[at - self.entries[n].off]
            found.add(bytes(left))
        return found

    def images(self, unit):
        lengths = {max([0] + [self.end_of(n) for n in some]) for some in self.lists(self.writes)}
        for length in lengths:
            units = [
                {left[: length - begin] for left in self.contents(begin, begin + unit)}
                for begin in range(0, length, unit)
            ]
            for left in itertools.product(*units):
                yield b"".join(left)


def lines_of(text, files=2, unit=1):
    """What is to be written of these calls."""
    run = Run(calls_of(text))
    known, lines = {}, set()

    def left(log):
        if log not in known:
            known[log] = set(Volume(run, log).images(unit))
        return known[log]

    first = ((0, (), frozenset(), ((b"", 0, 0),) * files), ((),) * files, ())
    seen, todo = {first}, [first]
    while todo:
        state, logs, posted = todo.pop()
        completions = [completion_text(completion) for completion in posted] or ["none"]
        for images in itertools.product(*(left(log) for log in logs)):
            lines.add(
                ", ".join(
                    completions
                    + [
                        f"file {fd} len {len(data)} data {data.hex() or '-'}"
                        for fd, data in enumerate(images)
                    ]
                )
            )
        for after, more in run.moves(state):
            reached = (after, logged(run, state[1], after[1], logs), posted + more)
            if reached not in seen:
                seen.add(reached)
                todo.append(reached)
    return sorted(lines) + [f"crashes {len(lines)}"]


def main():
    words = sys.argv[1:]
    number = lambda name, default: int(words[words.index(name) + 1]) if name in words else default
    print("\n".join(lines_of(sys.stdin.read(), number("--files", 2), number("--unit", 1))))


if __name__ == "__main__":
    main()
