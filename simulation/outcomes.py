#!/usr/bin/env python3
"""Everything that calls may come to, without proofs: written from the words of docs/PROTOCOL.md, and not from the code.

    simulation/outcomes.py [--sq N] [--files N] [--results] [--contents] < CALLS

Writes what `uring outcomes` is to write. It tries every move from every state, and remembers what a state comes to.
"""

import sys

NOP, FSYNC, CANCEL, READ, WRITE = 0, 3, 14, 22, 23
DRAIN, LINK, HARD, ASYNC, SKIP = "D", "L", "H", "A", "S"
LARGEST = 65536


class Entry:
    """An entry: its operation, its user data, its flags, and what the operation takes."""

    def __init__(
        self, op, user_data, flags, fd=0, off=0, length=0, data=b"", target=0, is_all=False
    ):
        self.op, self.user_data, self.flags = op, user_data, "" if flags == "-" else flags
        self.fd, self.off, self.length, self.data, self.target, self.is_all = (
            fd,
            off,
            length,
            data,
            target,
            is_all,
        )

    def has_fault(self):
        if self.op not in (NOP, FSYNC, CANCEL, READ, WRITE) or self.length > 64:
            return True
        return self.op in (READ, WRITE) and self.off == 2**64 - 1

    def links(self):
        return LINK in self.flags or HARD in self.flags

    def is_soft(self):
        return LINK in self.flags and HARD not in self.flags

    def is_success(self, result):
        if self.op in (READ, WRITE):
            return result == self.length
        if self.op == CANCEL and self.is_all:
            return result >= 0
        return result == 0


def entry_of(line):
    """The entry of a line, or None for a word that names no slot."""
    words = line.split(" ")
    name, rest = words[0], words[1:]
    if name == "bad":
        return None
    if name == "op":
        return Entry(int(rest[0]), int(rest[1]), rest[2])
    user_data, flags, more = int(rest[0]), rest[1], rest[2:]
    if name == "nop":
        return Entry(NOP, user_data, flags)
    if name == "fsync":
        return Entry(FSYNC, user_data, flags, fd=int(more[0]))
    if name == "read":
        return Entry(READ, user_data, flags, int(more[0]), int(more[1]), int(more[2]))
    if name == "write":
        data = b"" if more[2] == "-" else bytes.fromhex(more[2])
        return Entry(WRITE, user_data, flags, int(more[0]), int(more[1]), len(data), data)
    if name in ("cancel", "cancelall"):
        return Entry(CANCEL, user_data, flags, target=int(more[0]), is_all=name == "cancelall")
    raise ValueError(line)


def calls_of(text):
    calls, call = [], []
    for line in text.split("\n") + [""]:
        if line:
            call.append(entry_of(line))
        elif call:
            calls.append(call)
            call = []
    return calls


class Run:
    """The requests of all calls, with their groups: all are known beforehand, and accepted call by call."""

    def __init__(self, calls):
        self.entries, self.group_of, self.ends = [], [], []
        group = 0
        for call in calls:
            entries = [entry for entry in call if entry is not None]
            for entry in entries:
                self.entries.append(entry)
                self.group_of.append(group)
                if not entry.links():
                    group += 1
            if entries and entries[-1].links():
                group += 1
            self.ends.append(len(self.entries))
        self.drains = {
            self.group_of[n] for n, entry in enumerate(self.entries) if DRAIN in entry.flags
        }
        self.faulty = {
            self.group_of[n] for n, entry in enumerate(self.entries) if entry.has_fault()
        }

    def is_doomed(self, state, n):
        _, standing, chosen, _ = state
        if self.group_of[n] in self.faulty or n in chosen:
            return True
        return any(
            standing[m] == "failed" and self.entries[m].is_soft()
            for m in range(n)
            if self.group_of[m] == self.group_of[n]
        )

    def may_start(self, state, n):
        """Whether n waits for nobody."""
        standing, own = state[1], self.group_of[n]
        for m in range(len(standing)):
            if standing[m] in ("done", "failed"):
                continue
            other = self.group_of[m]
            if (
                other == own
                and m < n
                or other < own
                and (own in self.drains or other in self.drains)
            ):
                return False
        return True

    def cancelled(self, state, n):
        """What a cancel ends with, and whom it chooses."""
        _, standing, _, _ = state
        entry = self.entries[n]
        named = [
            m
            for m in range(len(standing))
            if m != n
            and standing[m] in ("waits", "runs")
            and self.entries[m].user_data == entry.target
            and not self.is_doomed(state, m)
        ]
        if entry.is_all:
            targets = [m for m in named if standing[m] == "waits"]
            return len(targets), targets
        if not named:
            return -2, []
        return (-114, []) if standing[named[0]] == "runs" else (0, named[:1])

    def carried_out(self, files, entry):
        """What an operation ends with, its bytes, and the files after it."""
        if entry.op == NOP:
            return 0, b"", files
        if not 0 <= entry.fd < len(files):
            return -9, b"", files
        data, writes, synced = files[entry.fd]
        if entry.op == READ:
            read = data[entry.off : entry.off + entry.length] if entry.off < len(data) else b""
            return len(read), read, files
        if entry.op == FSYNC:
            return 0, b"", self.with_file(files, entry.fd, (data, writes, writes))
        if entry.length and entry.off + entry.length > LARGEST:
            return -27, b"", files
        if entry.length:
            data = data.ljust(entry.off, b"\0")
            data = data[: entry.off] + entry.data + data[entry.off + entry.length :]
        return entry.length, b"", self.with_file(files, entry.fd, (data, writes + 1, synced))

    def with_file(self, files, fd, file):
        return files[:fd] + (file,) + files[fd + 1 :]

    def ended(self, state, n, result, data, chosen, files):
        """The state after an end, and what it posts."""
        taken, standing, before, _ = state
        entry = self.entries[n]
        is_success = entry.is_success(result)
        standing = standing[:n] + ("done" if is_success else "failed",) + standing[n + 1 :]
        posted = () if is_success and SKIP in entry.flags else ((entry.user_data, result, data),)
        return (taken, standing, before | frozenset(chosen), files), posted

    def moves(self, state):
        taken, standing, chosen, files = state
        if taken < len(self.ends):
            more = self.ends[taken] - len(standing)
            yield (taken + 1, standing + ("waits",) * more, chosen, files), ()
        for n, stands in enumerate(standing):
            entry = self.entries[n]
            if stands == "runs":
                result, data, after = self.carried_out(files, entry)
                yield self.ended(state, n, result, data, (), after)
            elif stands == "waits" and self.is_doomed(state, n):
                yield self.ended(state, n, -22 if entry.has_fault() else -125, b"", (), files)
            elif stands == "waits" and self.may_start(state, n):
                if entry.op == CANCEL:
                    result, targets = self.cancelled(state, n)
                    yield self.ended(state, n, result, b"", targets, files)
                else:
                    yield (taken, standing[:n] + ("runs",) + standing[n + 1 :], chosen, files), ()


def outcomes(calls, count):
    """All that these calls may come to, with so many files: pairs of completions and files."""
    run = Run(calls)
    known = {}

    def from_here(state):
        if state not in known:
            found = set()
            is_over = True
            for after, posted in run.moves(state):
                is_over = False
                found.update((posted + later, files) for later, files in from_here(after))
            known[state] = {((), state[3])} if is_over else found
        return known[state]

    return from_here((0, (), frozenset(), ((b"", 0, 0),) * count))


def completion_text(completion):
    user_data, result, data = completion
    return f"cqe {user_data} {result} {data.rstrip(bytes(1)).hex() or '-'}"


def line_of(completions, files, is_sorted, has_files):
    shown = (
        sorted(completions, key=lambda c: (c[0], c[1], c[2].ljust(64, b"\0")))
        if is_sorted
        else completions
    )
    parts = [completion_text(completion) for completion in shown] or ["none"]
    if has_files:
        parts += [
            f"file {fd} len {len(data)} writes {writes} synced {synced} data {data.hex() or '-'}"
            for fd, (data, writes, synced) in enumerate(files)
        ]
    return ", ".join(parts)


def lines_of(text, files=2, is_sorted=False, has_files=False):
    """What is to be written of these calls."""
    orders = {}
    for completions, left in outcomes(calls_of(text), files):
        orders.setdefault(line_of(completions, left, is_sorted, has_files), set()).add(completions)
    lines = [
        line + (f"  # orders {len(orders[line])}" if is_sorted else "") for line in sorted(orders)
    ]
    return lines + [f"outcomes {len(lines)}"]


def main():
    words = sys.argv[1:]
    files = int(words[words.index("--files") + 1]) if "--files" in words else 2
    print("\n".join(lines_of(sys.stdin.read(), files, "--results" in words, "--contents" in words)))


if __name__ == "__main__":
    main()
