"""Requests as docs/PROTOCOL.md has them: who waits, who is doomed, whom a cancel chooses. Nothing here is proved; what a search finds by it is judged by `uring check`."""

CANCELED, NO_ENTRY, ALREADY, INVALID = -125, -2, -114, -22
LEAST_ERROR = -4095
OPERATIONS = {"nop": 0, "fsync": 3, "cancel": 14}
FLAGS = {"D": 2, "L": 4, "H": 8, "A": 16, "S": 64}
# Of each kind of fault, the byte of the entry that has it, and what stands there. The kernel refuses each of these with -22 too, and takes a length above 64.
FAULTS = {"flag": (1, 128), "priority": (2, 1), "operation": (31, 128), "byte": (42, 1)}
WAITS, RUNS = "waits", "runs"


class Entry:
    """An item of a scenario: its text as an entry of the trace language, and what the rules ask of it."""

    def __init__(self, words):
        self.name = words[0]
        name_at = {"op": 2, "fault": 3}.get(self.name, 1)
        self.user_data = int(words[name_at])
        self.flags = words[name_at + 1].replace("-", "")
        self.is_faulty = self.name in ("op", "fault")
        # (the kernel looks at these two first, and if it refuses one, at no flag)
        self.is_refused = self.name == "op" or words[:2] == ["fault", "flag"]
        self.is_hold = self.name == "hold"
        self.is_cancel = self.name in ("cancel", "cancelall")
        self.target = int(words[3]) if self.is_cancel else None
        self.text = (
            f"read {words[1]} {words[2]} 0 0 1"
            if self.is_hold
            else self.raw(words)
            if self.name == "fault"
            else " ".join(words)
        )
        self.length = (
            1
            if self.is_hold
            else int(words[5])
            if self.name == "read"
            else len(words[5].replace("-", "")) // 2
            if self.name == "write"
            else 0
        )

    def raw(self, words):
        """An entry with a fault, as its bytes."""
        entry = bytearray(128)
        entry[0], entry[1], entry[32:40] = (
            OPERATIONS[words[2]],
            sum(FLAGS[it] for it in self.flags),
            self.user_data.to_bytes(8, "little"),
        )
        at, fault = FAULTS[words[1]]
        entry[at] |= fault
        return f"raw {entry.hex()}"

    def is_skipping(self):
        return "S" in self.flags

    def is_soft(self):
        return "L" in self.flags and "H" not in self.flags

    def is_linked(self):
        return "L" in self.flags or "H" in self.flags

    def is_success(self, result):
        if self.name == "cancelall":
            return result >= 0
        return result == self.length

    def may_end_with(self, result):
        """Whether a running request may end so on a ring of a kernel, whose files are its own."""
        is_error = LEAST_ERROR <= result < 0 and result != CANCELED
        if self.name == "nop":
            return result == 0
        if self.name == "fsync":
            return result == 0 or is_error
        return 0 <= result <= self.length or is_error


class Requests:
    """The requests that were accepted. A value: each change gives a new one."""

    def __init__(self, entries=(), groups=(), standing=(), chosen=frozenset()):
        self.entries, self.groups, self.standing, self.chosen = entries, groups, standing, chosen

    def key(self):
        return self.standing, self.chosen

    def accepted(self, entries):
        """Those with the entries of one more call."""
        groups, group = list(self.groups), []
        for number, entry in enumerate(entries, len(self.entries)):
            group.append(number)
            if not entry.is_linked():
                groups.append(tuple(group))
                group = []
        if group:
            groups.append(tuple(group))
        return Requests(
            self.entries + tuple(entries),
            tuple(groups),
            self.standing + (WAITS,) * len(entries),
            self.chosen,
        )

    def stands(self, number, standing):
        return Requests(
            self.entries,
            self.groups,
            self.standing[:number] + (standing,) + self.standing[number + 1 :],
            self.chosen,
        )

    def is_outstanding(self, number):
        return self.standing[number] in (WAITS, RUNS)

    def runs(self, number):
        return self.standing[number] == RUNS

    def group_of(self, number):
        return next(at for at, group in enumerate(self.groups) if number in group)

    def failed(self, number):
        return not self.is_outstanding(number) and not self.entries[number].is_success(
            self.standing[number]
        )

    def is_doomed(self, number):
        if not self.is_outstanding(number) or self.runs(number):
            return False
        group = self.groups[self.group_of(number)]
        return (
            number in self.chosen
            or any(self.entries[it].is_faulty for it in group)
            or any(it < number and self.entries[it].is_soft() and self.failed(it) for it in group)
        )

    def drains(self, at):
        return any("D" in self.entries[it].flags for it in self.groups[at])

    def may_start(self, number):
        at = self.group_of(number)
        if any(self.is_outstanding(it) for it in self.groups[at] if it < number):
            return False
        earlier = range(at)
        return not any(
            self.is_outstanding(it)
            for before in earlier
            if self.drains(at) or self.drains(before)
            for it in self.groups[before]
        )

    def doom_of(self, number):
        return INVALID if self.entries[number].is_faulty else CANCELED

    def targets(self, number):
        """Those that a cancel may choose, from the least on."""
        named = self.entries[number].target
        return [
            it
            for it in range(len(self.entries))
            if it != number
            and self.entries[it].user_data == named
            and self.is_outstanding(it)
            and not self.is_doomed(it)
        ]

    def cancelled(self, number):
        """What a cancel ends with, and how the requests stand after it."""
        targets = self.targets(number)
        if self.entries[number].name == "cancelall":
            chosen = [it for it in targets if not self.runs(it)]
            result = len(chosen)
        else:
            chosen = [it for it in targets[:1] if not self.runs(it)]
            result = NO_ENTRY if not targets else 0 if chosen else ALREADY
        return result, Requests(
            self.entries, self.groups, self.standing, self.chosen | set(chosen)
        ).stands(number, result)

    def ends_of(self, number):
        """The ends that the rules allow now, each as steps of the trace language with their answers, the result (None: any that the operation may give), and how the requests stand then."""
        entry = self.entries[number]
        if not self.is_outstanding(number):
            return
        if self.is_doomed(number):
            result = self.doom_of(number)
            yield [f"issue {number} = ended {result}"], result, self.stands(number, result)
        elif self.runs(number):
            yield [], None, self
        elif not self.may_start(number):
            return
        elif entry.is_cancel:
            result, after = self.cancelled(number)
            yield [f"issue {number} = ended {result}"], result, after
        else:
            yield [f"issue {number} = run"], None, self.stands(number, RUNS)

    def posts(self, number, result):
        entry = self.entries[number]
        return not (entry.is_skipping() and entry.is_success(result))
