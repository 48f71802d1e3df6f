"""Requests as Linux keeps them, for `--linux`, and what the kernel does beyond its rules. Nothing here is proved; conforming/linux_fill.py searches by it, beside the proved search of `uring fill --linux`.

The rules, each as docs/PROTOCOL.md tells it:

- A call takes entries until it has as many as it was asked for, up to a word that names no slot, or up to a faulty entry without a link flag in a ring that stops. Groups are accepted one by one, each after its last member; requests go on between them.
- A group with a fault ends at once, from its first member on, and nobody waits for it.
- A drain and a skip count on an entry whose operation and flags are known, whatever else is wrong with it. Such an entry is let in, if it is no drain that is refused.
- A ring drains from the first entry on that asks for it, and until a group without a fault is accepted that doesn't, while nothing else is outstanding but what is deferred. Each group accepted meanwhile is deferred, in order. The first of those deferred goes on once all that isn't deferred has ended, and with it those after it up to the next that drains.
- A group drains if a member does; if that isn't its first one, a drain is owed to the next group whose first entry is let in.
- A drain fails with -95 once an entry has asked for skipped success, whatever else is wrong with it.
- A cancel finds what has started and hasn't ended, and ends with -114, or else with -2. One of all ends with 0. Nobody is cancelled.
- Who is cancelled after a failure posts nothing if the member that failed has the skip flag, and else posts, whatever its own flags. Of a group with a fault the first member is the one that failed.

Beyond them, the kernel's cancels do what BEYOND names:

- A cancel finds what has started and hasn't ended, chosen or not. It ends with 0, and what it chose ends with -125 or -4; or with -114, and that goes on, if a worker has it. One that no worker carries out chooses before its call takes more.
- A cancel of all counts those that wait for a pipe, and of what workers have any number.
- A cancel that a worker carries out may find itself.
"""

from conforming.requests import ALREADY, CANCELED, INVALID, NO_ENTRY, RUNS, WAITS

UNSUPPORTED, INTERRUPTED = -95, -4

# What cancels of the kernel do beyond the rules, by the names of conforming/differences.py: each row beside those before it.
TAKES_BACK, FINDS_ITSELF = "a cancel takes back", "a cancel finds itself"
BEYOND = [(TAKES_BACK,), (TAKES_BACK, FINDS_ITSELF)]


class CarriedOut(tuple):
    """How a cancel stands that chose already, with the result that it will end with."""


class Rules:
    """How the ring stands for what is taken next. A value."""

    def __init__(self, drains=False, next_drains=False, skips=False):
        self.drains, self.next_drains, self.skips = drains, next_drains, skips

    def key(self):
        return self.drains, self.next_drains, self.skips


class Group:
    """The numbers of its members, whether it drains, the faults of its members (an error or None), and whether a worker has it from its first member on: as one that was deferred, or that its call's end cut."""

    def __init__(self, first, faults, drains, is_workers):
        self.first, self.faults, self.drains, self.is_workers = first, faults, drains, is_workers

    def members(self):
        return range(self.first, self.first + len(self.faults))

    def has_fault(self):
        return any(it is not None for it in self.faults)


class LinuxRequests:
    """The requests that were accepted. A value: each change gives a new one.

    `standing` has for each request WAITS, RUNS or its result; `deferred` the groups that a drain defers, in order; `chosen` whom a cancel chose, and `doomed` those of them that it certainly ends. `beyond` says what cancels do beyond the rules.
    """

    def __init__(
        self,
        entries=(),
        groups=(),
        standing=(),
        chosen=frozenset(),
        doomed=frozenset(),
        deferred=(),
        rules=Rules(),
        beyond=(),
    ):
        self.entries, self.groups, self.standing, self.deferred, self.rules = (
            entries,
            groups,
            standing,
            deferred,
            rules,
        )
        self.chosen, self.doomed, self.beyond = chosen, doomed, beyond

    def key(self):
        return self.standing, self.chosen, self.doomed, self.deferred, self.rules.key()

    def changed(self, **parts):
        return LinuxRequests(**{**vars(self), **parts})

    def group_of(self, number):
        return next(at for at, group in enumerate(self.groups) if number in group.members())

    def is_outstanding(self, number):
        return self.standing[number] in (WAITS, RUNS) or self.is_carried_out(number)

    def is_carried_out(self, number):
        """Whether a worker has carried a cancel out, and not ended it yet."""
        return isinstance(self.standing[number], CarriedOut)

    def runs(self, number):
        return self.standing[number] == RUNS

    def is_over(self, at):
        return not any(self.is_outstanding(it) for it in self.groups[at].members())

    # accepting

    def accepted(self, entries):
        """After the acceptance of a group of these entries."""
        taken, rules = all_taken(entries, self.rules)
        drains, at, is_workers = (
            taken.drains,
            len(self.groups),
            rules.drains or entries[-1].is_linked(),
        )
        after = self.changed(
            entries=self.entries + taken.entries,
            groups=self.groups + (Group(len(self.entries), taken.faults, drains, is_workers),),
            standing=self.standing + (WAITS,) * len(entries),
            rules=rules,
        )
        if not rules.drains or after.groups[at].has_fault():
            return after
        after = after.changed(deferred=self.deferred + (at,)).released()
        if not drains and not after.deferred:
            after = after.changed(rules=Rules(False, rules.next_drains, rules.skips))
        return after

    def released(self):
        """Lets go on what is deferred and need not be any more."""
        rest, is_first, has_drain = list(self.deferred), True, False
        is_alone = all(self.is_over(at) or at in self.deferred for at in range(len(self.groups)))
        while rest:
            has_drain = has_drain or self.groups[rest[0]].drains
            if (has_drain or is_first) and not (is_alone and is_first):
                break
            rest.pop(0)
            is_first = False
        return self.changed(deferred=tuple(rest))

    # going on

    def may_start(self, number):
        at = self.group_of(number)
        return (
            self.standing[number] == WAITS
            and at not in self.deferred
            and not any(self.is_outstanding(it) for it in self.groups[at].members() if it < number)
        )

    def stands(self, number, standing):
        return self.changed(
            standing=self.standing[:number] + (standing,) + self.standing[number + 1 :]
        )

    def ended(self, number, result):
        return self.stands(number, result).released()

    def breaker_of(self, number):
        """The member whose failure cancels this one, or None. In a group with a fault it is the first."""
        group = self.groups[self.group_of(number)]
        if group.has_fault():
            return group.first
        failed = [
            it
            for it in group.members()
            if it < number
            and not self.is_outstanding(it)
            and self.entries[it].is_soft()
            and not self.is_success(it)
        ]
        return failed[0] if failed else None

    def is_success(self, number):
        return self.entries[number].is_success(self.standing[number])

    def doom_of(self, number):
        """What a member of a broken group ends with, once those before it have ended; None if it isn't doomed."""
        if not self.standing[number] == WAITS or self.breaker_of(number) is None:
            return None
        group = self.groups[self.group_of(number)]
        if any(self.is_outstanding(it) for it in group.members() if it < number):
            return None
        fault = group.faults[number - group.first]
        return CANCELED if fault is None else fault

    def posts(self, number, result):
        """Whether the end of a request posts."""
        breaker = self.breaker_of(number)
        if breaker is not None and breaker != number:
            return not self.entries[breaker].is_skipping()
        return not (self.entries[number].is_skipping() and self.entries[number].is_success(result))

    def takes_back(self):
        return TAKES_BACK in self.beyond

    def has_cancel_to_carry_out(self):
        """Whether a cancel is still to choose that no worker carries out: the kernel's does so before its call takes more."""
        return self.takes_back() and any(
            entry.is_cancel
            and self.may_start(number)
            and self.doom_of(number) is None
            and not self.is_workers(number)
            for number, entry in enumerate(self.entries)
        )

    def finds_itself(self, number):
        return (
            FINDS_ITSELF in self.beyond
            and self.is_workers(number)
            and self.entries[number].target == self.entries[number].user_data
        )

    def found(self, number):
        """Whom a cancel may choose."""
        named = self.entries[number].target
        return [
            it
            for it in range(len(self.entries))
            if it != number and self.entries[it].user_data == named and self.runs(it)
        ]

    def is_workers(self, number):
        """Whether a worker may have it: not if it certainly went on within its own call."""
        group = self.groups[self.group_of(number)]
        return number > group.first or group.is_workers or "A" in self.entries[number].flags

    def is_polled(self, number):
        """Whether it certainly waits for its pipe, and no worker has it."""
        return self.entries[number].is_hold and not self.is_workers(number)

    def cancels(self, number):
        """What a cancel may end with, each with how the requests stand then."""
        if self.takes_back():
            yield from self.cancels_beyond(number)
            return
        result = (
            0
            if self.entries[number].name == "cancelall"
            else ALREADY
            if self.found(number)
            else NO_ENTRY
        )
        yield result, self.ended(number, result)

    def cancels_beyond(self, number):
        """The same of the kernel's. One that was chosen before may be found again, or not; of those that workers have any number may be counted; and a cancel that a worker carries out may find itself."""
        found, finds_itself = self.found(number), self.finds_itself(number)
        certain = [it for it in found if it not in self.chosen]
        if self.entries[number].name == "cancelall":
            polled = sum(self.is_polled(it) for it in certain)
            after = self.changed(chosen=self.chosen | set(found))
            for count in range(polled, len(found) + finds_itself + 1):
                yield count, after.ended(number, count)
            return
        if finds_itself:
            yield ALREADY, self.ended(number, ALREADY)
        if not certain:
            yield NO_ENTRY, self.ended(number, NO_ENTRY)
        for it in found:
            yield 0, self.changed(chosen=self.chosen | {it}, doomed=self.doomed | {it}).ended(
                number, 0
            )
            if not self.is_polled(it):
                yield ALREADY, self.ended(number, ALREADY)

    def ends_of(self, number):
        """The results with which a request may end now, each with how the requests stand then."""
        entry, doom = self.entries[number], self.doom_of(number)
        if doom is not None:
            yield doom, self.ended(number, doom)
        elif self.is_carried_out(number):
            yield self.standing[number][0], self.ended(number, self.standing[number][0])
        elif self.may_start(number) or self.runs(number):
            if entry.is_cancel and number not in self.doomed:
                yield from self.cancels(number)
            elif number not in self.doomed:
                yield None, self
        if self.runs(number) and number in self.chosen:
            for result in (CANCELED, INTERRUPTED):
                yield result, self.ended(number, result)


class Taken:
    """The entries of a group that a call has taken, with their faults, and whether it drains so far. A value."""

    def __init__(self, entries=(), faults=(), drains=False):
        self.entries, self.faults, self.drains = entries, faults, drains


def taken(group, rules, entry):
    """After one entry that a call takes: the group that it is amid, the rules, and whether its fault stops a ring that stops."""
    skips = rules.skips or entry.is_skipping() and not entry.is_refused
    asks_to_drain = "D" in entry.flags and not entry.is_refused
    fault = UNSUPPORTED if asks_to_drain and skips else INVALID if entry.is_faulty else None
    is_let_in, is_drain = not entry.is_refused and fault != UNSUPPORTED, asks_to_drain and not skips
    takes_owed = rules.next_drains and not group.entries and is_let_in
    drains = is_drain or takes_owed
    is_owed = (
        rules.next_drains or is_drain if group.entries else rules.next_drains and not is_let_in
    )
    rules = Rules(rules.drains or drains, is_owed, skips)
    return (
        Taken(group.entries + (entry,), group.faults + (fault,), group.drains or drains),
        rules,
        fault is not None and not entry.is_linked(),
    )


def all_taken(entries, rules):
    """After all entries of a group."""
    group = Taken()
    for entry in entries:
        group, rules, _ = taken(group, rules, entry)
    return group, rules


def groups_of(call, rules, is_stop):
    """The positions that a call is to consume of those that it was asked for, cut after each group, and the rules after it."""
    groups, group = [[]], Taken()
    for item in call.offered:
        groups[-1].append(item)
        if isinstance(item, int):
            break
        group, rules, stops = taken(group, rules, item)
        if stops and is_stop:
            break
        if not item.is_linked():
            groups.append([])
            group = Taken()
    return [it for it in groups if it], rules
