"""The quick search by the drains of kernels that defer by a count of completions, as those of COUNTING were seen to. Nothing here is proved, and the rules are not among those of `--linux`.

Where it differs from conforming/linux.py:

- The number of a group is how many entries were accepted before its first member. The count is how many completions are in the ring: those that are skipped or left out aren't, nor those in the overflow list.
- A group without a fault that is accepted while the ring drains goes on at once if nothing is deferred and it doesn't drain or its number is the count. The ring drains no more then. Else it is deferred.
- The kernel looks at what is deferred at any time after completions came into the ring: while the first doesn't drain, or its number is the count, it goes on. The count may pass a number by between two looks: that group, and all after it, wait for ever.
- A bad word takes one from the number of each group that is deferred then. Nobody waits for a drain's own end.
"""

from conforming.fill import Ring
from conforming.linux import BEYOND, Group, LinuxRequests, Rules, all_taken
from conforming.linux_fill import LinuxFill
from conforming.requests import WAITS
from conforming.seen import Call

BY_COUNT = "drains go by a count"  # its name in conforming/differences.py
COUNTING = ("6.1.", "6.12.")  # how the releases begin that were seen to


def counts(release):
    """Whether the kernel of this release defers by a count."""
    return release.startswith(COUNTING)


class CountRequests(LinuxRequests):
    """`count` is how many completions are in the ring, `dropped` how many words were dropped, and `dropped_before` has for each group how many were when it was accepted."""

    def __init__(self, *parts, count=0, dropped=0, dropped_before=(), **named):
        super().__init__(*parts, **named)
        self.count, self.dropped, self.dropped_before = count, dropped, dropped_before

    def changed(self, **parts):
        return CountRequests(**{**vars(self), **parts})

    def accepted(self, entries):
        taken, rules = all_taken(entries, self.rules)
        at, first = len(self.groups), len(self.entries)
        group = Group(first, taken.faults, taken.drains, rules.drains or entries[-1].is_linked())
        after = self.changed(
            entries=self.entries + taken.entries,
            groups=self.groups + (group,),
            standing=self.standing + (WAITS,) * len(entries),
            rules=rules,
            dropped_before=self.dropped_before + (self.dropped,),
        )
        if not rules.drains or group.has_fault():
            return after
        if not self.deferred and (not taken.drains or self.count == first):
            return after.changed(rules=Rules(False, rules.next_drains, rules.skips))
        return after.changed(deferred=self.deferred + (at,))

    def released(self):
        return self

    def number_of(self, at):
        return self.groups[at].first - (self.dropped - self.dropped_before[at])

    def first_may_go_on(self, count):
        if not self.deferred:
            return False
        at = self.deferred[0]
        return not self.groups[at].drains or self.number_of(at) == count

    def looked(self, count):
        """After the kernel's look at what is deferred."""
        now = self
        while now.first_may_go_on(count):
            now = now.changed(deferred=now.deferred[1:])
        return now

    def is_stalled(self, count):
        """Whether nothing is outstanding but what waits for ever."""
        stuck = {number for at in self.deferred for number in self.groups[at].members()}
        return (
            bool(stuck)
            and not self.first_may_go_on(count)
            and all(it in stuck for it in range(len(self.entries)) if self.is_outstanding(it))
        )


class CountFill(LinuxFill):
    def trace(self):
        first = CountRequests(beyond=self.beyond)
        steps = self.search((0, 0), 0, first, Ring(self.size), 0, None)
        return steps if steps is None else [line for part in steps for line in part]

    def search(self, at, posted, requests, ring, dropped, path):
        is_over = at[0] == len(self.events) and posted == len(self.completions)
        if is_over and requests.is_stalled(ring.tail):
            return [["# what is deferred waits for ever"]]
        return super().search(at, posted, requests, ring, dropped, path)

    def goes_on(self, at, requests, ring, dropped):
        event, number = at
        it = self.events[event]
        if not isinstance(it, Call):
            return super().goes_on(at, requests, ring, dropped)
        # (the call has counted a bad word before it accepts the group that it cuts)
        groups = self.calls[event].groups
        group = groups[number] if groups else []
        is_cut = len(group) > 1 and any(isinstance(word, int) for word in group)
        before = it.dropped if is_cut else requests.dropped
        now = requests.changed(count=ring.tail, dropped=before)
        gone = super().goes_on(at, now, ring, dropped)
        if gone and gone[1][0] != event:
            gone = (gone[0], gone[1], gone[2].changed(dropped=it.dropped), *gone[3:])
        return gone

    def moves(self, at, posted, requests, ring):
        if requests.first_may_go_on(ring.tail):
            yield ["look"], 0, requests.looked(ring.tail), ring
        yield from super().moves(at, posted, requests, ring)


def explains(setup, events, quick):
    """Whether there is a history by these drains, also with what cancels do beyond the rules."""
    return any(
        quick(setup, CountFill(setup, events, names), True).kind == "lawful"
        for names in [(), *BEYOND]
    )
