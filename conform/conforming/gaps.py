"""What a recorder saw, as `uring fill` reads it: a recorded trace without the steps that can't be seen from outside.

By the profile's rules a call is written with the positions that it consumed. By Linux's it is written as several, one for each group, so that steps may stand between them: with the positions that Linux's rules let it consume, which conforming/linux.py says. So what it consumed beyond them, or left of them, no history shows. The last one asks for all that is left, so that the rules say of it too where it ends.
"""

from conforming.linux import Rules, groups_of
from conforming.seen import Call, Look, Staged, Stored


class Submissions:
    """A call as it is written: the groups of the positions that it is to consume, and the lines of each, with those of the ring's words before the first and after the last."""

    def __init__(self, event, groups, lines):
        self.event, self.groups, self.lines = event, groups, lines

    def may_be(self):
        """Whether the call consumed these positions, and returned their number."""
        return self.event.items == sum(self.groups, []) and self.event.returned == len(
            self.event.entries()
        )

    def entries(self, number):
        return [it for it in self.groups[number] if not isinstance(it, int)] if self.groups else []


class Written:
    """The lines of a trace, as its events are written."""

    def __init__(self, setup, is_linux):
        self.setup, self.is_linux, self.rules = setup, is_linux, Rules()
        self.tail = self.published = self.head = self.dropped = 0

    def event(self, event):
        if isinstance(event, Staged):
            return self.staged(event)
        if isinstance(event, Call):
            return sum(self.call(event).lines, [])
        if isinstance(event, Look):
            return [
                f"cqtail = tail {event.tail}",
                *(f"reap = cqe {user_data} {result} -" for user_data, result in event.completions),
            ]
        return [f"cqhead = head {event.head}"] if isinstance(event, Stored) else []

    def staged(self, event):
        self.tail = event.position + 1
        slot = event.position & (self.setup.sq - 1)
        if isinstance(event.item, int):
            return [f"index {event.item} = ok"]
        return [f"fill {slot} {event.item.text} = ok", f"index {slot} = ok"]

    def call(self, event):
        groups = self.groups(event)
        lines = (
            self.submissions(event, groups)
            if groups or event.items or self.is_linux and event.returned
            else [[]]
        )
        # (each line more is one more before which the search may put what can't be seen)
        if self.published != self.tail:
            lines[0].insert(0, f"tail = tail {self.tail}")
        if self.head != event.head:
            lines[-1].append(f"head = head {event.head}")
        self.published, self.head, self.dropped = self.tail, event.head, event.dropped
        return Submissions(event, groups, lines)

    def groups(self, event):
        """The positions that are written as one call each."""
        if not self.is_linux:
            return [event.items] if event.items else []
        groups, self.rules = groups_of(event, self.rules, self.setup.is_stop)
        return groups

    def submissions(self, event, groups):
        """The lines of each group. What the call returned, the head and the dropped words stand at the end of the last; only there words are dropped."""
        lines, taken = [], 0
        for group in groups[:-1]:
            items = event.items[taken : taken + len(group)]
            taken += len(items)
            lines.append(
                [
                    *opened(len(group), items),
                    f"end = taken {len(items)} dropped {self.dropped} head {self.head + taken}",
                ]
            )
        asked = len(event.offered) - taken if self.is_linux else sum(map(len, groups[-1:]))
        return [
            *lines,
            [
                *opened(asked, event.items[taken:]),
                f"end = taken {event.returned - taken} dropped {event.dropped} head {event.head}",
            ],
        ]


def opened(asked, items):
    """A call that is asked for so many positions, and takes these."""
    return [f"begin {asked} = call {asked}", *map(taken_as, items)]


def taken_as(item):
    return "take = dropped" if isinstance(item, int) else f"take = entry {item.user_data}"


def text_of(setup, events, is_linux=False):
    written = Written(setup, is_linux)
    lines = [setup.line(is_linux)]
    for event in events:
        lines += written.event(event)
    return "\n".join(lines) + "\n"
