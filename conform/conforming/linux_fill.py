"""The quick search by Linux's rules. By the rules alone its histories are traces that `uring check --results` takes; with what cancels do beyond them, their steps are words of its own."""

from conforming.fill import Fill, Ring
from conforming.gaps import Written
from conforming.linux import CarriedOut, LinuxRequests
from conforming.requests import RUNS, WAITS
from conforming.seen import Call


class LinuxFill(Fill):
    """The search of `Fill`. Where it is, is an event, and of a call the number of the next group that it takes."""

    def __init__(self, setup, events, beyond=()):
        super().__init__(setup, events)
        written = Written(setup, True)
        self.beyond, self.calls = beyond, [
            written.call(it) if isinstance(it, Call) else written.event(it) for it in events
        ]

    def trace(self):
        steps = self.search((0, 0), 0, LinuxRequests(beyond=self.beyond), Ring(self.size), 0, None)
        return steps if steps is None else [line for part in steps for line in part]

    def search(self, at, posted, requests, ring, dropped, path):
        event = at[0]
        if not self.is_new((at, posted, requests.key(), ring.key()), posted, event, path):
            return None
        if event == len(self.events):
            is_over = not any(requests.is_outstanding(it) for it in range(len(requests.entries)))
            if is_over and posted == len(self.completions):
                return [[]]
            return None if is_over else self.hidden(at, posted, requests, ring, dropped, path)
        gone = self.goes_on(at, requests, ring, dropped)
        if gone:
            steps, now, after, moved, lost = gone
            found = self.search(now, posted, after, moved, lost, (path, steps))
            if found is not None:
                return [steps, *found]
        return self.hidden(at, posted, requests, ring, dropped, path)

    def goes_on(self, at, requests, ring, dropped):
        """The steps of an event, and of a call those of its next group, with what stands after them; nothing if it can't have been so now."""
        event, number = at
        it = self.events[event]
        if not isinstance(it, Call):
            gone = self.passed(it, requests, ring, dropped)
            return gone and (gone[0], (event + 1, 0), *gone[1:])
        groups = self.calls[event]
        if not groups.may_be() or requests.has_cancel_to_carry_out():
            return None
        entries = groups.entries(number)
        after = requests.accepted(entries) if entries else requests
        now = (event + 1, 0) if number + 1 >= len(groups.lines) else (event, number + 1)
        return groups.lines[number], now, after, ring, it.dropped

    def may_post(self, at, ring):
        return super().may_post(at[0], ring)

    def hidden(self, at, posted, requests, ring, dropped, path):
        for steps, more, after, now in self.moves(at, posted, requests, ring):
            found = self.search(at, posted + more, after, now, dropped, (path, steps))
            if found is not None:
                return [steps, *found]
        return None

    def moves(self, at, posted, requests, ring):
        if posted < len(self.completions) and self.may_post(at, ring):
            user_data, result = self.completions[posted]
            for number, entry in enumerate(requests.entries):
                if entry.user_data == user_data and requests.is_outstanding(number):
                    yield from self.ends(requests, number, result, ring)
        for number, entry in enumerate(requests.entries):
            if requests.is_outstanding(number):
                yield from self.silent_ends(requests, number, ring)
        for number, entry in enumerate(requests.entries):
            if requests.may_start(number) and requests.doom_of(number) is None:
                yield from self.starts(requests, number, ring)

    def starts(self, requests, number, ring):
        """That a request starts which a cancel may find, or that a cancel of the kernel's chooses."""
        entry = requests.entries[number]
        if entry.user_data in self.named and not (entry.is_cancel and not requests.takes_back()):
            yield [f"issue {number} = run"], 0, requests.stands(number, RUNS), ring
        if (
            requests.takes_back()
            and entry.is_cancel
            and (requests.found(number) or not requests.is_workers(number))
        ):
            for result, after in requests.cancels(number):
                yield [f"{number} cancels"], 0, after.stands(number, CarriedOut((result,))), ring

    def ends(self, requests, number, result, ring):
        entry = requests.entries[number]
        for given, after in requests.ends_of(number):
            if not (
                given == result or given is None and entry.may_end_with(result)
            ) or not requests.posts(number, result):
                continue
            before, now = ring.posted()
            yield [*before, *ended(requests, number, result, given)], 1, after.ended(
                number, result
            ) if given is None else after, now

    def silent_ends(self, requests, number, ring):
        for given, after in requests.ends_of(number):
            result = requests.entries[number].length if given is None else given
            if not requests.posts(number, result):
                yield ended(requests, number, result, given), 0, after.ended(
                    number, result
                ) if given is None else after, ring


def ended(requests, number, result, given):
    """The steps of an end: what has no result that is given starts before it, unless it runs."""
    if given is not None and requests.standing[number] == WAITS:
        return [f"issue {number} = ended {result}"]
    return [
        *([f"issue {number} = run"] if requests.standing[number] == WAITS else []),
        f"finish {number} = ended {result}",
    ]
