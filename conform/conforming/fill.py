"""Finds the steps that a recorder can't see, so that the whole is a lawful trace.

Hidden are issues and ends that post nothing, flushes, and the moment of each post. The search puts each end as late as it may stand: just before the look that shows its completion. It goes back where that leads nowhere, and remembers where it was. It is the search where the proved program isn't built; where it is, `uring fill` decides, and this one tells how far a history comes that nobody explains.
"""

import sys

from conforming.requests import WAITS, Requests
from conforming.seen import Call, Events, Look, Staged, Stored

MOST_STATES = 200_000


class GaveUp(Exception):
    pass


class Ring:
    """The completion ring beside the posted list. A value."""

    def __init__(self, size, tail=0, loaded=0, stored=0, overflow=0):
        self.size, self.tail, self.loaded, self.stored, self.overflow = (
            size,
            tail,
            loaded,
            stored,
            overflow,
        )

    def key(self):
        return self.tail, self.loaded, self.stored, self.overflow

    def flushed(self):
        moved = min(self.overflow, self.size - (self.tail - self.stored))
        return [f"flush = moved {moved}"], Ring(
            self.size, self.tail + moved, self.stored, self.stored, self.overflow - moved
        )

    def posted(self):
        """The ring after a post, with the flush that stands before it, as a kernel reads the head as it is."""
        if self.overflow:
            return [], Ring(self.size, self.tail, self.loaded, self.stored, self.overflow + 1)
        steps, now = self.flushed()
        if now.tail - now.loaded < now.size:
            return steps, Ring(now.size, now.tail + 1, now.loaded, now.stored, 0)
        return steps, Ring(now.size, now.tail, now.loaded, now.stored, 1)

    def is_full(self):
        return self.overflow or self.tail - self.stored >= self.size


class Fill:
    def __init__(self, setup, events):
        self.events, self.size, self.is_stop = events, setup.cq, setup.is_stop
        self.mask = setup.sq - 1
        self.completions = [
            it for event in events if isinstance(event, Look) for it in event.completions
        ]
        self.named = {
            it.item.target
            for it in events
            if isinstance(it, Staged) and not isinstance(it.item, int) and it.item.is_cancel
        }
        # (the most completions that a history posts, how many events it passes then, and its steps: each part with those before it)
        self.been, self.furthest, self.reached = set(), (-1, 0), None
        sys.setrecursionlimit(20_000)

    def trace(self):
        """The whole trace, or None if there is none."""
        steps = self.search(0, 0, Requests(), Ring(self.size), 0, None)
        return steps if steps is None else [line for part in steps for line in part]

    def furthest_trace(self):
        """The steps of the history that posts the most of the completions, and then passes the most events."""
        parts, path = [], self.reached
        while path:
            path, steps = path
            parts.append(steps)
        return [line for part in reversed(parts) for line in part]

    def why(self):
        """At what that history ends, and the place of the first completion that none reaches, if it is one."""
        posted, at = self.furthest
        event = self.events[at] if at < len(self.events) else None
        if isinstance(event, Call):
            return (
                f"no history has a call that consumes {len(event.items)} positions and returns {event.returned}",
                None,
            )
        if posted == len(self.completions):
            return "no history ends so: a request is left without its end", None
        user_data, result = self.completions[posted]
        return f"no history posts cqe {user_data} {result}, completion {posted} from 0 on", posted

    def is_new(self, key, posted, event, path):
        """Whether the search is in this state for the first time. It is noted, and so is the path if none reached so far."""
        if key in self.been:
            return False
        self.been.add(key)
        if len(self.been) > MOST_STATES:
            raise GaveUp
        if (posted, event) > self.furthest:
            self.furthest, self.reached = (posted, event), path
        return True

    def search(self, at, posted, requests, ring, dropped, path):
        """The parts of a trace from this event on, after those of the path, or None."""
        if not self.is_new((at, posted, requests.key(), ring.key()), posted, at, path):
            return None
        if at == len(self.events):
            rest = self.rest(requests)
            if rest is not None and posted == len(self.completions):
                return [rest]
            return self.hidden(at, posted, requests, ring, dropped, path) if rest is None else None
        gone = self.passed(self.events[at], requests, ring, dropped)
        if gone:
            steps, after, now, lost = gone
            found = self.search(at + 1, posted, after, now, lost, (path, steps))
            if found is not None:
                return [steps, *found]
        return self.hidden(at, posted, requests, ring, dropped, path)

    def passed(self, event, requests, ring, dropped):
        """The steps of an event, with what stands after it, or None if it can't have been so now."""
        if isinstance(event, Staged):
            slot = event.position & self.mask
            if isinstance(event.item, int):
                return [f"index {event.item} = ok"], requests, ring, dropped
            return (
                [f"fill {slot} {event.item.text} = ok", f"index {slot} = ok"],
                requests,
                ring,
                dropped,
            )
        if isinstance(event, Call):
            return self.called(event, requests, ring)
        if isinstance(event, Events):
            steps, now = ring.flushed()
            return steps, requests, now, dropped
        if isinstance(event, Stored):
            return (
                [f"cqhead = head {event.head}"],
                requests,
                Ring(ring.size, ring.tail, ring.loaded, event.head, ring.overflow),
                dropped,
            )
        if ring.tail != event.tail:
            return None
        return (
            [
                f"cqtail = tail {event.tail}",
                *(f"reap = cqe {user_data} {result} -" for user_data, result in event.completions),
            ],
            requests,
            ring,
            dropped,
        )

    def called(self, event, requests, ring):
        if event.returned != len(event.entries()) and event.items:
            return None
        if self.is_stop and any(
            not isinstance(it, int) and it.is_faulty for it in event.items[:-1]
        ):
            return None
        staged = (
            max(
                (
                    it.position
                    for it in self.events[: self.events.index(event)]
                    if isinstance(it, Staged)
                ),
                default=-1,
            )
            + 1
        )
        steps = [f"tail = tail {staged}"]
        if event.items:
            steps += [f"begin {len(event.items)} = call {len(event.items)}"]
            steps += [
                "take = dropped" if isinstance(it, int) else f"take = entry {it.user_data}"
                for it in event.items
            ]
            steps += [
                f"end = taken {len(event.entries())} dropped {event.dropped} head {event.head}"
            ]
        return (
            [*steps, f"head = head {event.head}"],
            requests.accepted(event.entries()),
            ring,
            event.dropped,
        )

    def hidden(self, at, posted, requests, ring, dropped, path):
        for steps, more, after, now in self.moves(at, posted, requests, ring):
            found = self.search(at, posted + more, after, now, dropped, (path, steps))
            if found is not None:
                return [steps, *found]
        return None

    def may_post(self, at, ring):
        """Whether a completion may come now without being seen too early: the next look shows it, or it goes to the overflow list."""
        look = next((it for it in self.events[at:] if isinstance(it, Look)), None)
        return ring.is_full() or (look is not None and ring.tail < look.tail)

    def moves(self, at, posted, requests, ring):
        """What may happen unseen: the next completion is posted, a request ends and posts nothing, or one starts that a cancel may name."""
        if posted < len(self.completions) and self.may_post(at, ring):
            user_data, result = self.completions[posted]
            for number, entry in enumerate(requests.entries):
                if entry.user_data == user_data:
                    yield from self.ends(requests, number, result, ring)
        for number, entry in enumerate(requests.entries):
            if entry.is_skipping() and requests.is_outstanding(number):
                yield from self.silent_ends(requests, number, ring)
        for number, entry in enumerate(requests.entries):
            if (
                entry.user_data in self.named
                and requests.standing[number] == WAITS
                and not entry.is_cancel
                and not requests.is_doomed(number)
                and requests.may_start(number)
            ):
                yield [f"issue {number} = run"], 0, requests.stands(number, "runs"), ring

    def ends(self, requests, number, result, ring):
        for steps, given, after in requests.ends_of(number):
            if not (
                given == result or given is None and requests.entries[number].may_end_with(result)
            ) or not requests.posts(number, result):
                continue
            before, now = ring.posted()
            if given is None:
                steps, after = [*steps, f"finish {number} = ended {result}"], after.stands(
                    number, result
                )
            yield [*before, *steps], 1, after, now

    def silent_ends(self, requests, number, ring):
        for steps, given, after in requests.ends_of(number):
            result = requests.entries[number].length if given is None else given
            if requests.posts(number, result):
                continue
            if given is None:
                steps, after = [*steps, f"finish {number} = ended {result}"], after.stands(
                    number, result
                )
            yield steps, 0, after, ring

    def rest(self, requests):
        """Nothing, if each request has ended; None, if one is outstanding."""
        return (
            None if any(requests.is_outstanding(it) for it in range(len(requests.entries))) else []
        )
