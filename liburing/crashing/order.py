"""How changes stand to one another and to syncs in time: which a question to the volume has to have."""

import bisect
import itertools
import math

FEW = 16  # changes that a volume is asked at once whether they can be folded


def at_once(changes):
    """Changes in runs, of which each ends where nothing runs."""
    found, last = [], -1
    for it in changes:
        if it.begin > last:
            found.append([])
        found[-1].append(it)
        last = max(last, math.inf if it.end is None else it.end)
    return found


def telling(changes, syncs):
    """Those of some syncs that have ended without which another change may be safe. One of the same range isn't needed again before another change has ended."""
    ends, known = sorted(it.end for it in changes if it.end is not None), {}
    for sync in sorted(syncs, key=lambda it: it.begin):
        before, own = bisect.bisect_left(ends, sync.begin), (sync.range, sync.covers)
        count, end = known.get(own, (0, -1))
        if before and not sync.is_done:
            yield sync
        elif before > count or (before and sync.end < end):
            known[own] = before, sync.end
            yield sync


def is_open(sync, now):
    """Whether a sync hasn't ended yet."""
    return sync.end is None or sync.end >= now


def first_end(changes):
    """Where the first of these changes ends: what begins after that waits for it."""
    return min((it.end for it in changes if it.end is not None), default=math.inf)


def in_order(changes, found):
    """Those found of some changes that began before one that isn't found had ended. The volume folds others too, past one that is safe and stays; here they wait, since a length that shrinks is told in its order."""
    waits = first_end(it for it in changes if it not in found)
    return {it for it in found if it.begin <= waits}


def settled(changes, folded):
    """The changes that can be folded in their order, by a call that says it of some. It's asked about a few at a time, with those that run beside them; what began once one had ended that can't be folded can't be either."""
    found, left = set(), []
    for at in range(0, len(changes), FEW):
        if changes[at].begin > first_end(left):
            break
        own = [*left, *changes[at : at + FEW]]
        last = max((it.end for it in own if it.end is not None), default=-1)
        beside = itertools.takewhile(
            lambda it: it.begin <= last, itertools.islice(changes, at + FEW, None)
        )
        found |= in_order(own, folded([*own, *beside]).intersection(own))
        left = [it for it in own if it not in found]
    return found
