"""What a recorder saw, as a list of events: a scenario's own statements with what the ring showed."""

from conforming.requests import Entry


class Call:
    """A call that was asked for these items, entries or words that name no slot, and that consumed those."""

    def __init__(self, offered, items, returned, head, dropped):
        self.offered, self.items, self.returned, self.head, self.dropped = (
            offered,
            items,
            returned,
            head,
            dropped,
        )

    def entries(self):
        return [it for it in self.items if isinstance(it, Entry)]


class Look:
    """A look at the completion ring: its tail, and the completions that were new."""

    def __init__(self, tail):
        self.tail, self.completions = tail, []


class Events:
    """A call that asked for events."""


class Stored:
    """The head was stored."""

    def __init__(self, head):
        self.head = head


class Staged:
    """An item was staged, at this position."""

    def __init__(self, item, position):
        self.item, self.position = item, position


def is_item(words):
    return words[0] in (
        "nop",
        "fsync",
        "read",
        "write",
        "cancel",
        "cancelall",
        "op",
        "fault",
        "hold",
        "bad",
    )


def item_of(words):
    return int(words[1]) if words[0] == "bad" else Entry(words)


def statements_of(scenario):
    """For each call that the recorder tells of a scenario's own, the items that were staged since the one before."""
    items = []
    for line in scenario.splitlines():
        words = line.split()
        if words and words[0] in ("#", "events", "wait", "head", "release"):
            continue
        if words and is_item(words):
            items.append(" ".join(words))
        else:
            yield items
            items = []
    if items:
        yield items


def events_of(scenario, recorded):
    """The events of a run, in order: each call has before it the items that were staged since the call before."""
    lines = [it.split() for it in scenario.splitlines() if not it.startswith("#")]
    staged = [(at, item_of(it)) for at, it in enumerate(lines) if it and is_item(it)]
    # (which items were staged before each of the calls that the recorder tells)
    calls = [at for at, it in enumerate(lines) if not it or it[0] == "call"]
    events, told, taken, head = [], 0, 0, 0
    for words in (it.split() for it in recorded.splitlines()):
        if words[0] == "call":
            until = calls[told] if told < len(calls) else len(lines)
            told += 1
            while taken < len(staged) and staged[taken][0] < until:
                events.append(Staged(staged[taken][1], taken))
                taken += 1
            asked, returned, now, dropped = map(int, words[1:])
            if now != head or returned >= 0:
                offered, items = (
                    [it for _, it in staged[head:end]] for end in (min(head + asked, taken), now)
                )
                events.append(Call(offered, items, returned, now, dropped))
            head = now
        elif words[0] == "tail":
            events.append(Look(int(words[1])))
        elif words[0] == "cqe":
            events[-1].completions.append((int(words[1]), int(words[2])))
        elif words[0] == "head":
            events.append(Stored(int(words[1])))
        elif words[0] == "events":
            events.append(Events())
    return events
