"""Makes a failing crash short, as far as it goes in the time that there is: what is lost, the moment, and the choices before."""

import itertools
import random
import re
import time

from crashing.epochs import Epoch, Left, lost
from crashing.images import image_of, pieces, unsettled
from crashing.runs import Run
from exploring.runs import list_of

PART = 20  # one list of choices is looked at for one part of so many of the time, or for a second


class Example:
    """A crash that fails, as short as it is known: the crashes up to it, and the run that the last of them ends."""

    def __init__(self, epochs, run, first):
        self.epochs, self.run, self.first = tuple(epochs), run, first

    @property
    def last(self):
        return self.epochs[-1]

    def ending(self, moment, left):
        """The same, but for the last crash."""
        last = Epoch(self.last.policy, moment, left)
        return Example((*self.epochs[:-1], last), self.run, self.first)


def shortened(options, crasher, failure, shared):
    """The example of a failure; None if it fails in no way that can be repeated. The crasher's deadline says when it has to be there."""
    first = shared if failure.all_epochs()[0].policy == shared.policy else None
    first = first or Run(options, failure.all_epochs()[0].policy)
    epochs = failure.all_epochs()
    example = Example(epochs, crasher.run_of(epochs, first), first)
    by_losses = example.ending(failure.moment, lost(failure.losses))
    if not still_fails(crasher, by_losses):
        return example if still_fails(crasher, example) else None
    example, end = shorten_crash(crasher, by_losses), crasher.deadline
    # (the rest of the time is for what is lost in the run that is found)
    crasher.deadline -= max(0, end - time.monotonic()) / 4
    if len(epochs) > 1:
        example = shorten_before(crasher, example)
    if example.run.items():
        example = shorten_choices(options, crasher, example)
    crasher.deadline = end
    return shorten_crash(crasher, example, may_lose_nothing=True)


def still_fails(crasher, example):
    return crasher.fails(example.run, example.last.moment, example.last.left)


def shorten_crash(crasher, example, may_lose_nothing=False):
    """Whole operations if that will do, then the fewest losses, then the earliest moment. Without any loss more choices may be needed: so that comes last."""
    run, moment, losses = example.run, example.last.moment, list(example.last.left.losses)
    if example.last.left.kind != "lose":
        return example

    def fails(some, at=moment):
        return not crasher.is_over() and crasher.fails(run, at, lost(some))

    whole = sorted({it[:1] for it in losses})
    if whole != losses and fails(whole):
        losses = whole
    losses = [] if may_lose_nothing and fails([]) else fewest(fails, losses)
    first = min((run.log.operations[it[0]].begin for it in losses), default=-1)
    for at in run.moments():
        if at >= moment or crasher.is_over():
            break
        if at > first and fails(losses, at):
            moment = at
            break
    return example.ending(moment, lost(losses))


def fewest(fails, items):
    """Those without which it doesn't fail: many are left out at first, and then one by one."""
    size = max(1, len(items) // 2)
    while True:
        at = 0
        while at < len(items) and len(items) > 1:
            fewer = items[:at] + items[at + size :]
            if fewer and fails(fewer):
                items = fewer
            else:
                at += size
        if size == 1:
            return items
        size //= 2


def shorten_before(crasher, example):
    """The fewest losses of the crash before the last one with which some crash of what recovers from it fails."""
    found = [example]

    def fails(some):
        if crasher.is_over():
            return False
        *before, epoch, last = found[0].epochs
        epochs = (*before, Epoch(epoch.policy, epoch.moment, lost(some)), last)
        tried = Example(epochs, crasher.run_of(epochs, example.first), example.first)
        again = failing(crasher, tried)
        if again:
            found[0] = again
        return bool(again)

    before = example.epochs[-2]
    losses = list(losses_of(crasher, example))
    whole = sorted({it[:1] for it in losses})
    if (before.left.kind != "lose" or whole != losses) and not fails(whole) and not fails(losses):
        return example
    fewest(fails, list(found[0].epochs[-2].left.losses))
    return found[0]


def losses_of(crasher, example):
    """What the crash before the last one loses."""
    epochs = example.epochs[:-1]
    run, last = crasher.run_of(epochs, example.first), epochs[-1]
    image = crasher.image(run, last.moment, last.left)
    return pieces(image, crasher.image(run, last.moment, Left("most")))


class Choices:
    """The choices of an example's run, of which fewer and fewer are left."""

    def __init__(self, options, crasher, example):
        self.options, self.crasher, self.example = options, crasher, example

    def items(self):
        return self.example.run.items()

    def fails(self, some):
        """Whether some crash of the run by these fails; it is the example then."""
        if self.crasher.is_over():
            return False
        again = failing(self.crasher, with_choices(self.options, self.crasher, self.example, some))
        if again:
            last = again.last._replace(policy=list_of(again.run.items()))
            self.example = Example((*again.epochs[:-1], last), again.run, again.first)
        return bool(again)


def shorten_choices(options, crasher, example):
    """The fewest choices of the run with which some crash of it fails: all are left out first, then those at the end, which come after the crash, then whole classes, as all that issue a request, then many and then few. If more than one is left, that is tried without classes too: a choice that is left out changes which others there are."""
    by_classes = Choices(options, crasher, example)
    if by_classes.fails([]):
        return by_classes.example
    leave_end_out(by_classes.fails, by_classes.items())
    for some in classes(by_classes.example.run.choices):
        kept = [it for it in by_classes.items() if it not in some]
        if kept != by_classes.items():
            by_classes.fails(kept)
    fewest(by_classes.fails, by_classes.items())
    plain = Choices(options, crasher, example)
    if len(by_classes.items()) > 1:
        fewest(plain.fails, plain.items())
    return min(by_classes.example, plain.example, key=lambda it: len(it.run.items()))


def with_choices(options, crasher, example, some):
    """The same crash of the run by these choices, of the program or of what recovers."""
    epochs = (*example.epochs[:-1], example.last._replace(policy=list_of(some)))
    if len(epochs) == 1:
        run = first = Run(options, epochs[0].policy)
    else:
        run, first = crasher.run_of(epochs, example.first), example.first
    return Example(epochs, run, first)


def leave_end_out(fails, items):
    """The shortest begin of some choices that fails, if those that are longer do."""
    low, high = 0, len(items)
    while low < high:
        middle = (low + high) // 2
        if fails(items[:middle]):
            high = middle
        else:
            low = middle + 1


def classes(choices):
    """The choices that aren't in order, those of one class together, the largest class first: the class is what they choose, without numbers and names."""
    found = {}
    for at, way, _, what in choices:
        if way:
            found.setdefault(re.sub(r"\d+|\(.*\)", "", what), []).append((at, way))
    return sorted(found.values(), key=len, reverse=True)


def failing(crasher, example):
    """The example, or one of its run: the first moment at which a check fails where all is lost that may be, or one thing, or some by chance. Nothing, if there is none in its part of the time."""
    if still_fails(crasher, example):
        return example
    run, end = example.run, crasher.deadline
    now = time.monotonic()
    crasher.deadline = min(end, now + max(1, (end - now) / PART))
    try:
        for kind, tries in (("least", 1), ("single", 400), ("seed", 20)):
            disk = run.begin()
            for moment in run.moments():
                disk.advance(moment)
                for losses in itertools.islice(tried(kind, unsettled(disk)), tries):
                    if crasher.is_over():
                        return None
                    left = lost(losses)
                    image = image_of(disk, left.chosen())
                    if losses and crasher.verdict(run, moment, left, image)[0] != 0:
                        return example.ending(moment, left)
    finally:
        crasher.deadline = end
    return None


def tried(kind, numbers):
    """The losses that are tried at a moment at which these operations may be lost."""
    if kind == "least":
        yield [(it,) for it in numbers]
    elif kind == "single":
        yield from ([(it,)] for it in numbers)
    else:
        for at in itertools.count():
            dice = random.Random(at)
            yield [(it,) for it in numbers if dice.random() < 0.5]
