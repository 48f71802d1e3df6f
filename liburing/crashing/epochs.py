"""What names a crash: in which run, at which moment, and what of the disk is left by it. Where what recovers is crashed too, a crash has others before it, each in a run of its own."""

import random
from typing import NamedTuple

from crashing.labels import Chosen
from exploring.runs import stop

WORDS = ("least", "most")


class Left(NamedTuple):
    """What a crash leaves, so that it can be told and made again: all but some losses (`lose`), what a seed picks (`seed`), what is safe alone (`least`) or all (`most`)."""

    kind: str
    losses: tuple = ()
    seed: int = 0

    def chosen(self):
        dice = random.Random(self.seed) if self.kind == "seed" else None
        return Chosen(self.kind, self.losses, dice)

    def told(self):
        if self.kind == "seed":
            return f"seed:{self.seed}"
        return self.kind if self.kind in WORDS else ",".join(map(told_loss, self.losses))


class Epoch(NamedTuple):
    """A run up to the crash that ends it: its choices, the events up to then, and what is left."""

    policy: str
    moment: int
    left: Left


def lost(losses):
    return Left("lose", tuple(losses))


def told_loss(loss):
    return f"{loss[0]}:{loss[1]}-{loss[2] - 1}" if len(loss) == 3 else ":".join(map(str, loss))


def read_loss(word):
    """N, N:FIRST-LAST, or N with a part of it: its length, that up to a byte, or one of a rename's names."""
    number, _, part = word.partition(":")
    try:
        if part in ("", "length", "gone", "new", "old") or part.startswith("length="):
            return (int(number), part) if part else (int(number),)
        first, last = part.split("-")
        return int(number), int(first), int(last) + 1
    except ValueError:
        stop(
            f"{word}: a loss is N, N:FIRST-LAST or N:length, or all of them are least, most or seed:N"
        )


def read_left(word):
    if word in WORDS:
        return Left(word)
    if word.startswith("seed:") and word[5:].isdecimal():
        return Left("seed", seed=int(word[5:]))
    return lost(read_loss(it) for it in word.split(",") if it)


def read_epochs(lists, moments, lefts):
    """The crashes that --list, --at and --lose name, one after the other, with a slash between."""
    lists, moments, lefts = (lists or "").split("/"), moments.split("/"), lefts.split("/")
    if not all(it.isdecimal() for it in moments):
        stop(f"{'/'.join(moments)}: --at is a number of events, or several with a slash between")
    if len(lists) > len(moments) or len(lefts) > len(moments):
        stop("--list and --lose have no more parts than --at")
    lists += [""] * (len(moments) - len(lists))
    lefts += [""] * (len(moments) - len(lefts))
    return [
        Epoch("list:" + choices, int(moment), read_left(left))
        for choices, moment, left in zip(lists, moments, lefts)
    ]
