"""Crashes one run after the other and asks a check, and crashes what recovers from what is left."""

import random
import time

from crashing.epochs import Epoch, Left, lost
from crashing.images import all_images, image_of, pieces, unsettled
from crashing.kinds import key_of, names_of
from crashing.labels import Chosen
from crashing.rooms import Room
from crashing.runs import Run, Start
from exploring.runs import list_of

KINDS = ["least", "least", "single", "single", "single", "seed", "seed", "seed", "seed", "most"]
EACH = 20  # crashes of a run, where runs differ, and of one that recovers
GOES_ON = 8  # of so many crashes of what recovers one is recovered from in turn
REMEMBERED = 16  # runs that recover


class Failure:
    """A crash after which a check fails, with those before it, and what has to be known of its run when that is gone."""

    def __init__(self, run, disk, left, image, verdict):
        self.policy, self.items, self.choices = run.policy, run.items(), len(run.choices)
        self.epochs, self.moment, self.left = run.epochs, disk.now, left
        self.status, self.said = verdict
        self.losses = pieces(image, image_of(disk, Chosen("most")))
        self.lost = names_of(disk, run, self.losses)
        self.kept = None

    def all_epochs(self):
        return (*self.epochs, Epoch(list_of(self.items), self.moment, self.left))


class Crasher:
    """Crashes one run after the other, in a room of its own. What was checked once isn't checked again."""

    def __init__(self, options):
        self.options, self.room = options, Room(options.check, options.seconds, options.place)
        self.known, self.crashes, self.deadline = {}, 0, float("inf")
        self.begun, self.recovered, self.remarks, self.passed = set(), {}, [], 0
        self.run, self.disk, self.kept = None, None, set()

    def close(self):
        self.room.close()

    def is_over(self):
        return time.monotonic() > self.deadline

    def is_recovered(self, run):
        """Whether what recovers from a crash of this run is crashed too."""
        return bool(self.options.recover) and len(run.epochs) < self.options.depth

    def verdict(self, run, moment, left, image):
        """The check's status and words. If that which recovers is crashed too, it has to end well."""
        self.crashes += 1
        key = (image.key(), hash(run.printed(moment)))
        if key not in self.known:
            self.room.bring(image)
            self.known[key] = self.room.run(run.printed(moment))
        if self.known[key][0] != 0 or not self.is_recovered(run):
            return self.known[key]
        after = self.recover(run, moment, left, image)
        if after.status == 0:
            return self.known[key]
        said = f"the recovery ends with status {after.status}\n".encode()
        return after.status, said + after.last_lines()

    def recover(self, run, moment, left, image, policy="list:"):
        """The run that recovers from an image."""
        key = (image.key(), hash(run.printed(moment)), policy, run.epochs, moment, left)
        if key not in self.recovered:
            if len(self.recovered) >= REMEMBERED:
                self.recovered.clear()
            self.room.bring(image)
            before = Epoch(list_of(run.items()), moment, left)
            start = Start(
                self.options.recover,
                self.room.folder,
                run.printed(moment),
                (*run.epochs, before),
            )
            self.recovered[key] = Run(self.options, policy, start)
            self.remarks += self.recovered[key].remarks
        return self.recovered[key]

    def crash(self, run, specs):
        """The failures of these crashes: each is a moment, a kind and a seed."""
        found, disk = [], run.begin()
        for moment, kind, seed in sorted(specs):
            disk.advance(moment)
            left = choose(disk, kind, seed)
            image = image_of(disk, left.chosen())
            found += self.look_at(run, disk, left, image, seed)
            if found and not self.options.keep_going:
                break
        return found

    def look_at(self, run, disk, left, image, seed):
        """The failures of one crash: its own, or those of the crashes in what recovers from it."""
        moment = disk.now
        verdict = self.verdict(run, moment, left, image)
        if verdict[0] != 0:
            return [self.failure(run, disk, left, image, verdict)]
        if not self.is_recovered(run) or (run.epochs and seed % GOES_ON):
            return []
        key = (image.key(), hash(run.printed(moment)), len(run.epochs))
        if key in self.begun:
            return []
        self.begun.add(key)
        after = self.recover(run, moment, left, image)
        if after.choices and seed % 2:
            after = self.recover(run, moment, left, image, f"seed:{seed}")
        if self.options.all:
            return self.crash_all(after)
        return self.crash(after, plan(after, self.options.each or EACH, seed))

    def failure(self, run, disk, left, image, verdict):
        """A failure. The first of a kind has its image, in case it can't be made again."""
        found = Failure(run, disk, left, image, verdict)
        if self.options.keep and key_of(found) not in self.kept:
            self.kept.add(key_of(found))
            found.kept = (image.bare(), run.printed(disk.now), run.log.data)
        return found

    def crash_all(self, run):
        """The failures of every image at every moment, where there are few; the moments that have too many are counted."""
        found, disk = [], run.begin()
        for moment in run.moments():
            disk.advance(moment)
            images, whole = all_images(disk, self.options.most), image_of(disk, Chosen("most"))
            self.passed += images is None
            for number, image in enumerate(images or []):
                left = lost(pieces(image, whole))
                found += self.look_at(run, disk, left, image, number * GOES_ON)
                if found and not self.options.keep_going:
                    return found
        return found

    def image(self, run, moment, left):
        """What a crash leaves: of the run that was asked about before from where it stands."""
        if run is not self.run or moment < self.disk.now:
            self.run, self.disk = run, run.begin()
        self.disk.advance(moment)
        return image_of(self.disk, left.chosen())

    def fails(self, run, moment, left):
        return self.verdict(run, moment, left, self.image(run, moment, left))[0] != 0

    def run_of(self, epochs, first=None):
        """The run that the last of these crashes ends. `first`: that of the first, if it is known."""
        run = first or Run(self.options, epochs[0].policy)
        for before, it in zip(epochs, epochs[1:]):
            image = self.image(run, before.moment, before.left)
            run = self.recover(run, before.moment, before.left, image, it.policy)
        return run


def choose(disk, kind, seed):
    if kind == "single":
        numbers = unsettled(disk)
        return lost([(numbers[seed % len(numbers)],)] if numbers else [])
    return Left(kind, seed=seed if kind == "seed" else 0)


def plan(run, count, seed):
    """Crashes of a run: its moments in an order by chance, again and again, and of each a kind."""
    dice, moments = random.Random(seed), run.moments()
    dice.shuffle(moments)
    return [
        (moments[at % len(moments)], dice.choice(KINDS), dice.getrandbits(32))
        for at in range(count)
    ]
