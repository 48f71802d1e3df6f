"""Failures of one kind: the check's first line is the same, and so is what is lost, but for numbers."""


from crashing.events import NAMES
from exploring.kinds import first_line, without_numbers


def names_of(disk, run, losses):
    """What is lost, in words: of each file the kinds of what was done to it."""
    found = set()
    for loss in losses:
        operation = run.log.operations[loss[0]]
        is_length = len(loss) == 2 and loss[1].startswith("length")
        what = "length" if is_length else NAMES[operation.kind]
        path = operation.path
        if path.startswith(disk.folder):
            path = path[len(disk.folder) + 1 :]
        found.add(f"{what} of {path or 'the folder'}")
    return tuple(sorted(found))


def key_of(failure):
    lost = tuple(sorted({without_numbers(it) for it in failure.lost}))
    return without_numbers(first_line(failure.said)), lost


class Kind:
    """Some failures, and the one that is told: that in which the least is lost."""

    def __init__(self, failure):
        self.failure, self.count, self.kept = failure, 0, None
        self.add(failure)

    def add(self, failure):
        self.count += 1
        self.kept = self.kept or failure.kept
        if weight(failure) < weight(self.failure):
            self.failure = failure


def weight(failure):
    return len(failure.epochs), len(failure.losses), failure.moment


def kinds_of(failures):
    """The kinds, that of most failures first."""
    found = {}
    for failure in failures:
        key = key_of(failure)
        if key in found:
            found[key].add(failure)
        else:
            found[key] = Kind(failure)
    return sorted(found.values(), key=lambda it: -it.count)
