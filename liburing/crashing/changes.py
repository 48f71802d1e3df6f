"""What an operation does to a file or to names, and what a sync makes safe of that."""

import errno

from crashing.events import COPY

# What a write that fails so may have written in part.
MAY_HAVE_WRITTEN = {errno.EIO, errno.ENOSPC, errno.EDQUOT, errno.EFBIG}


class Change:
    """What an operation does to one file: bytes from `first` on up to `last` (data, or zeros), and its length: at least, or exactly."""

    __slots__ = ("operation", "begin", "end", "first", "last", "data", "length", "is_exact")

    def __init__(self, operation, first, last, data, length, is_exact=False, ends=True):
        self.operation, self.begin, self.end = (
            operation,
            operation.begin,
            operation.end if ends else None,
        )
        self.first, self.last, self.data, self.length, self.is_exact = (
            first,
            last,
            data,
            length,
            is_exact,
        )

    def paint(self, contents):
        if self.last > self.first:
            if len(contents) < self.last:
                contents.extend(bytes(self.last - len(contents)))
            contents[self.first : self.last] = (
                self.data if self.data is not None else bytes(self.last - self.first)
            )

    def lengthen(self, length):
        if self.length is None:
            return length
        return self.length if self.is_exact else max(length, self.length)


class Sync:
    """A sync of a whole file, or of a range; of names: of what `covers` says."""

    __slots__ = ("operation", "begin", "end", "is_done", "range", "covers")

    def __init__(self, operation, begin, end, is_done, range=None, covers=None):
        self.operation, self.begin, self.end, self.is_done, self.range, self.covers = (
            operation,
            begin,
            end,
            is_done,
            range,
            covers,
        )


class Naming:
    """What an operation does to names: each becomes another file's, or nobody's."""

    __slots__ = (
        "operation",
        "begin",
        "end",
        "effects",
        "files",
        "folders",
        "sources",
        "replaced",
        "is_folded",
        "part",
        "needs",
        "new",
    )

    def __init__(self, operation, effects, files, replaced=None):
        self.operation, self.begin, self.end = operation, operation.begin, operation.end
        self.effects, self.files, self.replaced = effects, files, replaced
        self.folders, self.sources = {folder for folder, _, _ in effects}, set()
        self.is_folded, self.part, self.needs, self.new = False, "", [], None

    def is_over(self, at):
        """Whether its operation had ended by then, with all that it does."""
        return self.operation.end is not None and self.operation.end < at

    def apply(self, names):
        for folder, name, file in self.effects:
            if file is None:
                names.setdefault(folder, {}).pop(name, None)
            else:
                names.setdefault(folder, {})[name] = file


def written(operation):
    """What a write has written: where, the bytes, and whether it has ended. One that failed may have written any part."""
    if operation.kind == COPY and operation.end is None:
        return []
    count, data = operation.result, operation.bytes
    if count is not None and count < 0:
        return [(operation.offset, data, False)] if -count in MAY_HAVE_WRITTEN and data else []
    if count is None:
        return [(operation.offset, data, False)] if data else []
    found = [(operation.offset, data[:count], True)] if count else []
    if operation.actual and operation.actual[1][:count] != data[:count] and count:
        # (its memory was changed while it ran: either may have been taken)
        found.append((operation.offset, operation.actual[1][:count], True))
    return found
