"""The log of a run's files, as layer/traces/log.h has it: its events, and the operations that begin and end in them."""

import struct

HEAD = struct.Struct("<IHHIIQQQqQqHHI")
(
    WRITE,
    COPY,
    SYNC,
    SYNC_ALL,
    LENGTH,
    SPACE,
    CREATE,
    MAKE_FOLDER,
    MAKE_LINK,
    LINK,
    RENAME,
    REMOVE,
    END,
    CARRY,
    PRINT,
    MAPPED,
) = range(1, 17)
SYNCS_ITS_RANGE, IS_OF_RANGE, IS_OF_DATA, WAS_REFUSED = 1, 2, 4, 8
OF_NAMES = {CREATE, MAKE_FOLDER, MAKE_LINK, LINK, RENAME, REMOVE}
NAMES = {
    WRITE: "write",
    COPY: "copy",
    SYNC: "fsync",
    SYNC_ALL: "sync",
    LENGTH: "length",
    SPACE: "fallocate",
    CREATE: "creation",
    MAKE_FOLDER: "folder",
    MAKE_LINK: "symbolic link",
    LINK: "link",
    RENAME: "rename",
    REMOVE: "removal",
    MAPPED: "write by shared memory",
}


class Event:
    __slots__ = (
        "kind",
        "flags",
        "process",
        "thread",
        "operation",
        "file",
        "second",
        "offset",
        "length",
        "result",
        "path",
        "second_path",
        "bytes",
    )


def read_events(data):
    """The events; and whether the log ends in the middle of one."""
    found, at = [], 0
    while at + HEAD.size <= len(data):
        event = Event()
        (
            size,
            event.kind,
            event.flags,
            event.process,
            event.thread,
            event.operation,
            event.file,
            event.second,
            event.offset,
            event.length,
            event.result,
            path,
            second,
            count,
        ) = HEAD.unpack_from(data, at)
        if size < HEAD.size or at + size > len(data) or size != HEAD.size + path + second + count:
            return found, True
        after = at + HEAD.size
        event.path = data[after : after + path].decode(errors="surrogateescape")
        event.second_path = data[after + path : after + path + second].decode(
            errors="surrogateescape"
        )
        event.bytes = data[after + path + second : at + size]
        found.append(event)
        at += size
    return found, at != len(data)


class Operation:
    """What begins in one event, and ends in another or not at all. Of a write: its bytes; of a copy they come with its end."""

    __slots__ = (
        "kind",
        "flags",
        "begin",
        "end",
        "file",
        "second",
        "offset",
        "length",
        "result",
        "path",
        "second_path",
        "bytes",
        "made",
        "actual",
        "number",
        "nth",
    )

    def __init__(self, event, at):
        self.kind, self.flags, self.begin, self.end = event.kind, event.flags, at, None
        self.file, self.second, self.offset, self.length = (
            event.file,
            event.second,
            event.offset,
            event.length,
        )
        self.path, self.second_path, self.bytes = event.path, event.second_path, event.bytes
        self.result, self.made, self.actual, self.number = None, 0, None, 0
        self.nth = 0

    def fails(self):
        return self.result is not None and self.result < 0


class Log:
    """A run: how many events there are, its operations in the order of their begins, and what was printed in which event."""

    def __init__(self, data):
        self.data = data
        self.events, self.is_cut = read_events(data)
        self.count = len(self.events)
        self.operations, self.printed = [], []
        self.open, self.of_rings, self.carried, self.compared, self.mapped = {}, {}, {}, {}, {}
        for at, event in enumerate(self.events):
            self.take(at, event)
        # (a mapped write began where its file was last compared)
        self.operations.sort(key=lambda it: it.begin)
        for number, operation in enumerate(self.operations):
            operation.number = number

    def take(self, at, event):
        thread = (event.process, event.thread)
        carried = self.carried.get(thread)
        if carried is not None and not (event.kind == END and event.operation):
            self.carry(at, event, thread, carried)
            return
        if event.kind == END:
            self.end(at, event, thread)
        elif event.kind == CARRY:
            self.carried[thread] = self.of_rings.get((event.process, event.operation))
        elif event.kind == PRINT:
            self.printed.append((at, event.bytes))
        else:
            self.begin(at, event, thread)

    def carry(self, at, event, thread, carried):
        """What a thread does for a ring's operation is part of that; but what is found in mapped memory meanwhile was written by the program."""
        if event.kind == WRITE:
            carried.actual = (event.offset, event.bytes)
        elif event.kind == MAPPED:
            self.begin(at, event, thread)
        elif event.kind in (SYNC, SYNC_ALL):
            self.compared[event.process, 0] = at

    def begin(self, at, event, thread):
        operation = Operation(event, at)
        if event.kind == MAPPED and not event.length:
            self.compared[event.process, event.file] = at
            self.mapped.setdefault(event.file, at)
            return
        self.operations.append(operation)
        if event.kind == MAPPED:
            operation.begin, operation.end, operation.result = (
                self.compared_at(event, at),
                at,
                event.length,
            )
            return
        if event.kind in (SYNC, SYNC_ALL) and not event.operation:
            self.compared[event.process, 0] = at
        if event.operation:
            self.of_rings[event.process, event.operation] = operation
        else:
            self.open.setdefault(thread, []).append(operation)

    def compared_at(self, event, at):
        """Where a process has last compared a file with what is mapped of it: where it mapped it, or where a sync by a call of its own (0) began or ended. A child may have neither: its parent had mapped it."""
        keys = (event.process, event.file), (event.process, 0)
        return max(
            (self.compared[it] for it in keys if it in self.compared),
            default=self.mapped.get(event.file, at),
        )

    def end(self, at, event, thread):
        if event.operation:
            self.carried.pop(thread, None)
            operation = self.of_rings.pop((event.process, event.operation), None)
        else:
            operation = self.open[thread].pop() if self.open.get(thread) else None
        if operation is None:
            return
        if event.flags & WAS_REFUSED:
            self.operations.remove(operation)
            return
        operation.end, operation.result, operation.made = at, event.result, event.file
        if operation.kind in (SYNC, SYNC_ALL) and not event.operation:
            self.compared[event.process, 0] = at
        if operation.kind == COPY:
            operation.bytes = event.bytes
