"""The page of a crash: a lane for each operation on the disk, up to the moment at which the power fails, and what is left of each."""

import os
import sys

from crashing.events import (
    COPY,
    LENGTH,
    MAPPED,
    NAMES,
    OF_NAMES,
    SPACE,
    SYNC,
    SYNC_ALL,
    SYNCS_ITS_RANGE,
    WRITE,
)
from crashing.images import losses, pieces, relative, unsettled, why_lost

HERE = os.path.dirname(os.path.dirname(os.path.realpath(__file__)))
# Where the page's parts lie: in the repository, or where the package has them.
sys.path[:0] = [f"{HERE}/page", f"{os.path.dirname(HERE)}/page"]
from parts import write  # noqa: E402
from recorded import printing  # noqa: E402

OF_BYTES = (WRITE, COPY, MAPPED)
OF_FILES = (*OF_BYTES, LENGTH, SPACE)


def draw(options, pictures, status, said):
    """The data of one crash, whose page is written if it is asked for. Each run up to it is a run, the moment at which the power failed in it, the image, and that in which nothing is lost."""
    last = printing(said.rstrip(b"\n").rsplit(b"\n", 1)[-1][-200:])
    ended = f"; the check ends with status {status}" + (f": {last}" if last else "")
    runs = [
        {
            "group": f"disk {at + 1}" if at else "disk",
            "name": "what recovers, until the power fails"
            if at
            else "the run, until the power fails",
            "told": f"the power fails after event {it[1]}{ended if it is pictures[-1] else ''}",
            "setup": {"sq": 0, "cq": 0, "start": 0, "stops": False},
            "headings": ["operations"],
            **of_run(*it, status if it is pictures[-1] else 0),
        }
        for at, it in enumerate(pictures)
    ]
    data = {"form": 2, "title": "A crash", "told": " ".join(options.shown), "runs": runs}
    if options.page:
        write(data, options.page)
    return data


def of_run(run, moment, image, whole, status):
    """The lines and the operations of a run up to a moment, and the crash as the last line."""
    disk, lines, safe = run.begin(), [], set()
    begun = [it for it in run.log.operations if it.begin < moment]
    begins, ends = by_event(begun, "begin"), by_event(
        [it for it in begun if it.end is not None and it.end < moment], "end"
    )
    printed = {at: data for at, data in run.log.printed if at < moment}
    for at in sorted({*begins, *ends, *printed}):
        disk.advance(at + 1)
        for operation in begins.get(at, []):
            lines.append(
                line_of(
                    at,
                    f"{NAMES[operation.kind]} of {path_of(disk, operation)} begins",
                    [
                        {"request": operation.number, "is": "accepted"},
                        {"request": operation.number, "is": "runs", "why": "runs"},
                    ],
                )
            )
        for operation in ends.get(at, []):
            lines.append(
                line_of(
                    at,
                    f"operation {operation.number} ends",
                    [{"request": operation.number, "is": "ended", "result": operation.result or 0}],
                )
            )
            lines[-1].update(answer=str(operation.result or 0), **state_of(disk, operation))
            if makes_safe(operation):
                lines[-1]["changes"] += newly_safe(disk, begun, at, safe)
        if at in printed:
            lines.append(line_of(at, "prints", []))
            lines[-1]["answer"] = printing(printed[at].rstrip(b"\n")[-200:])
    disk.advance(moment)
    lines.append(line_of(moment, "the power fails", left_of(disk, begun, safe, image, whole)))
    lines[-1]["notes"] = [
        printing(it.encode(errors="surrogateescape")) for it in losses(disk, image, whole)
    ]
    if status != 0:
        lines[-1]["wrong"] = f"the check ends with status {status}"
    lines[0]["notes"] = [
        *(
            f"choice {at}: {printing(what.encode())}, way {way} of 0 to {count - 1}"
            for at, way, count, what in run.choices
            if way
        ),
        *lines[0].get("notes", []),
    ]
    for number, line in enumerate(lines):
        line["line"] = number + 1
    return {"lines": lines, "requests": [request_of(disk, it) for it in begun]}


def by_event(operations, name):
    found = {}
    for it in operations:
        found.setdefault(getattr(it, name), []).append(it)
    return found


def line_of(at, text, changes):
    return {
        "line": 0,
        "text": f"event {at + 1}: {text}" if text != "the power fails" else text,
        "changes": changes,
    }


def path_of(disk, operation):
    return printing(
        (relative(disk, operation.path) or "the folder").encode(errors="surrogateescape")
    )


def request_of(disk, operation):
    """An operation as a request of the page: its file stands for the user data."""
    path = path_of(disk, operation)
    request = {
        "request": operation.number,
        "user_data": path,
        "operation": NAMES[operation.kind],
        "flags": "",
        "call": 0,
        "chain": operation.number,
    }
    if operation.kind in OF_BYTES:
        return {
            **request,
            "operation": "write",
            "file": path,
            "offset": str(operation.offset),
            "length": operation.length,
            "told": f"{NAMES[operation.kind]} {operation.nth}, {operation.length} bytes at {operation.offset}",
        }
    if operation.second_path:
        request[
            "told"
        ] = f"{NAMES[operation.kind]} to {printing(relative(disk, operation.second_path).encode(errors='surrogateescape'))}"
    return request


def state_of(disk, operation):
    """How the file of an operation stands after it."""
    if operation.kind not in (*OF_FILES, SYNC) or operation.file not in disk.by_inode:
        return {}
    file = disk.files[disk.by_inode[operation.file]]
    if file.kind != "file":
        return {}
    length = file.length
    for change in sorted(
        (it for it in file.changes if it.end is not None and it.end < disk.now),
        key=lambda it: it.end,
    ):
        length = change.lengthen(length)
    waiting = {it.operation.number for it in file.changes}
    lost = {it for it in unsettled(disk) if it in waiting}
    return {
        "file": {
            "file": path_of(disk, operation),
            "length": length,
            "writes": file.writes,
            "synced": file.writes
            - sum(1 for it in file.changes if it.operation.nth and it.operation.number in lost),
        }
    }


def makes_safe(operation):
    return operation.kind in (SYNC, SYNC_ALL) or bool(operation.flags & SYNCS_ITS_RANGE)


def newly_safe(disk, begun, at, safe):
    """What has become safe: it has ended, and a crash leaves it for certain."""
    waiting = set(unsettled(disk))
    found = [
        it.number
        for it in begun
        if it.end is not None
        and it.end <= at
        and it.number not in waiting
        and it.number not in safe
        and (it.kind in OF_FILES or it.kind in OF_NAMES)
        and not it.fails()
    ]
    safe.update(found)
    return [{"request": it, "is": "safe"} for it in found]


def left_of(disk, begun, safe, image, whole):
    """What a crash leaves of each operation that isn't safe: nothing, a part, or all of what it would show."""
    lost, found = {it[0] for it in pieces(image, whole)}, []
    shown, all_shown, why = shown_by(image), shown_by(whole), reasons(disk)
    for operation in begun:
        number = operation.number
        if number in safe or number not in why:
            continue
        if number in lost:
            found.append(
                {"request": number, "is": "torn" if number in shown else "lost", "why": why[number]}
            )
        elif number in all_shown:
            found.append({"request": number, "is": "left", "why": why[number]})
    return found


def shown_by(image):
    """The operations of which an image shows something."""
    return {it.operation.number for it in image.left} | {
        change.operation.number
        for cells, _, left in image.shown.values()
        for change in [*(it[2] for it in cells), *left]
        if change is not None
    }


def reasons(disk):
    """Why what isn't settled may be lost."""
    found = {}
    for file in disk.files:
        for change in file.changes:
            found[change.operation.number] = printing(
                why_lost(disk, change, file.all_syncs, disk.short(file)).encode(
                    errors="surrogateescape"
                )
            )
    for naming in disk.namings:
        found[naming.operation.number] = why_lost(disk, naming, disk.name_syncs, "its folder")
    return found
