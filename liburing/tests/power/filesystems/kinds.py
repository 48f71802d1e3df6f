"""Of which kinds an image is: in what ways it differs from the one in which nothing is lost."""

from crashing.events import CREATE, LINK, MAKE_FOLDER, REMOVE, RENAME
from crashing.filesystems import Part, names_told
from crashing.images import lost_ranges

NAMES = {
    CREATE: "a new name",
    MAKE_FOLDER: "a folder",
    LINK: "a link",
    RENAME: "a rename",
    REMOVE: "a removal",
}


def kinds(disk, image, whole):
    """The kinds, each once; none: nothing is lost."""
    found = set(of_names(image, whole))
    for number, (cells, length, left) in whole.shown.items():
        if number in image.shown:
            shown, shorter, less = image.shown[number]
            found.update(of_bytes(disk, disk.files[number], cells, shown, shorter))
            found.update(of_lengths(left, less, length, shorter))
    return found


PARTS = {
    "gone": "what a rename replaces is gone",
    "new": "a rename without the end of the old name",
    "old": "a rename without its new name",
}


def of_names(image, whole):
    kept = set(image.left)
    last = max((it.begin for it in kept), default=-1)
    for naming in names_told(image, whole):
        after = ", a later change of names isn't" if naming.begin < last else ""
        parts = [it.part for it in image.left if it.operation is naming.operation]
        yield PARTS[parts[-1]] if parts else f"{NAMES[naming.operation.kind]} is lost{after}"
    if any(it.replaced is not None for it in image.left):
        yield "a rename over a file is left"


def of_bytes(disk, file, cells, shown, length):
    lost = lost_ranges(cells, shown)
    own = {}
    for first, last, change in cells:
        own[change] = own.get(change, 0) + last - first
    for change, ranges in lost.items():
        what = "zeros" if change.data is None else "a write"
        count = sum(last - first for first, last in ranges)
        yield f"{what} {'lost' if count == own[change] else 'torn'}"
        is_torn = any(at % 512 and at != change.first for first, _ in ranges for at in (first,))
        if count != own[change] and is_torn:
            yield f"{what} torn within 512 bytes"
        grown = [it for it in ranges if file.length <= it[0] < length]
        beyond = -(-file.length // 4096) * 4096
        if change.data is not None and grown:
            is_beyond = any(last > beyond and length > beyond for _, last in grown)
            yield f"a file that grew lacks bytes {'beyond' if is_beyond else 'within'} its last block"


def of_lengths(left, less, length, shorter):
    if any(isinstance(it, Part) for it in less):
        yield "a length in between"
    for change in left:
        if change not in less:
            yield "a truncation is lost" if change.is_exact else "the length of a write is lost"
    if length != shorter:
        yield "another length"
