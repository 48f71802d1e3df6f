"""A folder that is brought into the state of one image after the other, and the check that is run in it."""

import os
import shutil
import tempfile

from crashing.runs import run_and_end

BLOCK = 4096
# The time that each file has.
OURS = 10**18


class Room:
    """What differs is written, and no more. What a check has left is read: memory that is shared with a file changes it without a sign."""

    def __init__(self, check, seconds, place):
        self.check, self.seconds = check, seconds
        self.place = tempfile.mkdtemp(prefix="room-", dir=place)
        self.folder = f"{self.place}/image"
        os.mkdir(self.folder)

    def close(self):
        shutil.rmtree(self.place, ignore_errors=True)

    def bring(self, image):
        self.remove_others(image)
        for path, it in image.tree.items():
            whole = f"{self.folder}/{path}"
            if it is None:
                os.makedirs(whole, exist_ok=True)
            elif it[0] == "link":
                if not (os.path.islink(whole) and os.fsencode(os.readlink(whole)) == it[1]):
                    self.drop(whole)
                    os.symlink(it[1], os.fsencode(whole))
            elif path in image.links:
                self.drop(whole)
                os.link(f"{self.folder}/{image.links[path]}", whole)
            else:
                self.bring_file(whole, it[1], it[2])

    def remove_others(self, image):
        """What the image doesn't have, or has as something else."""
        for at, folders, files in os.walk(self.folder, topdown=False):
            for name in [*files, *folders]:
                whole = f"{at}/{name}"
                it = image.tree.get(os.path.relpath(whole, self.folder), 0)
                is_folder = os.path.isdir(whole) and not os.path.islink(whole)
                if (
                    it == 0
                    or (it is None) != is_folder
                    or (it and (it[0] == "link") != os.path.islink(whole))
                    or (not is_folder and os.lstat(whole).st_nlink > 1)
                ):
                    self.drop(whole)

    def drop(self, whole):
        if os.path.isdir(whole) and not os.path.islink(whole):
            shutil.rmtree(whole)
        elif os.path.lexists(whole):
            os.unlink(whole)

    def bring_file(self, whole, contents, mode):
        descriptor = os.open(whole, os.O_RDWR | os.O_CREAT | os.O_NOFOLLOW, 0o600)
        try:
            before = os.pread(descriptor, os.fstat(descriptor).st_size, 0)
            if before != contents:
                write_what_differs(descriptor, before, contents)
            os.fchmod(descriptor, (mode & 0o7777) | 0o600)
            os.utime(descriptor, ns=(OURS, OURS))
        finally:
            os.close(descriptor)

    def run(self, printed):
        """The check's status and what it said. Its standard input is what the program had printed."""
        with open(f"{self.place}/printed", "wb") as file:
            file.write(printed)
        surroundings = {
            name: value
            for name, value in os.environ.items()
            if not name.startswith("WULGACH_") and name != "LD_PRELOAD"
        }
        with open(f"{self.place}/printed", "rb") as file, open(f"{self.place}/said", "w+b") as said:
            status = run_and_end(
                self.check,
                self.seconds,
                cwd=self.folder,
                env={**surroundings, "DISK": self.folder},
                stdin=file,
                stdout=said,
                stderr=said,
            )
            said.seek(0)
            return status, said.read()


def write_what_differs(descriptor, before, contents):
    if len(before) > len(contents):
        os.ftruncate(descriptor, len(contents))
    for at in range(0, len(contents), BLOCK):
        block = contents[at : at + BLOCK]
        if before[at : at + BLOCK] != block:
            os.pwrite(descriptor, block, at)
