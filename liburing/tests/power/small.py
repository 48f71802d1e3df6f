#!/usr/bin/env python3
"""Small programs of a few writes, and checks of what a crash has left: `trusted` knows which of them fail.

    liburing/tests/power/small.py begin CASE FOLDER     makes the disk that it begins with
    liburing/tests/power/small.py run CASE
    liburing/tests/power/small.py check CASE
"""

import ctypes
import mmap
import os
import subprocess
import sys

SIZE = 68
OLD, NEW = b"a" * SIZE, b"b" * SIZE


def begin(case):
    for name in "data", "other", "long", "log", "log2":
        with open(name, "wb") as file:
            file.write({"block": b"a" * 4096, "cut": b"a" * 4096 + OLD}.get(case, OLD))
            if name == "long" and case == "memory":
                file.truncate(6000000)
    if case == "datasync":
        os.remove("data")
    elif case in ("nested", "moved"):
        os.makedirs("one/two")
    elif case == "linked":
        os.link("data", "second")


def opened(name):
    return os.open(name, os.O_RDWR | os.O_CREAT)


def read(name):
    with open(name, "rb") as file:
        return file.read()


def torn():
    """All of it is written, and the first 64 bytes once more and safely: what is after them may be torn."""
    os.pwrite(opened("data"), NEW, 0)
    os.pwritev(opened("data"), [NEW[:64]], 0, os.RWF_DSYNC)
    print("safe")


def cut():
    """A file is cut, and written to across where it was cut: the bytes before that place may be left without the cut."""
    os.ftruncate(opened("data"), 4096)
    os.pwrite(opened("data"), b"bbbb", 4094)


def mapped(is_early):
    """What is in memory is changed before what it relies on is safe; or after that."""
    memory = mmap.mmap(opened("data"), 0)
    memory.flush()
    if is_early:
        memory[:SIZE] = NEW
    os.pwrite(opened("other"), NEW, 0)
    os.fsync(opened("other"))
    memory[:SIZE] = NEW
    memory.flush()


def first():
    """The same where the memory has never been synced."""
    memory = mmap.mmap(opened("data"), 0)
    memory[:SIZE] = NEW
    os.pwrite(opened("other"), NEW, 0)
    os.fsync(opened("other"))
    memory.flush()


def renamed(sync):
    """A new file is safe with its name, gets another, and is synced again."""
    file = opened("new")
    os.write(file, NEW)
    os.fsync(file)
    os.fsync(os.open(".", os.O_RDONLY))
    os.rename("new", "data")
    sync(file)
    print("safe")


def grown():
    """An fdatasync after a write that makes the file longer reaches what was named before."""

    def sync(file):
        os.write(file, NEW)
        os.fdatasync(file)

    renamed(sync)


def lengths():
    os.ftruncate(opened("log"), 100)
    os.ftruncate(opened("log2"), 100)
    print("safe")


def longer():
    """A write makes a file longer: its first bytes may be lost, and the length too."""
    os.pwrite(opened("new"), NEW, 0)


def appended(size):
    """A file gets longer by a write after its end."""
    os.write(os.open("data", os.O_WRONLY | os.O_APPEND), b"b" * size)
    print("ended")


def rewritten():
    """A file is cut to nothing, and written anew."""
    file = opened("data")
    os.ftruncate(file, 0)
    os.pwrite(file, NEW, 0)
    print("ended")


def patched():
    """A new file is safe, gets longer within its block, and takes another's place: the rename doesn't wait for these bytes."""
    file = opened("new")
    os.write(file, OLD)
    os.fsync(file)
    os.write(file, NEW)
    os.rename("new", "data")
    print("ended")


def hasty():
    """It is acknowledged before it is written."""
    print("safe", flush=True)
    os.pwrite(opened("data"), NEW, 0)
    os.fsync(opened("data"))


def nested():
    """A folder goes into one that was in it: with each name by itself, it may be in itself."""
    os.rename("one/two", "three")
    os.rename("one", "three/one")


def between():
    """A file gets longer by several blocks."""
    os.pwrite(opened("data"), b"b" * 6000, SIZE)


def lengthen_safely(name):
    """A file gets longer, and is safe: its sync commits the journal."""
    file = os.open(name, os.O_WRONLY | os.O_APPEND)
    os.write(file, NEW)
    os.fdatasync(file)
    print("safe")


def committed():
    """A file gets another's name, and then another one longer."""
    os.rename("log", "log2")
    lengthen_safely("other")


def early_commit():
    """A file gets longer and is renamed, and only then synced: the journal may have been committed in between."""
    file = os.open("other", os.O_WRONLY | os.O_APPEND)
    os.write(file, NEW)
    os.rename("log", "log2")
    os.fdatasync(file)
    print("safe")


def sized():
    """A file's length is set, and then another one gets longer."""
    os.ftruncate(opened("log"), 100)
    lengthen_safely("other")


def moved():
    """A file goes into another folder, which is synced."""
    os.rename("log", "one/log")
    os.fsync(os.open("one", os.O_RDONLY))


def cut_within():
    """A file is cut within a block."""
    os.ftruncate(opened("data"), 4)


def exchange(one, other):
    assert ctypes.CDLL(None).renameat2(-100, one, -100, other, 2) == 0


def linked():
    """Files of the same bytes, and a second name of one: it changes places with another, and back."""
    exchange(b"second", b"other")
    exchange(b"other", b"second")


def exchanged():
    """A new file takes another's place by an exchange of their names, which is no rename over a file: nobody has written its bytes before."""
    os.pwrite(opened("new"), NEW, 0)
    exchange(b"new", b"data")


def named():
    """A name may be any bytes."""
    os.pwrite(opened(b"da\xffta"), NEW, 0)
    print("safe")


def memory():
    for number in range(3):
        os.pwrite(opened("data"), b"%d" % number, 0)


def forked():
    """A child's syncs are counted from its own start: which of them fail is printed."""
    file = opened("data")
    os.fsync(file)
    child = os.fork()
    for number in (1, 2):
        try:
            os.fsync(file)
        except OSError:
            print(f"{'parent' if child else 'child'} {number}", flush=True)
    if child:
        os.waitpid(child, 0)
    else:
        os._exit(0)


def two():
    """A file is acknowledged with neither its bytes nor its length synced, and another one with its bytes alone lost."""
    os.pwrite(opened("data"), NEW, 0)
    print("safe 1", flush=True)
    os.truncate("other", SIZE // 2)
    print("safe 2", flush=True)


RUNS = {
    "torn": torn,
    "cut": cut,
    "early": lambda: mapped(True),
    "late": lambda: mapped(False),
    "first": first,
    "fsync": lambda: renamed(os.fsync),
    "datasync": lambda: renamed(os.fdatasync),
    "grown": grown,
    "lengths": lengths,
    "longer": longer,
    "appended": lambda: appended(SIZE),
    "block": lambda: appended(SIZE),
    "across": lambda: appended(5000),
    "rewritten": rewritten,
    "patched": patched,
    "hasty": hasty,
    "nested": nested,
    "between": between,
    "committed": committed,
    "early_commit": early_commit,
    "sized": sized,
    "moved": moved,
    "cut_within": cut_within,
    "linked": linked,
    "exchanged": exchanged,
    "named": named,
    "memory": memory,
    "leaves": memory,
    "forked": forked,
    "two": two,
}


def check_memory():
    """The check writes to a long file through memory: the next one finds it as it was."""
    found = mmap.mmap(opened("long"), 0)
    assert found[5000000] == 0
    found[5000000] = 1


def check_leaves():
    subprocess.Popen(
        ["sleep", os.environ["LEFT"]],
        start_new_session=True,
        stdout=subprocess.DEVNULL,
        stderr=subprocess.DEVNULL,
    )


def check(case):
    printed = sys.stdin.read()
    is_safe, is_ended = "safe" in printed, "ended" in printed
    if case == "torn" and is_safe:
        assert len(set(read("data")[64:])) == 1, "the end is torn"
    elif case == "cut":
        assert read("data") != b"a" * 4094 + b"bb" + OLD, "it is written to, and not cut"
    elif case in ("early", "late", "first"):
        assert read("data") == OLD or read("other") == NEW, "what it relies on isn't there"
    elif case in ("fsync", "datasync", "grown") and is_safe:
        assert os.path.exists("data") and read("data")[:SIZE] == NEW, "it hasn't its name"
    elif case == "lengths" and is_safe:
        assert (
            os.path.exists("log")
            and os.path.getsize("log") == 100
            or os.path.getsize("log2") == 100
        ), "neither is as long"
    elif case in ("appended", "block", "across", "rewritten", "patched") and is_ended:
        assert b"\0" not in read("data"), "it is longer, and has zeros"
    elif case == "hasty" and is_safe:
        assert read("data") == NEW, "it isn't there"
    elif case == "between":
        assert os.path.getsize("data") in (SIZE, SIZE + 6000), "it ends within what was written"
    elif case in ("committed", "early_commit") and is_safe:
        assert not os.path.exists("log"), "it has its old name"
    elif case == "sized" and is_safe:
        assert os.path.getsize("log") == 100, "it isn't as long"
    elif case == "moved":
        assert not (os.path.exists("log") and os.path.exists("one/log")), "it has both names"
    elif case == "cut_within":
        assert read("data") in (OLD, OLD[:4]), "it has zeros, and its old length"
    elif case == "linked":
        assert os.path.samefile("data", "second"), "the second name isn't the file's"
    elif case == "exchanged":
        assert read("data") in (OLD, NEW), "it has neither's bytes"
    elif case == "named" and is_safe:
        assert os.path.exists(b"da\xffta") and read(b"da\xffta") == NEW, "it isn't whole"
    elif case == "forked":
        told = printed.splitlines()
        assert "child 1" not in told, "the first sync of a child fails"
        assert "child 2" not in told, "the second sync of a child fails"
    elif case == "two":
        assert "safe 1" not in printed or read("data") == NEW, "record 1 isn't there"
        assert "safe 2" not in printed or len(read("other")) < SIZE, "34 bytes are too many"
    elif case == "memory":
        check_memory()
    elif case == "leaves":
        check_leaves()


if __name__ == "__main__":
    if sys.argv[1] == "begin":
        os.mkdir(sys.argv[3])
        os.chdir(sys.argv[3])
        begin(sys.argv[2])
    elif sys.argv[1] == "run":
        RUNS[sys.argv[2]]()
    else:
        try:
            check(sys.argv[2])
        except AssertionError as wrong:
            print(wrong)
            sys.exit(1)
