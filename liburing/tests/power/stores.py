#!/usr/bin/env python3
"""Small stores as engines have them, right or with one planted bug, and what each has acknowledged: `check` knows which fail.

    liburing/tests/power/stores.py list
    liburing/tests/power/stores.py run STORE BUG
    liburing/tests/power/stores.py check STORE
"""

import os
import struct
import sys
import zlib

PAGE = 128


def opened(name, flags=0):
    return os.open(name, os.O_RDWR | os.O_CREAT | flags, 0o644)


def sync_folder():
    os.fsync(os.open(".", os.O_RDONLY))


def acknowledge(number):
    print(number, flush=True)


def record(number):
    body = b"record %03d" % number
    return struct.pack("<II", len(body), zlib.crc32(body)) + body


def records(name):
    """The numbers of the whole records at a file's begin."""
    found, at = [], 0
    data = open(name, "rb").read() if os.path.exists(name) else b""
    while at + 8 <= len(data):
        size, checksum = struct.unpack_from("<II", data, at)
        body = data[at + 8 : at + 8 + size]
        if not body or len(body) < size or zlib.crc32(body) != checksum:
            break
        found.append(int(body[-3:]))
        at += 8 + size
    return found


def log(bug):
    """An append-only log with checksums."""
    file = opened("log", os.O_APPEND)
    if bug != "nameless":
        sync_folder()
    for number in range(1, 6):
        os.write(file, record(number))
        if bug != "unsynced":
            os.fdatasync(file)
        acknowledge(number)


def check_log(done):
    assert records("log")[: len(done)] == done, f"of {done} there are {records('log')}"


def wal(bug):
    """A log that is cut once the pages that it has are written."""
    data, file = opened("data"), opened("wal")
    os.ftruncate(data, 4 * PAGE)
    os.fsync(data)
    sync_folder()
    for number in range(4):
        os.write(file, record(number))
        if bug != "unsynced":
            os.fdatasync(file)
        acknowledge(number)
    for number in range(4):
        os.pwrite(data, record(number), PAGE * number)
    if bug != "early":
        os.fdatasync(data)
    os.ftruncate(file, 0)
    os.fsync(file)


def check_wal(done):
    data = open("data", "rb").read() if done else b""
    for number in done:
        at = PAGE * number
        assert number in records("wal") or data[at : at + len(record(number))] == record(
            number
        ), f"page {number} is lost"


def manifest(bug):
    """Tables, and a list of them that is replaced by a rename."""
    for number in range(1, 4):
        table, file = opened(f"table{number}"), opened("new", os.O_TRUNC)
        os.write(table, record(number))
        os.write(file, b"".join(map(record, range(1, number + 1))))
        for name, it in ("table", table), ("file", file):
            if bug != name:
                os.fsync(it)
        sync_folder()
        os.rename("new", "manifest")
        if bug != "nameless":
            sync_folder()
        acknowledge(number)


def check_manifest(done):
    named = records("manifest")
    assert named[: len(done)] == done, f"of {done} there are {named}"
    assert all(records(f"table{it}") == [it] for it in named), "a table isn't whole"


def tree(bug):
    """A page that is written twice, one copy after the other."""
    files = opened("double"), opened("tree")
    for version in range(4):
        for file in files:
            os.pwrite(
                file,
                struct.pack("<I", zlib.crc32(b"%03d" % version * 40)) + b"%03d" % version * 40,
                0,
            )
            if bug != "unsynced" or not version:
                os.fdatasync(file)
        if not version:
            sync_folder()
        acknowledge(version)


def check_tree(done):
    pages = [open(name, "rb").read() for name in ("double", "tree")] if done else []
    whole = [
        int(it[4:7])
        for it in pages
        if len(it) == 124 and zlib.crc32(it[4:]) == struct.unpack("<I", it[:4])[0]
    ]
    assert not done or max(whole, default=-1) >= done[-1], f"of {done} there are {whole}"


STORES = {
    "log": (log, check_log, ["nameless", "unsynced"]),
    "wal": (wal, check_wal, ["unsynced", "early"]),
    "manifest": (manifest, check_manifest, ["table", "file", "nameless"]),
    "tree": (tree, check_tree, ["unsynced"]),
}

if __name__ == "__main__":
    if sys.argv[1] == "list":
        for name, (_, _, bugs) in STORES.items():
            print("\n".join(f"{name} {bug}" for bug in ["right", *bugs]))
    elif sys.argv[1] == "run":
        STORES[sys.argv[2]][0](sys.argv[3])
    else:
        try:
            STORES[sys.argv[2]][1]([int(it) for it in sys.stdin.read().split()])
        except AssertionError as wrong:
            print(wrong)
            sys.exit(1)
