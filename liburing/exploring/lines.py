"""The program's lines that a traced submission came from: addresses in files, by addr2line."""

import functools
import os
import re
import shutil
import subprocess

# What lies between the program and the layer: liburing's functions, the C library's, and what uring-run preloads.
BETWEEN = re.compile(
    r"(__|_)?(sys_)?io_uring_\w+|__sys_io_uring\w*|syscall|wulgach_\w+|answer|__restore_rt"
)
LAST = re.compile(r"_start|__libc_start\w*|__libc_start_call_main")
MOST = 3


@functools.lru_cache(maxsize=None)
def place_of(file, offset):
    """The function, and the file and line, of a call that returns to an address; (None, None) if nothing is known."""
    if not shutil.which("addr2line"):
        return None, None
    # (the call stands before where it returns to)
    done = subprocess.run(
        ["addr2line", "-f", "-C", "-e", file, hex(offset - 1)],
        stdout=subprocess.PIPE,
        stderr=subprocess.DEVNULL,
        text=True,
    )
    function, line = (done.stdout.splitlines() + ["??", "??:0"])[:2]
    line = line.split(" (discriminator")[0]
    return (None if function == "??" else function), (
        None if line.startswith("??") or line.endswith((":0", ":?")) else line
    )


def places_of(note):
    """What a note `called from FILE+0xOFFSET, ..` says, in words: the places in the program, the nearest first."""
    found = []
    for item in note.split(", "):
        file, _, offset = item.rpartition("+0x")
        if file.endswith(("/uring-run.so", "/uring-threads.so")) or not re.fullmatch(
            "[0-9a-f]+", offset
        ):
            continue
        function, line = place_of(file, int(offset, 16))
        if function and LAST.fullmatch(function):
            break
        if not line or (function and BETWEEN.fullmatch(function)):
            continue
        found.append(f"{os.path.basename(line)}{f' ({function})' if function else ''}")
    return found[:MOST]
