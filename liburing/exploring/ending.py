"""A process that is run to its end, or for so many seconds; then whatever it has left running is ended."""

import contextlib
import ctypes
import os
import select
import signal
import subprocess
import time

SUBREAPER = 36  # PR_SET_CHILD_SUBREAPER
running = set()


def run_to_end(words, seconds, **how):
    """Its status, and whether it took too long. It has a group of its own, and what is in that at its end is killed."""
    process = subprocess.Popen(words, start_new_session=True, **how)
    running.add(process.pid)
    handle = os.pidfd_open(process.pid)
    try:
        is_late = not is_ended(handle, seconds)
    finally:
        # (before it is waited for: till then its number is nobody else's)
        end_group(process.pid)
        running.discard(process.pid)
        os.close(handle)
        process.wait()
    return process.returncode, is_late


def is_ended(handle, seconds):
    """Whether a process ends in so many seconds. (poll takes no more than some weeks at once)"""
    end, watched = time.monotonic() + seconds, select.poll()
    watched.register(handle, select.POLLIN)
    while True:
        left = end - time.monotonic()
        if watched.poll(max(0, min(left, 1000000)) * 1000) or left <= 0:
            return bool(watched.poll(0))


def end_group(number):
    with contextlib.suppress(ProcessLookupError, PermissionError):
        os.killpg(number, signal.SIGKILL)


def end_all():
    """Ends what other threads run."""
    for number in list(running):
        end_group(number)


def adopt():
    """From now on whatever is left by a process that this one has started is its child, also what has left the group."""
    ctypes.CDLL(None).prctl(SUBREAPER, 1, 0, 0, 0)


def children():
    found = set()
    for thread in os.listdir("/proc/self/task"):
        with contextlib.suppress(OSError), open(f"/proc/self/task/{thread}/children") as file:
            found.update(map(int, file.read().split()))
    return found


def end_adopted(others):
    """Ends the children that aren't these."""
    while left := children() - others:
        for number in left:
            with contextlib.suppress(ProcessLookupError):
                os.kill(number, signal.SIGKILL)
            with contextlib.suppress(ChildProcessError):
                os.waitpid(number, 0)
