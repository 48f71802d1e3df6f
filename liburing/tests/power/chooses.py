#!/usr/bin/env python3
"""A store whose commits depend on choices, which it makes and records as the layer does (WULGACH_POLICY, WULGACH_CHOICES) without a ring: for tests of how choices are made short.

    liburing/tests/power/chooses.py run COUNT NUMBER..      makes so many choices; the last commit isn't synced if these are all way 1
    liburing/tests/power/chooses.py once FILE               a commit isn't synced in one run alone, by a seed: FILE says that there was one
"""

import os
import random
import sys

WHAT = "finish request {} (write)", "issue request {} (write)", "time passes for request {}"


def ways(count):
    """The way of each choice, by the policy."""
    kind, _, rest = os.environ.get("WULGACH_POLICY", "list:").partition(":")
    if kind != "list":
        dice = random.Random(int(rest.split(":")[0]))
        return [dice.randrange(2) for _ in range(count)]
    listed = dict(map(int, it.split("=")) for it in rest.split(",") if it)
    return [listed.get(at, 0) for at in range(count)]


def record(made):
    if "WULGACH_CHOICES" in os.environ:
        with open(f"{os.environ['WULGACH_CHOICES']}.{os.getpid()}", "w") as file:
            file.writelines(
                f"{at} {way} 2 {WHAT[at % 3].format(at)}\n" for at, way in enumerate(made)
            )


def commit(is_right):
    file = os.open("log", os.O_RDWR | os.O_CREAT | os.O_APPEND, 0o600)
    os.fsync(os.open(".", os.O_RDONLY))
    for number in (1, 2, 3):
        os.write(file, b"%d\n" % number)
        if number < 3 or is_right:
            os.fsync(file)
        print(number, flush=True)


def run(count, needed):
    made = ways(count)
    record(made)
    commit(not all(made[at] for at in needed))


def once(path):
    record(ways(4))
    is_right = os.environ["WULGACH_POLICY"].startswith("list:") or os.path.exists(path)
    if not is_right:
        open(path, "w").close()
    commit(is_right)


if __name__ == "__main__":
    if sys.argv[1] == "run":
        run(int(sys.argv[2]), list(map(int, sys.argv[3:])))
    else:
        once(sys.argv[2])
