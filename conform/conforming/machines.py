"""The machine whose ring is asked: this one, or a guest with another kernel (conforming/guest.py)."""

import glob
import os
import platform
import subprocess

TOP = os.path.dirname(os.path.dirname(os.path.dirname(os.path.abspath(__file__))))
RECORDER = f"{TOP}/conform/out/record"
NO_RING = 77
LIMIT = 600  # seconds of a recorder, which takes one or two where it doesn't hang

# What a ring says that it can do, in the words of io_uring_setup(2), a bit each.
FEATURES = [
    "SINGLE_MMAP",
    "NODROP",
    "SUBMIT_STABLE",
    "RW_CUR_POS",
    "CUR_PERSONALITY",
    "FAST_POLL",
    "POLL_32BITS",
    "SQPOLL_NONFIXED",
    "EXT_ARG",
    "NATIVE_WORKERS",
    "RSRC_TAGS",
    "CQE_SKIP",
    "LINKED_FILE",
    "REG_REG_RING",
    "RECVSEND_BUNDLE",
    "MIN_TIMEOUT",
    "RW_ATTR",
    "NO_IOWAIT",
]

# Flags of io_uring_setup by which a ring may be asked too: who may submit, and when what is late is carried out.
FLAGS = {
    "COOP_TASKRUN": 1 << 8,
    "TASKRUN_FLAG": 1 << 9,
    "SINGLE_ISSUER": 1 << 12,
    "DEFER_TASKRUN": 1 << 13,
}


class NoRing(Exception):
    pass


class NoTrace(Exception):
    """What stands in a scenario is none."""


class NoMachine(Exception):
    """What is missing for a guest, or what became of it."""


def recorder_sources():
    """The C of the recorder. Where it is installed there is none."""
    return [it for it in glob.glob(f"{TOP}/conform/recording/*.c") if not it.endswith("/guest.c")]


def compiled(path, files, *words):
    """Compiles files, unless what they make is there and as new as they and the headers are."""
    read = files + glob.glob(f"{TOP}/conform/recording/*.h")
    if (
        not files
        or os.path.exists(path)
        and os.path.getmtime(path) >= max(map(os.path.getmtime, read))
    ):
        return
    os.makedirs(os.path.dirname(path), exist_ok=True)
    subprocess.run(
        ["cc", "-O2", "-Wall", "-Wextra", "-Wno-unused-result", *words, "-o", path, *files],
        check=True,
    )


def outputs(status, seen, said):
    """What a recorder wrote, if it went well."""
    if status == NO_RING:
        raise NoRing(said.strip())
    if status:
        raise NoTrace(said.strip() or f"the recorder ended with status {status}")
    return seen


class Here:
    """This machine."""

    release = platform.release()

    def __init__(self):
        compiled(RECORDER, recorder_sources())

    def ask(self, words, text):
        try:
            ran = subprocess.run(
                [RECORDER, *words], input=text, capture_output=True, text=True, timeout=LIMIT
            )
        except subprocess.TimeoutExpired as late:
            raise NoTrace(f"it took more than {LIMIT} s") from late
        return outputs(ran.returncode, ran.stdout, ran.stderr)

    def record(self, scenario):
        """What the recorder saw of a scenario."""
        return self.ask([], scenario)

    def features(self):
        """What the recorder says that a ring can do."""
        return self.ask(["features"], "")

    def close(self):
        pass


machine = None
flags = 0  # of io_uring_setup, of each ring that is asked, beside those of its scenario


def ask(it, names=""):
    """From here on this machine is asked, on rings with the flags that are named, separated by commas."""
    global machine, flags
    machine, flags = it, flags_of(names)


def flags_of(names):
    """The bits of flags; ValueError with a name that is none."""
    bits = 0
    for name in filter(None, names.split(",")):
        if name not in FLAGS:
            raise ValueError(name)
        bits |= FLAGS[name]
    return bits


def record(scenario):
    """What the recorder saw of a scenario, on a ring with these flags."""
    return machine.record(with_flags(scenario) if flags else scenario)


def with_flags(scenario):
    first, _, rest = scenario.partition("\n")
    if first.startswith("# setup"):
        return f"{first} --flags {flags}\n{rest}"
    return f"# setup --flags {flags}\n{scenario}"


def features():
    """What a ring of the machine says that it can do; a bit without a name is told by its number."""
    bits = int(machine.features().split()[0], 0)
    return [
        FEATURES[at] if at < len(FEATURES) else f"bit {at}" for at in range(32) if bits >> at & 1
    ]


def fitted(them):
    """The scenarios as an older kernel can have them, and the words that tell what is left out. Below 5.17 there are no skips, and below 5.19 no cancels of all; below 5.18 a ring always ends a call at a fault."""
    told, able = [], features()
    for feature, lacking, has_it in (
        ("CQE_SKIP", "skips", lambda words: len(words) > 2 and "S" in words[2] and words[0] != "#"),
        ("LINKED_FILE", "cancels of all", lambda words: words[:1] == ["cancelall"]),
    ):
        if feature not in able:
            kept = [
                it for it in them if not any(has_it(line.split()) for line in it.text.splitlines())
            ]
            told.append(f"{len(them) - len(kept)} with {lacking} are left out")
            them = kept
    if "stops" in machine.features().split():
        told.append("each ring ends a call at a fault (--stop)")
        for it in them:
            it.text = stopping(it.text)
    return them, told


def stopping(scenario):
    first, _, rest = scenario.partition("\n")
    if not first.startswith("# setup"):
        return f"# setup --stop\n{scenario}"
    return scenario if "--stop" in first else f"{first} --stop\n{rest}"
