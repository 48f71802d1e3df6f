"""One run of a program on the layer, and the policies that it is run by."""

import atexit
import errno
import os
import shlex
import shutil
import struct
import subprocess
import sys
import tempfile
import threading
import time
import types

from exploring.ending import run_to_end
from exploring.reducing import Outlook
from exploring.serving import ACCOUNT_SIZE, ROOM, Lost, Server

OF_RUN = struct.Struct("<4Q")
RUNNER, NOT_BEGUN = "uring-run", (125, 126, 127)
# What is told where runs may disturb one another.
APART = "each has a folder of its own, but by --here; --jobs 1 runs one at a time"
# What the surroundings say of faults and of time is part of a run: without it the same list gives another.
PARTS = "WULGACH_FAULTS", "WULGACH_FAULT_RATE", "WULGACH_TIMEOUTS"


class Program:
    """What is run: its words, for how many seconds at most, by which choices, whether each run gets a folder of its own, and where runs begin."""

    def __init__(self, options):
        self.given, self.seconds, self.is_fresh = options.words, options.seconds, not options.here
        self.grain = "ends" if options.ends else "events"
        self.start, self.wanted = None, options.start
        self.folder, self.surroundings = None, places_from_here() if self.is_fresh else {}
        self.own, self.lock, self.hands, self.is_closed = (
            threading.local(),
            threading.Lock(),
            [],
            False,
        )
        self.words = whole(self.given) if self.is_fresh else self.given

    def told(self):
        """What a worker on another machine is told of it."""
        kept = {
            name: value
            for name, value in os.environ.items()
            if name.startswith("WULGACH_") or name in ("LD_LIBRARY_PATH", "LD_PRELOAD")
        }
        return dict(
            words=[absolute(self.words[0]), *self.words[1:]],
            seconds=self.seconds,
            here=not self.is_fresh,
            ends=self.grain == "ends",
            start=self.wanted,
            folder=os.getcwd(),
            surroundings={**kept, **self.surroundings},
        )

    @staticmethod
    def of(told):
        program = Program(types.SimpleNamespace(**told))
        program.surroundings = told["surroundings"]
        program.folder = told["folder"] if os.path.isdir(told["folder"]) else None
        return program

    def run(self, policy, is_tracing=False, more=None):
        return self.run_all([policy], is_tracing, True, more)[0]

    def run_all(self, policies, is_tracing=False, is_recorded=True, more=None):
        """Runs by each of these policies, one after the other: several at once only where runs are served."""
        return self.hand().run_all(policies, is_tracing, is_recorded, more or {})

    def work(self, policies, is_tracing=False, is_recorded=False, more=None):
        """The same, with the rules that were met, and the seconds that it took."""
        begun, hand = time.monotonic(), self.hand()
        before = hand.rules()
        runs = hand.run_all(policies, is_tracing, is_recorded, more or {})
        rules = {name: count - before.get(name, 0) for name, count in hand.rules().items()}
        return runs, rules, time.monotonic() - begun

    def hand(self):
        if not hasattr(self.own, "hand"):
            with self.lock:
                self.own.hand = Hand(self)
                self.hands.append(self.own.hand)
        return self.own.hand

    def close(self):
        """Ends what its hands keep, which they else do when this process ends."""
        self.is_closed = True
        for hand in self.hands:
            atexit.unregister(hand.close)
            hand.close()

    def first_run(self, policy):
        """A run in order, which is to have set a ring up on the layer: else all that follows would say nothing."""
        run = self.run(policy)
        if not run.has_ring:
            stop(self.why_no_ring(run))
        if run.fails() and self.is_fresh:
            print(
                f"explore: in order it fails too (status {run.status}), in an empty folder of its own: --here runs it in this one",
                file=sys.stderr,
            )
        return run

    def why_no_ring(self, run):
        """What uring-run has refused, or else what may help. What the run printed is printed."""
        is_by_run = os.path.basename(self.words[0]) == RUNNER
        _, is_refused, refusal = run.output.decode(errors="replace").rpartition(f"{RUNNER}: ")
        if is_by_run and is_refused and run.status in NOT_BEGUN:
            return refusal.strip()
        sys.stdout.buffer.write(run.output)
        sys.stdout.flush()
        ways = (
            [] if is_by_run else ["try `liburing/uring-run` before it, or link it with the layer"]
        )
        if run.fails() and self.is_fresh:
            ways.append("try --here, if it wants what lies in this folder")
        why = f"{self.given[0]} set no ring up on the layer (status {run.status})"
        return f"{why}: {'; or '.join(ways)}" if ways else why


def whole(words):
    """Words as they are read in another folder: paths of programs that begin here begin at the root."""
    found = [shutil.which(it) if at == 0 or "/" in it else None for at, it in enumerate(words)]
    return [
        os.path.abspath(to) if to and not os.path.isabs(to) else it for it, to in zip(words, found)
    ]


def places_from_here():
    """The variables that name folders by paths from here, with such as begin at the root."""
    found = {}
    for name in ("PATH", "LD_LIBRARY_PATH"):
        paths = (os.environ.get(name) or "/").split(":")
        if not all(map(os.path.isabs, paths)):
            found[name] = ":".join(it if os.path.isabs(it) else os.path.abspath(it) for it in paths)
    return found


def absolute(name):
    return os.path.abspath(shutil.which(name) or name)


class Stopped(SystemExit):
    """The end at what can't be served, which was told."""

    def __init__(self, message):
        super().__init__(2)
        self.message = message


def stop(message):
    """Ends at words that can't be served."""
    print(f"explore: {message}", file=sys.stderr)
    raise Stopped(message)


def told_error(error):
    """Why the system refused something, and of what."""
    if isinstance(error, shutil.Error) and error.args and isinstance(error.args[0], list):
        there, _, why = error.args[0][0]
        return f"{there}: {why}"
    why = error.strerror or str(error)
    if error.errno == errno.ENOSPC:
        why += f" (what is made for runs lies in {ROOM or tempfile.gettempdir()}; TMPDIR says otherwise)"
    return why if error.filename is None else f"{error.filename}: {why}"


class Hand:
    """What runs a program in one thread: an account, room for records, and a server where runs begin by a fork."""

    def __init__(self, program):
        self.program, self.server = program, None
        self.room = tempfile.mkdtemp(dir=ROOM)
        atexit.register(self.close)
        self.account = f"{self.room}/account"
        with open(self.account, "wb") as file:
            file.write(bytes(ACCOUNT_SIZE))
        if program.start is None:
            program.start = self.settle_start()
        elif program.start != "new":
            self.server = self.serve(program.start)

    def serve(self, when):
        try:
            return Server(
                self.program, when, {**self.program.surroundings, "WULGACH_ACCOUNT": self.account}
            )
        except OSError as error:
            stop(f"{self.program.words[0]}: {error.strerror}")

    def settle_start(self):
        """Where runs begin: before main, or, if that is asked for, at the first set-up; by a new process where something stands against both. What stands against a place that was asked for is told."""
        wanted = {
            "auto": ["main"],
            "ring": ["ring", "main"],
            "main": ["main"],
            "new": [],
        }[self.program.wanted]
        for when in wanted:
            server = self.serve(when)
            if not server.reason:
                self.server = server
                return when
            if self.program.wanted != "auto":
                where = "at the first set-up of a ring" if when == "ring" else "before main"
                print(
                    f"explore: runs don't begin by a fork {where}: {server.reason}", file=sys.stderr
                )
        return "new"

    def close(self):
        if self.server:
            self.server.close()
        shutil.rmtree(self.room, ignore_errors=True)

    def rules(self):
        with open(self.account, "rb") as file:
            return dict(read_rules(file.read()))

    def variables(self, index, policy, is_tracing, is_recorded, more):
        variables = dict(
            WULGACH_POLICY=policy,
            WULGACH_CHOOSE=self.program.grain,
            WULGACH_SYNC=os.environ.get("WULGACH_SYNC", "skip"),
            **more,
        )
        if is_recorded:
            variables["WULGACH_CHOICES"] = f"{self.room}/{index}-choices"
        if is_tracing:
            variables["WULGACH_TRACE"] = f"{self.room}/{index}-trace"
            # (only a program whose threads take turns writes it)
            variables["WULGACH_TURNS"] = f"{self.room}/{index}-turns"
            variables["WULGACH_LANES"] = "yes"
        return variables

    def run_all(self, policies, is_tracing, is_recorded, more):
        asked = [
            self.variables(index, policy, is_tracing, is_recorded, more)
            for index, policy in enumerate(policies)
        ]
        if self.server:
            try:
                told = list(self.server.run_all(asked))
            except Lost:
                if self.program.is_closed:
                    sys.exit(1)
                stop(
                    f"{self.program.words[0]}: the process that forks runs has ended (--start new begins each by a new process)"
                )
        else:
            told = [self.run_new(variables) for variables in asked]
        runs = [Run(variables, *it) for variables, it in zip(asked, told)]
        if is_tracing or is_recorded:
            self.read_records(runs, is_recorded)
        return runs

    def run_new(self, variables):
        """A run that is a new process; what is told of it is what a server tells."""
        with open(self.account, "r+b") as file:
            file.write(bytes(OF_RUN.size))
        place = tempfile.mkdtemp(dir=ROOM) if self.program.is_fresh else None
        surroundings = {
            **os.environ,
            **self.program.surroundings,
            **variables,
            "WULGACH_ACCOUNT": self.account,
        }
        try:
            with tempfile.TemporaryFile(dir=ROOM) as printed:
                status, is_late = run_to_end(
                    self.program.words,
                    self.program.seconds,
                    cwd=place or self.program.folder,
                    env=surroundings,
                    stdin=subprocess.DEVNULL,
                    stdout=printed,
                    stderr=printed,
                )
                printed.seek(0)
                output = printed.read()
        except OSError as error:
            stop(f"{self.program.words[0]}: {error.strerror}")
        finally:
            if place:
                shutil.rmtree(place, ignore_errors=True)
        with open(self.account, "rb") as file:
            return [status, is_late, *OF_RUN.unpack(file.read(OF_RUN.size))], output

    def read_records(self, runs, is_recorded):
        """Gives each run its choices and traces, which lie in files that its number begins."""
        names = [name for name in os.listdir(self.room) if name != "account"]
        for name in sorted(
            names, key=lambda name: [int(it) for it in name.split("-")[1].split(".")[1:]]
        ):
            index, kind = name.split("-")
            run, path = runs[int(index)], f"{self.room}/{name}"
            if kind.startswith("trace."):
                with open(path, errors="replace") as file:
                    run.traces.append(file.read())
            elif kind == "turns":
                with open(path, errors="replace") as file:
                    run.turns = file.read()
            elif os.path.getsize(path):
                run.read_choices(path)
            os.unlink(path)
        for run in runs:
            if not run.fails() and is_recorded and len(run.choices) != run.choice_count:
                stop(
                    f"{run.policy}: of {run.choice_count} choices {len(run.choices)} could be recorded: is the disk of {self.room} full?"
                )


def read_rules(account):
    """The rules in an account, each with its name and how often it was met."""
    for at in range(64, len(account) - 63, 64):
        name, count = struct.unpack_from("<56sQ", account, at)
        if name.rstrip(b"\0"):
            yield name.rstrip(b"\0").decode(), count


class Run:
    """A run: its status, what it printed, how many choices it made and in which order; and where they were recorded, its choices (number, way, of how many, in words), its traces, and the log of its turns."""

    def __init__(self, environment, told, output):
        status, is_late, rings, choosers, self.choice_count, self.order = told
        self.environment, self.policy, self.output = (
            environment,
            environment["WULGACH_POLICY"],
            output,
        )
        self.status = "none: it took too long" if is_late else status
        self.has_ring = rings > 0
        self.choices, self.record, self.traces, self.turns = [], [], [], ""
        if choosers > 1:
            stop("more than one process of the program chooses, and a list is one process's")

    def read_choices(self, path):
        with open(path) as lines:
            self.record += [line.rstrip("\n") for line in lines if line.endswith("\n")]
        found = [line.split(" ", 3) for line in self.record if line[0].isdecimal()]
        # (a fault is chosen amid the end of its request, and recorded before that)
        self.choices = sorted(
            (int(words[0]), int(words[1]), int(words[2]), words[3]) for words in found
        )

    def outlook(self):
        """What could go on at each choice, if that was recorded."""
        return Outlook(line.split(" ") for line in self.record)

    def fails(self):
        return self.status != 0

    def items(self):
        """The choices that aren't what the policy in order does."""
        return [(at, way) for at, way, _, _ in self.choices if way]


def replay_line(program, run):
    """The command that does what a run did, from here: in a new folder, if it had one."""
    variables = {name: os.environ[name] for name in PARTS if name in os.environ}
    variables |= program.surroundings
    variables |= {name: run.environment[name] for name in ("WULGACH_POLICY", "WULGACH_CHOOSE")}
    line = [f"{name}={shlex.quote(value)}" for name, value in variables.items()]
    for word, given in zip(program.words, program.given):
        here = f'"$PWD"/{shlex.quote(os.path.relpath(word))}'
        line.append(shlex.quote(word) if word == given else here)
    return " ".join(["env", "-C", f'"$({new_folder()})"', *line] if program.is_fresh else line)


def new_folder():
    """The command that makes a folder where those of runs are, and prints its path."""
    return f"mktemp -dp {shlex.quote(ROOM)}" if ROOM else "mktemp -d"


def list_of(items):
    """The policy that makes these choices, each with its number."""
    return "list:" + ",".join(f"{at}={way}" for at, way in items)


def list_of_ways(ways):
    """The policy that makes the first choices so."""
    return "list:" + ",".join(str(way) for way in ways)


def count_choices(program):
    """About how many choices a run makes: as many as the one in order, and 1 at least."""
    return max(1, len(program.first_run("list:").choices))


def priorities(seed, depth, choices):
    """The policy that draws priorities by this seed."""
    return f"pct:{seed}:{depth}:{choices}"


class Policies:
    """The policy of each seed: rolled, by priorities whose depth is 1, 2 and 3 in turn, or (`both`) rolled for an odd seed and by priorities for an even one."""

    DEPTHS = 3

    def __init__(self, program, name):
        self.name = name
        self.choices = count_choices(program)

    def of(self, seed):
        if self.name == "pct":
            return priorities(seed, 1 + (seed - 1) % self.DEPTHS, self.choices)
        if self.name == "both" and seed % 2 == 0:
            return priorities(seed, 1 + (seed // 2 - 1) % self.DEPTHS, self.choices)
        return f"seed:{seed}"
