"""The command: runs, says what became of each, and what differs by which rule."""

import os
import signal
import sys
from collections import Counter

from conforming import litmus, machines, planted
from conforming.differences import DIFFERENCES, untold
from conforming.machines import NO_RING, TOP, Here, NoMachine, NoRing, NoTrace, features, record
from conforming.making import random_linux_scenario, random_scenario
from conforming.runs import explain, judged
from conforming.scenarios import Scenario, scenarios

AS_FORESEEN, DIFFERS, UNFORESEEN, UNEXPLAINED, APART, REFUSED, GAVE_UP, NOT_TRIED = (
    "as foreseen",
    "differs as told",
    "no longer differs",
    "UNEXPLAINED",
    "THE SEARCHES DIFFER",
    "REFUSED BY THE CHECK",
    "gave up",
    "not tried",
)
MOST_TRIES = 10
NO_MACHINE = 3  # the status where a guest can't be had, or is gone
MINUTES = 30  # of a guest, if no others are asked for


def program():
    """The words that run the proved program: that of URING, the one that was built here, or that which is installed beside this. None: it isn't built."""
    for path in (
        os.environ.get("URING"),
        f"{TOP}/crates/uring_cli/out/uring_cli",
        None if os.path.isdir(f"{TOP}/crates") else f"{TOP}/uring",
    ):
        if path and os.path.exists(path):
            return [path]
    return None


class Outcome:
    """What became of one run of a scenario: the kind, why (of one that differs as told the name of the difference), what was seen, the trace that explains it or comes furthest, and the place of the first completion that no history reaches."""

    def __init__(self, scenario, kind, why="", seen="", trace="", first=None):
        self.scenario, self.kind, self.why, self.seen, self.trace, self.first = (
            scenario,
            kind,
            why,
            seen,
            trace,
            first,
        )

    def is_bad(self):
        return self.kind in (UNEXPLAINED, APART, REFUSED, UNFORESEEN)

    def is_explained(self):
        return self.kind in (AS_FORESEEN, UNFORESEEN)

    def text(self):
        """The whole of it, as it is printed."""
        parts = [f"{self.kind}: {self.scenario.name}: {self.why}", indented(self.scenario.text)]
        parts += ["  seen:", indented(self.seen)] if self.seen else []
        parts += (
            [
                "  the history that comes furthest:"
                if self.kind == UNEXPLAINED
                else "  its trace:",
                indented(self.trace),
            ]
            if self.trace
            else []
        )
        return "\n".join(parts)


def indented(text):
    return "\n".join("    " + (it or "(call)") for it in text.rstrip("\n").splitlines())


class Report:
    def __init__(self, words):
        self.words, self.counts, self.rules, self.bad, self.kept = (
            words,
            Counter(),
            Counter(),
            [],
            [],
        )

    def say(self, text):
        print(text, flush=True)

    def progress(self, done, of):
        if sys.stderr.isatty():
            print(f"\r{done} of {of}", end="\n" if done == of else "", file=sys.stderr, flush=True)

    def tell(self, outcome):
        self.counts[outcome.kind] += 1
        if outcome.kind == DIFFERS:
            self.rules[outcome.why] += 1
        if outcome.is_bad():
            self.bad.append(outcome)
        elif self.words.page or self.words.json:
            self.kept.append(outcome)
        if self.words.lines or self.words.scenario:
            self.say(
                f"{outcome.kind}: {outcome.scenario.name}"
                + (f" ({outcome.why})" if outcome.why else "")
            )
        if self.words.keep:
            self.keep(outcome)

    def keep(self, outcome):
        at = os.path.join(
            self.words.keep, outcome.scenario.name.replace("/", "-").replace(" ", "_")
        )
        os.makedirs(self.words.keep, exist_ok=True)
        for kind, text in (
            ("scenario", outcome.scenario.text),
            ("seen", outcome.seen),
            ("trace", outcome.trace),
        ):
            if text:
                with open(f"{at}.{kind}", "w", encoding="utf-8") as it:
                    it.write(text)

    def end(self):
        """Prints the table of what differs, what is bad, and the totals. Returns the status."""
        self.bad = [
            shorter(it, self.words.linux) if it.kind == UNEXPLAINED else it for it in self.bad
        ]
        if self.words.page or self.words.json:
            self.draw()
        for rule, count in sorted(self.rules.items()):
            self.say(f"differs as told, {count} times: {rule}\n    {DIFFERENCES[rule]}")
        for outcome in self.bad:
            self.say(outcome.text())
        self.say(
            f"Linux {machines.machine.release}: "
            + ", ".join(f"{count} {kind}" for kind, count in sorted(self.counts.items()))
        )
        self.say("features: " + " ".join(features()))
        return 1 if self.bad else 0

    def draw(self):
        from conforming.pictures import draw

        draw(program(), self.bad + self.kept, self.words.page, self.words.json)


def outcome_of(scenario, checker, is_linux=False):
    """What became of one run. `checker` has the words of the proved program that judges, or is None."""
    seen = record(scenario.text)
    found = explain(scenario.text, seen, checker, is_linux)
    if found.kind == "gave up":
        return Outcome(scenario, GAVE_UP, found.why, seen)
    if found.kind == "differ":
        return Outcome(scenario, APART, found.why, seen, found.trace)
    foreseen = "" if is_linux else scenario.differs
    if found.kind == "told" or found.kind == "unexplained" and foreseen:
        return Outcome(scenario, DIFFERS, foreseen or found.why, seen, found.trace, found.first)
    if found.kind == "unexplained":
        return Outcome(scenario, UNEXPLAINED, found.why, seen, found.trace, found.first)
    wrong = judged(checker, found.trace) if checker else ""
    if wrong:
        return Outcome(scenario, REFUSED, wrong.strip(), seen, found.trace)
    return Outcome(scenario, UNFORESEEN if foreseen else AS_FORESEEN, "", seen, found.trace)


def run_all(them, words, report):
    checker = None if words.no_check else program()
    for at, scenario in enumerate(them, 1):
        for _ in range(words.repeat):
            try:
                report.tell(outcome_of(scenario, checker, words.linux))
            except (NoTrace, NoRing) as fault:
                report.tell(Outcome(scenario, NOT_TRIED, str(fault)))
        report.progress(at, len(them))


def is_unexplained(text, is_linux):
    """Whether a scenario's run is unexplained, of three tries at least once."""
    try:
        return any(
            explain(text, record(text), program(), is_linux).kind == "unexplained" for _ in range(3)
        )
    except (NoTrace, NoRing):
        return False


def shortened(text, shows):
    """The scenario without the lines that it shows the same without."""
    lines = text.splitlines()
    size = max(1, len(lines) // 2)
    while size:
        at = 0
        while at < len(lines):
            rest = lines[:at] + lines[at + size :]
            if any(rest) and shows("\n".join(rest) + "\n"):
                lines = rest
            else:
                at += size
        size //= 2
    return "\n".join(lines) + "\n"


def shorter(outcome, is_linux):
    """An unexplained outcome of as short a scenario as is unexplained too. The same one, if it isn't again, which is said."""
    short = Scenario(
        outcome.scenario.name,
        shortened(outcome.scenario.text, lambda text: is_unexplained(text, is_linux)),
    )
    for _ in range(MOST_TRIES):
        found = outcome_of(short, program(), is_linux)
        if found.kind == UNEXPLAINED:
            return found
    outcome.why += f" (and it wasn't seen again in {MOST_TRIES} runs)"
    return outcome


def chosen(words):
    """The scenarios that are to run."""
    make = random_linux_scenario if words.linux else random_scenario
    if words.seed is not None:
        return [
            Scenario(f"seed {it}", make(it)) for it in range(words.seed, words.seed + words.count)
        ]
    them = [it for it in scenarios() if not words.scenario or words.scenario in it.name]
    if words.short:
        return them[::5] + [Scenario(f"seed {it}", make(it)) for it in range(1, 51)]
    return them


def how_to_get_one():
    """What stands between this process and a ring, as far as one can see."""
    path = "/proc/sys/kernel/io_uring_disabled"
    value = open(path, encoding="utf-8").read().strip() if os.path.exists(path) else None
    if value is None:
        return "Linux has rings from 5.1 on, if it was built with CONFIG_IO_URING; in a container its seccomp rules have to allow io_uring_setup, io_uring_enter and io_uring_register"
    if value == "0":
        return "The kernel would give one, so something about this process forbids it: in a container its seccomp rules have to allow io_uring_setup, io_uring_enter and io_uring_register"
    return (
        f"{path} has {value}: as root `sysctl kernel.io_uring_disabled=0` allows rings to all"
        + (
            "; with 1, those of the group of kernel.io_uring_group and of CAP_SYS_ADMIN have them"
            if value == "1"
            else ""
        )
    )


def is_told():
    """Whether docs/PROTOCOL.md has each sentence that a difference cites; where it isn't, there is none to ask."""
    path = f"{TOP}/docs/PROTOCOL.md"
    if not os.path.exists(path):
        return True
    with open(path, encoding="utf-8") as page:
        missing = untold(page.read())
    for name in missing:
        print(f"conform: docs/PROTOCOL.md doesn't have the sentence of: {name}", file=sys.stderr)
    return not missing


def machine_of(words):
    """The machine that is asked: this one, or a guest with the kernel that is named."""
    if not words.kernel:
        return Here()
    from conforming.guest import Guest

    return Guest(words.kernel, words.disk, words.emulated)


def asked(words, report):
    """Asks the machine, and returns the status."""
    if words.planted:
        return planted.find(report, scenarios(), None if words.no_check else program(), words.linux)
    if words.litmus:
        return litmus.run(words, report, program())
    them, told = machines.fitted(chosen(words))
    for line in told:
        report.say(line)
    if not them:
        print(f"conform: no scenario has {words.scenario} in its name", file=sys.stderr)
        return 2
    if not program() and not words.no_check:
        print(
            "conform: the proved program isn't built, so all is judged by the quick search alone: ./uring prove",
            file=sys.stderr,
        )
    run_all(them, words, report)
    return report.end()


def fault_of(words):
    """Why these words can't be obeyed, if they can't."""
    if words.linux and (words.page or words.json or words.litmus):
        return "--page, --json and --litmus are of the profile's rules, and not of Linux's own"
    if not program() and (words.page or words.json):
        return "a page takes the proved program: ./uring prove"
    if not words.kernel and (words.disk or words.emulated or words.minutes):
        return "--disk, --emulated and --minutes are of a guest: name its --kernel"
    try:
        machines.flags_of(words.flags)
    except ValueError as name:
        return f"--flags takes {', '.join(machines.FLAGS)}, and not {name}"
    return None


def be_over(*_):
    raise NoMachine("its minutes are over")


def conform(words):
    if not is_told():
        return 2
    fault = fault_of(words)
    if fault:
        print(f"conform: {fault}", file=sys.stderr)
        return 2
    if words.kernel:
        signal.signal(signal.SIGALRM, be_over)
        signal.alarm(60 * (words.minutes or MINUTES))
    machine = None
    try:
        machine = machine_of(words)
        machines.ask(machine, words.flags)
        features()
        return asked(words, Report(words))
    except NoRing as why:
        hint = "" if words.kernel else f"\n{how_to_get_one()}"
        print(f"conform: {named(words)} gives no ring: {why}{hint}", file=sys.stderr)
        return NO_RING
    except NoMachine as why:
        print(f"conform: {named(words)}: {why}", file=sys.stderr)
        return NO_MACHINE
    finally:
        signal.alarm(0)
        if machine:
            machine.close()


def named(words):
    return words.kernel or "this machine"
