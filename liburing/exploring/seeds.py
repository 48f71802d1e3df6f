"""Runs under seeds, until one fails."""

import json
import shlex
import sys
import time

from exploring.keeping import keep
from exploring.kinds import Case, first_line, without_numbers, write_junit
from exploring.runs import APART, Policies, Stopped, list_of, stop, told_error
from exploring.shrinking import least
from exploring.side_by_side import Progress, added, in_turn, pool_of, print_rules


class Found:
    """What is known of the runs so far; it is written however they end."""

    def __init__(self, options, program):
        self.options, self.program, self.begun = options, program, time.monotonic()
        self.policies = self.progress = self.stopped = None
        self.failed, self.kinds, self.rules = [], {}, {}

    def add(self, seed, run):
        """A run that fails is told, and counted among those of its kind."""
        self.failed.append(told(self.options, self.program, seed, run))
        said = first_line(run.output)
        kind = self.kinds.setdefault(
            (run.status, without_numbers(said)),
            {"status": run.status, "said": said, "runs": 0, "seed": seed, "policy": run.policy},
        )
        kind["runs"] += 1

    def shorten(self):
        """One run of each kind is made short, as far as the time goes; what fails and doesn't fail again has no list."""
        end = time.monotonic() + self.options.shorten
        for left, kind in zip(range(len(self.kinds), 0, -1), self.kinds.values()):
            last = time.monotonic() + max(0, end - time.monotonic()) / left
            items = self.program.run(kind["policy"]).items()
            kind["choices"] = None
            if self.program.run(list_of(items)).fails():
                fewer = least(self.program, items, lambda: time.monotonic() > last)
                kind["choices"] = list_of(fewer).removeprefix("list:")

    def write(self):
        options, progress = self.options, self.progress
        found = {
            "policy": self.policies.name if self.policies else options.policy,
            "start": self.program.start,
            "first": options.first,
            **(progress.summary() if progress else {"runs": 0}),
            "failed": self.failed,
            "kinds": list(self.kinds.values()),
            "stopped": self.stopped,
            "rules": self.rules,
        }
        write_summary(options, found)
        if options.junit:
            write_junit(
                options.junit,
                f"explore seeds {shlex.join(options.words)}",
                time.monotonic() - self.begun,
                cases(found),
            )


def cases(found):
    """A test of all seeds, which has passed if nothing is to be told; else one for each kind of failure."""
    told = [Case("the runs", "error", found["stopped"])] if found["stopped"] else []
    for kind in found["kinds"]:
        lines = [f"{kind['runs']} runs, the first by seed {kind['seed']} ({kind['policy']})"]
        if kind.get("choices") is not None:
            lines.append(f"explore show {kind['choices'] or 'order'}")
        name = kind["said"] or f"status {kind['status']}"
        told.append(Case(name, "failure", f"status {kind['status']}", "\n".join(lines)))
    return told or [Case(f"{found['runs']} seeds from {found['first']} on")]


def seeds(options, program):
    found = Found(options, program)
    try:
        return run_seeds(options, program, found)
    except Stopped as why:
        found.stopped = why.message
        raise
    except OSError as error:
        found.stopped = told_error(error)
        raise
    except KeyboardInterrupt:
        found.stopped = "it was interrupted"
        raise
    finally:
        found.write()


def run_seeds(options, program, found):
    policies = found.policies = Policies(program, options.policy)
    numbers = range(options.first, options.first + options.count)
    pool, progress = pool_of(options, program), Progress(options, options.count)
    found.progress = progress
    for seed, run in in_turn(pool, policies.of, numbers):
        progress.add(run)
        if run.fails():
            found.add(seed, run)
            if not options.keep_going:
                break
        if progress.is_over():
            break
    progress.end()
    found.rules, failed = pool.rules, found.failed
    if failed and not options.keep_going:
        sys.stdout.flush()
        sys.stdout.buffer.write(run.output)
        sys.stdout.flush()
    else:
        print(
            f"{progress.runs} seeds from {options.first} on: {len(failed)} fail{', and then the time was up' if progress.runs < options.count else ''}"
        )
    if options.coverage:
        print_rules(pool.rules)
    if options.json or options.junit:
        found.shorten()
    pool.close()
    return 1 if failed else 0


def told(options, program, seed, run):
    """Tells of a run that failed, and keeps it if that is asked for."""
    print(f"seed {seed} fails: status {run.status}, {run.choice_count} choices")
    if (options.jobs > 1 or options.keep) and not program.run(run.policy).fails():
        print(
            f"seed {seed} passes if it is run again: the program doesn't do the same in each run, or runs side by side disturb one another ({APART})"
        )
    sys.stdout.flush()
    if options.keep:
        keep(f"{options.keep}/seed-{seed}", program, run)
    return {"seed": seed, "policy": run.policy, "status": run.status, "choices": run.choice_count}


def write_summary(options, found):
    if options.json:
        with open(options.json, "w") as file:
            json.dump({"program": options.words, **found}, file, indent=1)
            file.write("\n")


def merged(options, program):
    """Adds up what several calls of `seeds --json` wrote, as of parts of a range on many machines."""
    parts = []
    for path in options.summaries:
        with open(path) as file:
            try:
                parts.append(json.load(file))
            except ValueError:
                stop(f"{path} is no JSON")
        if "failed" not in parts[-1]:
            stop(f"{path} isn't what `seeds --json` writes")
    counted = {}
    others = next(
        (part["program"] for part in parts if part["program"] != parts[0]["program"]), None
    )
    if others:
        sys.exit(
            f"explore: the summaries are of different programs: {shlex.join(parts[0]['program'])}, and {shlex.join(others)}"
        )
    for part in parts:
        for seed in range(part["first"], part["first"] + part["runs"]):
            if (part["policy"], seed) in counted:
                sys.exit(f"explore: seed {seed} stands in two of the summaries")
            counted[part["policy"], seed] = True
    failed = sorted((it for part in parts for it in part["failed"]), key=lambda it: it["seed"])
    for it in failed:
        print(f"seed {it['seed']} fails: status {it['status']}, {it['choices']} choices")
    print(f"{len(counted)} seeds in {len(parts)} parts: {len(failed)} fail")
    if options.coverage:
        print_rules(added(part["rules"] for part in parts))
    return 1 if failed else 0
