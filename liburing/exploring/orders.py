"""Runs every order of a short run, or one order of each class that a run can't tell apart."""

import hashlib
import json
import os
import shutil
import sys

from exploring.reducing import Request, Way, unfold
from exploring.runs import APART, list_of_ways, stop
from exploring.seeds import write_summary
from exploring.side_by_side import MOST_AT_ONCE, Progress, pool_of, print_rules


def is_turn(choice):
    return choice[3].startswith("thread ")


class Orders:
    """What was seen so far, and the lists of first choices that are left to run. `is_reduced`: of runs that differ only in the order of what commutes, one is enough; so with each list stand the ways that needn't be tried after it (`reducing.unfold`). `turns`: where threads take turns, at most so many that aren't way 0."""

    def __init__(self, is_reduced, turns=None):
        self.is_reduced, self.turns = is_reduced and turns is None, turns
        self.left, self.runs, self.failed, self.repeated, self.outputs = [([], [])], 0, 0, 0, {}
        self.strayed = 0

    def variables(self):
        return {"WULGACH_WAYS": "all"} if self.is_reduced else {}

    def add(self, ways, asleep, run):
        """A run that began with these ways. Each of its later choices was way 0, and its other ways are left."""
        self.runs += 1
        self.outputs[run.output] = self.outputs.get(run.output, 0) + 1
        made = [way for _, way, _, _ in run.choices]
        if self.turns is None and any(is_turn(choice) for choice in run.choices):
            stop("threads take turns: --turns K says how many of these aren't to be way 0")
        if made[: len(ways)] != ways and not run.fails():
            self.stray(ways)
        if self.is_reduced:
            left, is_repeated = unfold(run.outlook(), len(ways), asleep)
            self.left += left
            self.repeated += is_repeated
        else:
            for at in range(len(ways), len(made)):
                if not self.may_take(run.choices[: at + 1]):
                    continue
                self.left.extend((made[:at] + [way], []) for way in range(1, run.choices[at][2]))
        if run.fails():
            self.failed += 1
            print(f"status {run.status} with {list_of_ways(made)}", flush=True)

    def may_take(self, choices):
        """Whether the last of these choices may be another way than 0."""
        return (
            self.turns is None
            or not is_turn(choices[-1])
            or sum(is_turn(it) and it[1] > 0 for it in choices[:-1]) < self.turns
        )

    def stray(self, ways):
        """A run that didn't make the choices of its list. Whatever would have come after them is missed."""
        self.strayed += 1
        if self.strayed == 1:
            print(
                f"explore: with {list_of_ways(ways)} the program made other choices: it doesn't do the same in each run, so orders are missed ({APART})",
                file=sys.stderr,
            )

    def take(self, count):
        """The lists that are to be run next."""
        some = self.left[-count:]
        del self.left[-count:]
        return some

    def read(self, path, program):
        with open(path) as file:
            try:
                found = json.load(file)
            except ValueError:
                stop(f"{path} is no list that an earlier call has left")
        if found.get("of") != what_is_run(program):
            stop(
                f"{path} is left by a call of another program, or of another build of it, or with other words, variables, --ends or --here"
            )
        if found.get("turns") != self.turns:
            stop(f"{path} is left by a call with other --turns")
        if found["reduced"] != self.is_reduced:
            stop(f"{path} is left by a call {'with' if self.is_reduced else 'without'} --whole")
        self.runs, self.failed, self.repeated, self.strayed = (
            found["runs"],
            found["failed"],
            found["repeated"],
            found["strayed"],
        )
        self.outputs = {
            output.encode("latin-1"): count for output, count in found["outputs"].items()
        }
        self.left = [
            (ways, [Way(*way[:3], Request(*way[3]) if way[3] else None, way[4]) for way in asleep])
            for ways, asleep in found["left"]
        ]

    def write(self, path, program):
        """(what was there stays until the whole is written)"""
        with open(f"{path}.new", "w") as file:
            outputs = {output.decode("latin-1"): count for output, count in self.outputs.items()}
            json.dump(
                {
                    "of": what_is_run(program),
                    "reduced": self.is_reduced,
                    "turns": self.turns,
                    "runs": self.runs,
                    "failed": self.failed,
                    "repeated": self.repeated,
                    "strayed": self.strayed,
                    "outputs": outputs,
                    "left": self.left,
                },
                file,
            )
            file.write("\n")
        os.replace(f"{path}.new", path)


def what_is_run(program):
    """What lists are left of: the words, with what stands in those that are programs; how choices are made; and the variables of the layer."""
    paths = [shutil.which(program.words[0]), *program.words[1:]]
    contents = {
        path: digest(path)
        for path in paths
        if path and os.path.isfile(path) and os.access(path, os.X_OK)
    }
    variables = {name: value for name, value in os.environ.items() if name.startswith("WULGACH_")}
    return {
        "program": program.words,
        "contents": contents,
        "grain": program.grain,
        "here": not program.is_fresh,
        "variables": variables,
    }


def digest(path):
    with open(path, "rb") as file:
        return hashlib.sha256(file.read()).hexdigest()


def every_order(options, program):
    program.first_run("list:")
    orders, pool, progress = (
        Orders(not options.whole, options.turns),
        pool_of(options, program),
        Progress(options),
    )
    if options.left and os.path.exists(options.left):
        orders.read(options.left, program)
    try:
        run_all(options, pool, orders, progress)
    finally:
        # (also where nobody waits any more)
        progress.end()
        if options.left:
            orders.write(options.left, program)
    rest = f", not all there are: {len(orders.left)} lists are left" if orders.left else ""
    rest += (
        f", not all there are: {orders.strayed} made other choices than their lists"
        if orders.strayed
        else ""
    )
    rest += f", {orders.repeated} of them repeat others" if orders.repeated else ""
    print(
        f"{orders.runs} runs{rest}, {len(orders.outputs)} different outputs, {orders.failed} fail"
    )
    if options.outputs:
        sys.stdout.flush()
        for output in sorted(orders.outputs):
            sys.stdout.buffer.write(output)
        sys.stdout.flush()
    write_summary(
        options,
        {
            "start": program.start,
            **progress.summary(),
            "outputs": len(orders.outputs),
            "left": len(orders.left),
            "repeated": orders.repeated,
            "strayed": orders.strayed,
            "failed": orders.failed,
            "rules": pool.rules,
        },
    )
    if options.coverage:
        print_rules(pool.rules)
    pool.close()
    return 1 if orders.failed or orders.left or orders.strayed else 0


def run_all(options, pool, orders, progress):
    """Runs lists until none is left, or as many were run as were asked for, or the time is up. What was begun is waited for."""
    begun = {}
    try:
        run_begun(options, pool, orders, progress, begun)
    finally:
        # (of what was begun and isn't waited for nothing is known)
        for future, some in begun.items():
            future.cancel()
            orders.left += some


def run_begun(options, pool, orders, progress, begun):
    count = 0
    while orders.left or begun:
        while (
            orders.left
            and len(begun) < 2 * pool.jobs
            and orders.runs + count < options.most
            and not progress.is_over()
        ):
            some = orders.take(
                min(
                    MOST_AT_ONCE,
                    options.most - orders.runs - count,
                    1 + len(orders.left) // (2 * pool.jobs),
                )
            )
            count += len(some)
            future = pool.submit(
                [list_of_ways(ways) for ways, _ in some], is_recorded=True, more=orders.variables()
            )
            begun[future] = some
        if not begun:
            return
        for future in pool.any_of(begun):
            runs, _ = pool.taken(future)
            some = begun.pop(future)
            count -= len(some)
            for (ways, asleep), run in zip(some, runs):
                orders.add(ways, asleep, run)
                progress.add(run, len(orders.left) + count)
