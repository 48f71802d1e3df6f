"""The page of a run of the layer, beside one of the same program that passes."""

import os
import re
import sys

from exploring.runs import list_of, stop
from exploring.traces import URING

HERE = os.path.dirname(os.path.dirname(os.path.realpath(__file__)))
# Where the page's parts lie: in the repository, or where the package has them.
sys.path[:0] = [f"{HERE}/page", f"{os.path.dirname(HERE)}/page"]
from exploring.lanes import lanes_of  # noqa: E402
from parts import write  # noqa: E402
from recorded import Differs, explained, printing, put_beside  # noqa: E402

CHOICE = re.compile(r"choice (\d+) is (\d+) of (\d+): (.*)")
REQUEST = re.compile(r"request (\d+): (.*), user data (\d+), flags \S+")
TRANSFER = re.compile(r"(\S+) of (\d+) bytes at (-?\d+), descriptor (-?\d+)")
ENDS = re.compile(r"request (\d+) ends: (-?\d+)")
MOST_SEEDS = 20


class Lines:
    """A trace's steps with what the layer notes of them: choices, and notes on the step that comes, stand before it; how requests end and what they are, after it."""

    def __init__(self, trace):
        head, *rest = trace.splitlines() or ["setup"]
        self.options, self.steps, self.told, self.results, self.asked = (
            head.split()[1:],
            [],
            [],
            {},
            {},
        )
        coming = {}
        for line in rest:
            if line.startswith("# "):
                self.note(line[2:], coming)
            elif not line.endswith(" = again"):
                self.steps.append(tuple(line.split(" = ", 1)))
                self.told.append(coming)
                coming = {}
        if self.told:
            # (what the last choices led to isn't a step)
            self.told[-1].update(
                {name: self.told[-1].get(name, []) + some for name, some in coming.items()}
            )

    def note(self, text, coming):
        choice, request, ends = (
            CHOICE.fullmatch(text),
            REQUEST.fullmatch(text),
            ENDS.fullmatch(text),
        )
        if choice:
            coming.setdefault("choices", []).append(
                {
                    "choice": int(choice[1]),
                    "way": int(choice[2]),
                    "of": int(choice[3]),
                    "what": printing(choice[4].encode()),
                }
            )
        elif request:
            self.asked[int(request[1])] = request
        elif ends and self.told:
            self.results[int(ends[1])] = int(ends[2])
            self.told[-1].setdefault("notes", []).append(printing(text.encode()))
        else:
            coming.setdefault("notes", []).append(printing(text.encode()))

    def failed(self):
        return {
            int(step.split()[1])
            for step, answer in self.steps
            if step.startswith("finish ") and answer.startswith("ended -")
        }


def data_of(trace):
    """The data of one ring's trace, with each request as it was asked for, and its real result."""
    lines = Lines(trace)
    run = explained([URING], lines.options, lines.steps, lines.failed())
    # (files are the real ones, and the core has none)
    del run["setup"]["files"]
    for line, told in zip(run["lines"], lines.told):
        line.update(told)
        for change in line.get("changes", []):
            if change["is"] == "ended":
                change["result"] = lines.results.get(change["request"], change["result"])
    for request in run["requests"]:
        if request["request"] in lines.asked:
            name_request(request, lines.asked[request["request"]])
    return run


def name_request(request, asked):
    """Gives a request the operation that the application asked for."""
    words, request["user_data"] = asked[2], asked[3]
    request["operation"] = words.split()[0]
    transfer = TRANSFER.fullmatch(words)
    if transfer:
        request.update(
            operation=transfer[1],
            length=int(transfer[2]),
            offset=transfer[3],
            file=int(transfer[4]),
        )
    else:
        request["told"] = printing(words.encode())


def told_of(run):
    """A run's status, and the end of what it printed."""
    last = run.output.rstrip(b"\n").rsplit(b"\n", 1)[-1][-200:]
    return f"status {run.status}" + (f": {printing(last)}" if last else "")


def one_that_passes(program, items):
    """A run that passes, and what it is called: the same choices without the last one, else the run in order, else that of a seed. Or nothing."""
    found = [(list_of(items[:-1]), "the same without the last choice")] if items else []
    found += [("list:", "in order")] if len(items) > 1 else []
    found += [
        ("lazy", "the lazy order"),
        *((f"seed:{it}", f"seed {it}") for it in range(1, MOST_SEEDS + 1)),
    ]
    for policy, name in found:
        run = program.run(policy, is_tracing=True)
        if not run.fails():
            # (its choices are those of the list, so nothing that the first run didn't come to)
            return run, name if run.items() else "in order"
    return None, ""


def draw(options, program, run, title):
    """Writes the page of a run, with the data of each of its rings beside those of a run that passes."""
    other, name = (
        one_that_passes(program, run.items()) if run.fails() or run.items() else (None, "")
    )
    pairs = [
        (trace, other.traces[at] if other and at < len(other.traces) else None)
        for at, trace in enumerate(run.traces)
    ]
    try:
        runs = [
            it
            for index, (trace, passing) in enumerate(pairs)
            for it in pair_of(
                f"ring {index}",
                data_of(trace),
                passing and data_of(passing),
                run,
                other,
                name,
            )
        ]
        if run.turns:
            passing = other and other.turns and lanes_of(other.turns)
            lanes = list(pair_of("threads", lanes_of(run.turns), passing, run, other, name))
            runs = [*map(without_empty, lanes), *runs]
    except (Differs, OSError) as why:
        stop(f"no page: {why}")
    write(
        {"form": 2, "title": title, "told": os.path.basename(program.words[0]), "runs": runs},
        options.page,
        options.json,
    )


def without_empty(run):
    """Not each line of threads has an answer."""
    for line in run["lines"]:
        if not line["answer"]:
            del line["answer"]
    return run


def pair_of(group, data, passing, run, other, name):
    """The data of one ring, or of the threads, in both runs."""
    first = {
        "group": group,
        "name": "the run that fails" if run.fails() else "the run",
        "told": told_of(run),
        **data,
    }
    yield first
    if passing:
        second = {
            "group": group,
            "name": f"one that passes: {name}",
            "told": told_of(other),
            **passing,
        }
        put_beside(first, second)
        yield second
