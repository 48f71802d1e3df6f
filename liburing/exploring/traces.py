"""The traces of the layer, beside `uring trace`."""

import concurrent.futures
import hashlib
import os
import re
import subprocess
import sys

TOP = os.path.dirname(os.path.dirname(os.path.dirname(os.path.realpath(__file__))))
IS_REPOSITORY = os.path.isdir(f"{TOP}/crates")
# The program `uring`: that of the variable, or the repository's, or the one that is installed beside this tool.
URING = os.environ.get("URING") or (
    f"{TOP}/crates/uring_cli/out/uring_cli" if IS_REPOSITORY else f"{TOP}/../bin/uring"
)


def numbers_of_failed(lines):
    """The requests that were finished with a failure."""
    return {
        int(step.split()[1])
        for step, answer in lines
        if step.startswith("finish ") and answer.startswith("ended -")
    }


def split_trace(text):
    """The options, steps and answers of a trace. What a served request will come to is known only at its end, so the layer gives its core a no-op, and ends it with 0 or with -9. `uring trace` carries operations out, so here a no-op that failed is written as an fsync of a descriptor that no file has, which fails with -9. The core asks of neither what it is. Fills and requests have one order: the n-th fill is request n. A call that was refused for want of memory changed nothing, and is left out."""
    head, *rest = text.splitlines() or ["setup"]
    lines = [
        tuple(line.split(" = ", 1))
        for line in rest
        if not line.startswith("# ") and not line.endswith(" = again")
    ]
    failed, steps, fills = numbers_of_failed(lines), [], 0
    for step, _ in lines:
        if step.startswith("fill "):
            words = step.split()
            if fills in failed:
                assert words[2] == "nop", step
                step = f"fill {words[1]} fsync {words[3]} {words[4]} -1"
            fills += 1
        steps.append(step)
    return (
        head.split()[1:],
        "".join(it + "\n" for it in steps),
        "".join(answer + "\n" for _, answer in lines),
    )


def read_trace(path):
    with open(path, errors="replace") as file:
        text = file.read()
    for line in text.splitlines()[1:]:
        if not line.startswith("# ") and not re.fullmatch(r"[a-z]+( [-0-9a-zA-Z]+)* = .+", line):
            sys.exit(f"{path}: no step and answer: {line!r}")
    return split_trace(text)


def prove():
    """Builds the repository's program, if it isn't there, and none is given."""
    if IS_REPOSITORY and not os.environ.get("URING"):
        subprocess.run([f"{TOP}/uring", "prove"], check=True)


def each(look, paths):
    """What a look at each trace says, two at once where there are as many processors. Of those with the same text, of which refused memory leaves hundreds, one is looked at, which speaks for all: how many there are comes with what it says."""
    alike = {}
    for path in paths:
        with open(path, "rb") as file:
            alike.setdefault(hashlib.sha256(file.read()).digest(), []).append(path)
    with concurrent.futures.ProcessPoolExecutor(min(2, len(os.sched_getaffinity(0)))) as pool:
        yield from zip(
            map(len, alike.values()), pool.map(look, [first for first, *_ in alike.values()])
        )


def compared(path):
    """How many steps a trace has, and what is to be said of the first answer that differs, or nothing."""
    words, steps, answers = read_trace(path)
    done = subprocess.run(
        [URING, "trace", *words], input=steps.encode(), stdout=subprocess.PIPE, check=True
    )
    found = done.stdout.decode()
    if found == answers:
        return steps.count("\n"), None
    rows = zip(steps.splitlines(), answers.splitlines(), found.splitlines())
    first = next(
        (f"{step}: {one} here, {other} there" for step, one, other in rows if one != other),
        "one has more answers",
    )
    return steps.count("\n"), f"{path}: the answers of uring trace differ\n{first}"


def compare(options, program):
    lines = 0
    prove()
    for count, (steps, differs) in each(compared, options.traces):
        lines += count * steps
        if differs:
            print(differs)
            return 1
    print(f"{len(options.traces)} traces, {lines} steps: uring trace gives the same answers")
    return 0


def to_judge(path):
    """The words for `uring check`, the lines, and what it is to say. The first line has the options; it goes in as a remark, so that lines keep their numbers."""
    with open(path, errors="replace") as file:
        head, _, rest = file.read().partition("\n")
    steps = sum(1 for line in rest.splitlines() if line and not line.startswith("#"))
    return ["check", "--apart", *head.split()[1:]], f"# {head}\n{rest}", f"lawful: {steps} steps\n"


def judged(path):
    """What is to be said of a trace that isn't lawful, or nothing."""
    words, lines, wanted = to_judge(path)
    done = subprocess.run([URING, *words], input=lines.encode(), stdout=subprocess.PIPE)
    return None if done.stdout.decode() == wanted else f"{path}: {done.stdout.decode()}"


def judge(options, program):
    prove()
    for _, unlawful in each(judged, options.traces):
        if unlawful:
            print(unlawful)
            return 1
    print(f"{len(options.traces)} traces are lawful")
    return 0


def split(options, program):
    for number, path in enumerate(options.traces):
        if options.judge:
            words, steps, answers = to_judge(path)
        else:
            words, steps, answers = read_trace(path)
            words = ["trace", *words]
        for end, text in ("", steps), (".stdout", answers), (".args", "\n".join(words)):
            with open(
                f"{options.folder}/{'judge' if options.judge else 'trace'}_{number}{end}", "w"
            ) as file:
                file.write(text)
    return 0
