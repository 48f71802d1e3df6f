"""The data of a run that a ring without files recorded: what `uring explain --json` tells of it, with the operations and results put back that the ring had.

Who waits, who is doomed and whom a cancel chooses is told by which requests failed, and not by what they are. So those that were carried out elsewhere are given to `uring explain` as a no-op, which succeeds, or as an fsync of a descriptor that no file has, which fails; and each answer has to be the recorded one but for the result.
"""

import json
import re
import subprocess

NOT_CARRIED_OUT = ("op", "cancel", "cancelall")


class Differs(Exception):
    """An answer isn't what `uring explain` says."""


def disguised(steps, failed):
    """The steps with no-ops and failing fsyncs in the place of operations. The n-th fill is request n."""
    fills, told = 0, []
    for step in steps:
        words = step.split()
        if words[0] == "fill":
            if words[2] not in NOT_CARRIED_OUT:
                step = " ".join(
                    [
                        *words[:2],
                        "fsync" if fills in failed else "nop",
                        *words[3:5],
                        *(["-1"] if fills in failed else []),
                    ]
                )
            fills += 1
        told.append(step)
    return told


def shape(answer):
    """An answer without what is the operation's own: the result, and a read's bytes."""
    return re.sub(r"^(ended|cqe \d+) .*", r"\1", answer)


def explained(uring, options, lines, failed):
    """The data of recorded lines (step, answer). `failed` has the numbers of the requests that ran and failed. An answer that isn't the one that the rules give raises Differs."""
    steps = disguised([step for step, _ in lines], failed)
    done = subprocess.run(
        [*uring, "explain", "--json", *options],
        input="".join(it + "\n" for it in steps),
        capture_output=True,
        text=True,
    )
    if done.returncode:
        raise Differs(done.stderr.strip())
    run = json.loads(done.stdout)
    for line, (step, answer) in zip(run["lines"], lines, strict=True):
        if shape(line["answer"]) != shape(answer):
            raise Differs(
                f"line {line['line']}: {step}: {answer} here, {line['answer']} by the rules"
            )
        line.update(text=step, answer=answer)
        line.pop("file", None)
        for change in line.get("changes", []):
            if change["is"] == "ended":
                change["result"] = int(answer.split()[1])
    entries = [step.split()[2:] for step, _ in lines if step.startswith("fill ")]
    for request in run["requests"]:
        put_back(request, entries[request["request"]])
    return run


def put_back(request, words):
    """Gives a request the fields of its entry."""
    for name in ("file", "offset", "length", "target"):
        request.pop(name, None)
    request.update(fields_of(words))


def fields_of(words):
    """What a request has of an entry in the trace language."""
    name = f"op {words[1]}" if words[0] == "op" else words[0]
    fields = {"operation": name}
    if name in ("cancel", "cancelall"):
        fields["target"] = words[3]
    if name in ("read", "write", "fsync"):
        fields["file"] = int(words[3])
    if name in ("read", "write"):
        length = int(words[5]) if name == "read" else len(words[5].replace("-", "")) // 2
        fields.update(offset=words[4], length=length)
    return fields


def put_beside(run, other):
    """Says of each line of two runs of one program which step of the other it is, and from which line on the runs part."""
    places = {}
    for line, key in zip(other["lines"], keys(other)):
        places[key] = line
    for line, key in zip(run["lines"], keys(run)):
        if key in places:
            line["beside"], places[key]["beside"] = places[key]["line"], line["line"]
    pairs = zip(run["lines"], other["lines"])
    common = next(
        (
            at
            for at, (one, two) in enumerate(pairs)
            if (one["text"], one["answer"]) != (two["text"], two["answer"])
        ),
        None,
    )
    if common is None and len(run["lines"]) != len(other["lines"]):
        common = min(len(run["lines"]), len(other["lines"])) - 1
    if common is not None:
        run["parts"] = other["parts"] = common + 1


def keys(run):
    """For each line its step, and the how manieth such step it is."""
    counts = {}
    for line in run["lines"]:
        counts[line["text"]] = counts.get(line["text"], 0) + 1
        yield line["text"], counts[line["text"]]


def printing(data):
    """Bytes as a text of printing ASCII."""
    return "".join(chr(it) if 32 <= it < 127 else f"\\x{it:02x}" for it in data)
