"""Plants mistakes in recorded runs: each kind has to be found."""

from conforming.machines import record
from conforming.runs import explain


def changed(seen, change):
    """What was seen with the first change that can be made, or None."""
    lines = seen.splitlines()
    for at in range(len(lines)):
        found = change(lines, at)
        if found is not None:
            return "\n".join(found) + "\n"
    return None


def is_end(line):
    return line.startswith("cqe ")


def later_tails(lines, at, by):
    """The lines with each tail and head of completions from there on moved by so many."""
    return lines[:at] + [
        f"{it.split()[0]} {int(it.split()[1]) + by}" if it.split()[0] in ("tail", "head") else it
        for it in lines[at:]
    ]


def tail_before(lines, at):
    return max(it for it in range(at) if lines[it].startswith("tail "))


def lost(lines, at):
    if is_end(lines[at]):
        before = tail_before(lines, at)
        return later_tails(lines, before, -1)[:at] + later_tails(lines, before, -1)[at + 1 :]
    return None


def doubled(lines, at):
    if is_end(lines[at]):
        moved = later_tails(lines, tail_before(lines, at), 1)
        return moved[: at + 1] + [lines[at]] + moved[at + 1 :]
    return None


def swapped(first, second):
    """Two completions of these names change places, wherever they stand."""

    def change(lines, at):
        places = {line.split()[1]: number for number, line in enumerate(lines) if is_end(line)}
        if at or first not in places or second not in places:
            return None
        lines = list(lines)
        lines[places[first]], lines[places[second]] = lines[places[second]], lines[places[first]]
        return lines

    return change


def result(name, number):
    """The completion of this name has another result."""

    def change(lines, at):
        return (
            [*lines[:at], f"cqe {name} {number}", *lines[at + 1 :]]
            if lines[at].startswith(f"cqe {name} ")
            else None
        )

    return change


def renamed(lines, at):
    return (
        [*lines[:at], f"cqe 77 {lines[at].split()[2]}", *lines[at + 1 :]]
        if is_end(lines[at])
        else None
    )


def returned(lines, at):
    words = lines[at].split()
    return (
        [
            *lines[:at],
            f"call {words[1]} {int(words[2]) + 1} {words[3]} {words[4]}",
            *lines[at + 1 :],
        ]
        if words[0] == "call"
        else None
    )


def added(name, number):
    """A completion of this name comes after the first one."""

    def change(lines, at):
        if not is_end(lines[at]):
            return None
        moved = later_tails(lines, tail_before(lines, at), 1)
        return [*moved[: at + 1], f"cqe {name} {number}", *moved[at + 1 :]]

    return change


def calls(*told):
    """The first calls were asked for other numbers, and return other numbers and heads."""

    def change(lines, at):
        places = [number for number, it in enumerate(lines) if it.startswith("call ")]
        if at or len(places) < len(told):
            return None
        lines = list(lines)
        for place, (asked, returned, head) in zip(places, told):
            lines[place] = f"call {asked} {returned} {head} {lines[place].split()[4]}"
        return lines

    return change


MISTAKES = [
    ("a completion is lost", "links/three", lost),
    ("a completion comes twice", "links/three", doubled),
    ("a completion of nobody", "links/three", renamed),
    ("a member ends before the one before it", "links/a held head", swapped("1", "2")),
    ("a broken chain goes on", "links/a short read breaks", result("2", 0)),
    ("a chain breaks without a failure", "links/a pair", result("2", -125)),
    ("a drain is passed", "drains/a drain waits for a hold", swapped("1", "2")),
    ("one after a drain passes it", "drains/later ones wait for a drain", swapped("2", "3")),
    ("a cancel of nobody found one", "cancel/nobody", result("1", 0)),
    ("a cancel that chose found nobody", "cancel/a hold", result("2", -2)),
    ("a cancel of all counts wrong", "cancel/all of two holds", result("2", 1)),
    ("a fault isn't told", "faults/one", result("1", 0)),
    ("a no-op fails", "links/a pair", result("1", -5)),
    ("a read gives too much", "files/a read of no bytes", result("1", 1)),
    ("a call tells one too many", "links/a pair", returned),
]


# Mistakes where Linux has rules of its own.
LINUX_MISTAKES = [
    ("a cancel finds what is held back", "cancel/a held-back member", result("3", 0)),
    ("a cancel finds what stands after it", "cancel/one that stands after it", result("1", 0)),
    (
        "a cancel of all counts what is held back",
        "cancel/all of a held-back member",
        result("3", 1),
    ),
    ("a drain is served beside skipped success", "skip/a drain after it", result("2", 0)),
    ("a member is posted after a skipping failure", "skip/a failing head", added("2", -125)),
    (
        "a fault is posted after a skipping head",
        "skip/a faulty member after a head",
        added("2", -22),
    ),
    ("a call goes on after a bad word", "words/one at the start", calls((2, 1, 2), (0, 0, 2))),
    (
        "a call ends after a linked fault",
        "faults/a ring that stops, a linked fault",
        calls((3, 1, 1), (2, 2, 3)),
    ),
    (
        "a call goes on after a fault",
        "faults/a ring that stops, at the first",
        calls((3, 3, 3), (0, 0, 3)),
    ),
]


def find(report, scenarios, uring, is_linux):
    """Judges each mistake, by the proved search if these are the words that run it, and by Linux's own rules if those are asked for. Returns the status: 1 if one wasn't found."""
    texts = {it.name: it.text for it in scenarios}
    missed, mistakes = 0, MISTAKES + LINUX_MISTAKES if is_linux else MISTAKES
    for name, scenario, change in mistakes:
        seen = record(texts[scenario])
        wrong = changed(seen, change)
        found = (
            wrong is not None
            and explain(texts[scenario], seen, uring, is_linux).kind in ("lawful", "told")
            and explain(texts[scenario], wrong, uring, is_linux).kind == "unexplained"
        )
        missed += not found
        report.say(f"{'found' if found else 'NOT FOUND'}: {name} ({scenario})")
    report.say(f"{len(mistakes) - missed} of {len(mistakes)} mistakes were found")
    return 1 if missed else 0
