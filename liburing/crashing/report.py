"""What `crash` has found, for machines: its JSON, and JUnit's XML. Both are written however it ends."""

import json
import time

from exploring.kinds import Case, write_junit


class Report:
    """What is known so far."""

    def __init__(self, options):
        self.options, self.begun = options, time.monotonic()
        self.status = self.stopped = self.remarks = self.seconds = None
        self.crashes = self.checked = self.runs = self.passed = self.failures = 0
        self.kinds, self.data = [], None

    def add_kind(self, count, told, failure, kept):
        """A kind of failures with its example, or without one, if it couldn't be made again."""
        kind = {
            "said": told.first if told else failure.first,
            "lost": list(failure.lost),
            "crashes": count,
            "status": told.status if told else failure.status,
            "kept": kept,
            "example": None,
        }
        if told:
            kind["example"] = {
                "repeat": told.repeat,
                "at": [it.moment for it in told.example.epochs],
                "lose": [it.left.told() for it in told.example.epochs],
                "choices": [it.policy.removeprefix("list:") for it in told.example.epochs],
                "lost": told.lost,
                "told": told.lines,
            }
        self.kinds.append(kind)

    def summary(self):
        return {
            "program": getattr(self.options, "shown", self.options.words),
            "status": self.status,
            "stopped": self.stopped,
            "runs": self.runs,
            "crashes": self.crashes,
            "checked": self.checked,
            "failures": self.failures,
            "moments_with_more": self.passed,
            "seconds": round(time.monotonic() - self.begun, 3),
            "remarks": self.remarks.for_report() if self.remarks else [],
            "kinds": self.kinds,
        }

    def write(self):
        summary = self.summary()
        if self.options.json:
            data = self.data or {"form": 2, "title": "A crash", "told": "no crash", "runs": []}
            with open(self.options.json, "w", encoding="utf-8") as file:
                json.dump({**data, "summary": summary}, file)
                file.write("\n")
        if self.options.junit:
            suite = f"explore crash {' '.join(summary['program'])}"
            write_junit(self.options.junit, suite, summary["seconds"], cases(summary))


def cases(summary):
    """A test of all crashes, which has passed if nothing is to be told; else one for each thing that is."""
    found = [
        Case("the run", "error", it["told"], "\n".join(it["lines"])) for it in summary["remarks"]
    ]
    found += [Case("the run", "error", summary["stopped"])] if summary["stopped"] else []
    for kind in summary["kinds"]:
        example = kind["example"] or {"repeat": "", "lost": kind["lost"], "told": []}
        lost = "; ".join(example["lost"]) or "nothing is lost"
        text = "\n".join(
            [
                f"{kind['crashes']} crashes",
                example["repeat"],
                *example["told"],
                *([f"kept: {kind['kept']}"] if kind["kept"] else []),
            ]
        )
        name = (
            f"{kind['said'] or 'the check fails'} ({', '.join(kind['lost']) or 'nothing is lost'})"
        )
        found.append(Case(name, "failure", f"status {kind['status']}: {lost}", text))
    return found or [Case(f"{summary['crashes']} crashes")]
