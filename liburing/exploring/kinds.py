"""Failures of one kind, of which what is said is the same but for numbers; and what is told of them as JUnit's XML, which those read that run tests by themselves."""

import re
from xml.sax.saxutils import escape, quoteattr

# What XML can't have, whatever stands for it.
BAD = re.compile("[^\t\n\r\x20-\ud7ff\ue000-\ufffd\U00010000-\U0010ffff]")


def first_line(said):
    """The first line of what a program said that says anything; of Python's traceback the last, which says what is wrong."""
    lines = [it for it in said.decode(errors="replace").splitlines() if it.strip()]
    if not lines:
        return ""
    return (lines[-1] if lines[0].startswith("Traceback (") else lines[0]).strip()[:300]


def without_numbers(text):
    """Where numbers stand one after the other, as in a list, so many count as one."""
    return re.sub(r"\d+(?:[, ]+\d+)*", "N", text)


class Case:
    """A test of a name: passed, or with a failure or an error of its own, what that is in a line, and more."""

    def __init__(self, name, outcome=None, message="", text=""):
        self.name, self.outcome, self.message, self.text = name, outcome, message, text

    def lines(self, suite):
        head = f"<testcase classname={attribute(suite)} name={attribute(self.name)}"
        if self.outcome is None:
            return [f"    {head}/>"]
        return [
            f"    {head}>",
            f"      <{self.outcome} message={attribute(self.message)}>{clean(escape(self.text))}</{self.outcome}>",
            "    </testcase>",
        ]


def clean(text):
    return BAD.sub("?", text)


def attribute(text):
    return clean(quoteattr(text))


def write_junit(path, suite, seconds, cases):
    counts = " ".join(
        f'{name}="{sum(it.outcome == outcome for it in cases)}"'
        for name, outcome in (("failures", "failure"), ("errors", "error"))
    )
    head = f'tests="{len(cases)}" {counts} time="{seconds:.3f}"'
    lines = [
        '<?xml version="1.0" encoding="UTF-8"?>',
        f"<testsuites {head}>",
        f"  <testsuite name={attribute(suite)} {head}>",
        *(line for it in cases for line in it.lines(suite)),
        "  </testsuite>",
        "</testsuites>",
    ]
    with open(path, "w", encoding="utf-8", errors="replace") as file:
        file.write("\n".join(lines) + "\n")
