"""The litmus tests of this folder, as README.md has their form."""

import os

HERE = os.path.dirname(os.path.abspath(__file__))
KINDS = ("may", "never", "always")


class Claim:
    """That some outcome shows a line (may), none does (never), or each shows one of some lines (always); or the same of what a power failure may show (crash)."""

    def __init__(self, text):
        self.text = text
        self.is_crash = text.startswith("crash ")
        self.kind, lines = text.removeprefix("crash ").split(" ", 1)
        self.lines = lines.split(" or ")

    def is_shown_by(self, outcome):
        return any(shows(outcome, line) for line in self.lines)

    def holds_of(self, outcomes):
        shown = [self.is_shown_by(outcome) for outcome in outcomes]
        return (
            any(shown)
            if self.kind == "may"
            else all(shown)
            if self.kind == "always"
            else not any(shown)
        )


def shows(outcome, line):
    """Whether an outcome has the parts of a line among its own, in this order."""
    parts = iter(outcome.split(", "))
    return all(part in parts for part in line.split(", "))


class Test:
    def __init__(self, name, text):
        self.name, self.text = name, text
        lines = text.splitlines()
        first = lines[0].split() if lines else []
        self.options = first[2:] if first[:2] == ["#", "setup"] else []
        self.files = (
            int(self.options[self.options.index("--files") + 1]) if "--files" in self.options else 2
        )
        units = [line.split()[2] for line in lines if line.startswith("# unit ")]
        self.unit = int(units[0]) if units else 1
        self.remarks = [
            line[2:]
            for line in lines
            if line.startswith("# ") and not line.startswith(("# setup ", "# unit "))
        ]
        claims = [
            Claim(line)
            for line in lines
            if line.removeprefix("crash ").startswith(tuple(f"{kind} " for kind in KINDS))
        ]
        self.claims = [claim for claim in claims if not claim.is_crash]
        self.crash_claims = [claim for claim in claims if claim.is_crash]
        counts = [line for line in lines if line.startswith(("outcomes ", "crashes "))]
        self.count, self.crash_count = (
            next((int(line.split()[1]) for line in counts if line.startswith(word)), None)
            for word in ("outcomes ", "crashes ")
        )
        said = {claim.text for claim in claims} | set(counts)
        calls = [line for line in lines if not line.startswith("#") and line not in said]
        self.calls = "\n".join(calls).strip("\n") + "\n"


def tests():
    for folder, _, files in sorted(os.walk(HERE)):
        for file in sorted(files):
            if file.endswith(".litmus"):
                path = os.path.join(folder, file)
                with open(path, encoding="utf-8") as text:
                    yield Test(os.path.relpath(path, HERE).removesuffix(".litmus"), text.read())
