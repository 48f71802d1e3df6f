"""The scenarios of conform/scenarios: a file for each behaviour, a scenario a line.

    NAME [OPTIONS]: STATEMENT; STATEMENT; .. ~ DIFFERENCE

The options are those of a set-up, the statements those that the recorder takes, with `call` alone for a call that submits what is staged. After ~ stands where Linux is known to differ (conforming/differences.py), so that no history is to be found. The options are those of a first line `# setup ..`, as the recorder reads them; `Setup` writes that line as `uring check` takes it.
"""

import os
import re

from conforming.differences import DIFFERENCES

FOLDER = os.path.join(os.path.dirname(os.path.dirname(os.path.abspath(__file__))), "scenarios")


class Scenario:
    def __init__(self, name, text, differs=""):
        self.name, self.text, self.differs = name, text, differs


def text_of(options, statements):
    lines = ["# setup " + options] if options else []
    return "\n".join(lines + ["" if it == "call" else it for it in statements]) + "\n"


def scenario_of(behaviour, line):
    found = re.fullmatch(r"([^:\[]+?)(?: \[(.*)\])?: (.*?)(?: ~ (.*))?", line)
    if not found:
        raise ValueError(f"{behaviour}: no scenario: {line}")
    name, options, statements, differs = found.groups()
    if differs and differs not in DIFFERENCES:
        raise ValueError(f"{behaviour}: no such difference: {differs}")
    return Scenario(
        f"{behaviour}/{name}",
        text_of(options, [it.strip() for it in statements.split(";")]),
        differs or "",
    )


def scenarios():
    found = []
    for file in sorted(os.listdir(FOLDER)):
        with open(os.path.join(FOLDER, file), encoding="utf-8") as it:
            found += [
                scenario_of(file.removesuffix(".txt"), line)
                for line in it.read().splitlines()
                if line and not line.startswith("#")
            ]
    return found


def power(number):
    return 1 << max(0, number - 1).bit_length()


class Setup:
    def __init__(self, scenario):
        first = scenario.splitlines()[0].split() if scenario.strip() else []
        words = first[2:] if first[:2] == ["#", "setup"] else []
        self.options, self.is_stop = words, "--stop" in words
        value = {
            word: words[at + 1]
            for at, word in enumerate(words)
            if word != "--stop" and word.startswith("--") and at + 1 < len(words)
        }
        self.sq = power(int(value.get("--sq", 4)))
        self.cq = power(int(value["--cq"])) if "--cq" in value else 2 * self.sq
        self.files = int(value.get("--files", 2))

    def line(self, is_linux=False):
        """The first line of a recorded trace."""
        return (
            f"# setup --sq {self.sq} --cq {self.cq} --files {self.files} --start 0"
            + (" --stop" if self.is_stop else "")
            + (" --linux" if is_linux else "")
        )
