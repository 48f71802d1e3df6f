"""The page's parts, put together round data."""

import json
import os

HERE = os.path.dirname(os.path.realpath(__file__))


def part(name):
    with open(os.path.join(HERE, name), encoding="utf-8") as file:
        return file.read()


def halves():
    """What stands before the data and after them, without the comments of the scripts."""
    page = part("page.html").replace("/*STYLE*/\n", part("page.css"))
    script = part("model.js") + part("draw.js") + part("page.js")
    before, after = page.split("/*DATA*/\n")
    script = "".join(
        line for line in script.splitlines(keepends=True) if not line.lstrip().startswith("//")
    )
    return before, after.replace("/*SCRIPT*/\n", script)


def text_of(data):
    """The data as JSON, a line for each run's line, which may stand in a page as it is."""
    text = json.dumps(data, separators=(",", ":"))
    return text.replace("<", "\\u003c").replace('{"line":', '\n{"line":') + "\n"


def write(data, page=None, other=None):
    """Writes a page of the data to the one file, and the data alone to the other, if they are given."""
    before, after = halves()
    for path, text in (page, before + text_of(data) + after), (other, text_of(data)):
        if path:
            with open(path, "w", encoding="utf-8") as file:
                file.write(text)
