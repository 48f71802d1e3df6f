"""What a page draws: by the data of its runs, and by scripts that read it off the page."""

STATES = ("waits", "ready", "doomed", "runs", "ring", "overflow", "hidden")
MARKS = ("reaped", "safe", "lost", "torn", "left")


def spans_of(run):
    """The states of the requests by the data, as `REQUEST STATE FROM-UNTIL`: from the place of a line on, until that of another."""
    size, open_spans, spans = len(run["lines"]), {}, []
    for place, line in enumerate(run["lines"]):
        for change in line.get("changes", []):
            number, state = change["request"], change["is"]
            if state in ("accepted", "safe"):
                continue
            if number in open_spans:
                before, start = open_spans.pop(number)
                spans.append(f"{number} {before} {start}-{place}")
            if state in STATES:
                open_spans[number] = (state, place)
    spans += [f"{number} {state} {start}-{size}" for number, (state, start) in open_spans.items()]
    return sorted(spans)


def arrows_of(run):
    """The arrows by the data, as `KIND FROM-TO`."""
    arrows = []
    chains = {one["request"]: one["chain"] for one in run["requests"]}
    for line in run["lines"]:
        for change in line.get("changes", []):
            number, other, why = change["request"], change.get("of"), change.get("why", "")
            if change["is"] == "accepted" and chains[number] != number:
                arrows.append(f"link {number - 1}-{number}")
            if other is None:
                continue
            if change["is"] == "ended":
                arrows.append(f"cancel {number}-{other}")
            elif "drains" in why:
                arrows.append(f"drain {other}-{number}")
            elif "member of its group" in why:
                arrows.append(f"group {other}-{number}")
            elif "a cancel chose it" in why:
                arrows.append(f"cancel {other}-{number}")
            else:
                arrows.append(f"doom {other}-{number}")
    return sorted(arrows)


def marks_of(run):
    """The marks by the data, as `REQUEST MARK`."""
    return sorted(
        f"{change['request']} {change['is']}"
        for line in run["lines"]
        for change in line.get("changes", [])
        if change["is"] in MARKS
    )


def words_of(run):
    """The heads and tails after each line by the data, as the page tells them."""
    words = dict.fromkeys(("sq_head", "sq_tail", "cq_head", "cq_tail"), run["setup"]["start"])
    for line in run["lines"]:
        words.update({name: line[name] for name in words if name in line})
        yield [
            f"head {words[f'{ring}_head']}, tail {words[f'{ring}_tail']}" for ring in ("sq", "cq")
        ]


SPANS = "[...document.querySelectorAll('#lanes .lane')].flatMap(lane => [...lane.querySelectorAll('.state')].map(one => `${lane.dataset.request} ${one.dataset.is} ${one.dataset.from}-${one.dataset.until}`)).sort()"
ARROWS = "[...document.querySelectorAll('#lanes path[data-kind]')].map(one => `${one.dataset.kind} ${one.dataset.from}-${one.dataset.to}`).sort()"
DRAWN_MARKS = "[...document.querySelectorAll('#lanes .lane')].flatMap(lane => [...lane.querySelectorAll('path[data-is], circle[data-is]')].map(one => `${lane.dataset.request} ${one.dataset.is}`)).sort()"
WORDS = "[...document.querySelectorAll('#counts dd')].slice(-2).map(one => one.textContent)"
POINTED = "[...document.querySelectorAll('#lanes .state')].filter(one => !one.querySelector('title').textContent.includes(tellLine(view.run.lines[one.dataset.from]))).length"
ROWS = "[...document.querySelectorAll('#lanes .label')].map(one => Number(one.dataset.request))"
CHOICES = "[...document.querySelectorAll('#lanes path[data-choice]')].map(one => Number(one.dataset.choice))"
NOW = "document.getElementById('now').innerText"


def of_pane(script, number):
    """The same of the lanes of another run."""
    return script.replace("#lanes", f"#lanes_{number}" if number else "#lanes")
