"""Where Linux is known to differ from the profile, or from its own rules as this project has them: a name for each, and the sentence of docs/PROTOCOL.md that tells it, word for word."""

DIFFERENCES = {
    "linked fault stops nothing": "The kernel ends a call after the first faulty entry that has no link flag, also after a drain that it refuses with -95. After one that has a link flag it goes on, also past the end of its chain.",
    "held back isn't found": "The kernel doesn't find a request that it still holds back: the cancel ends with -2, and the request runs later.",
    "after a cancel isn't found": "Nor does it find what comes after it in its own call, which is accepted later there: the cancel ends with -2.",
    "a read is cancelled twice": "A waiting read that one cancel has chosen is found by another of the same call: both end with 0, and two cancels of all both with 1.",
    "cancel of all leaves held back": "Of requests that the kernel holds back it ends with 0, and they run.",
    "skipped failure leaves members out": "The page and the kernel leave these out.",
    "skipping head swallows a fault": "if the head of a chain has the skip flag, the completion of a faulty member is swallowed too, and nobody learns which entry was wrong.",
    "bad word ends the call": "The kernel ends the call there, with the head past the bad word, and what follows waits for the next call",
    "nobody waits for a refused drain": "Nobody waits for a group whose draining member has an unknown operation or a refused flag.",
    "file position is served": "a read or write at offset 2^64 - 1, which means the file position in the pages.",
    "files have another limit": "The kernel writes up to the limit,",
    "drain beside skipped success": "Once a ring has used skipped success, the kernel refuses a drain with -95 (EOPNOTSUPP).",
    "a cancel takes back": "Four things are our own. A cancel takes nothing back, since no read waits here.",
    "a cancel finds itself": "Such a cancel may also find itself, and end with -114.",
    "drains go by a count": "Kernels 6.1 and 6.12 drain by a count of completions:",
}


def untold(page):
    """The differences whose sentence doesn't stand in the page."""
    return [name for name, sentence in DIFFERENCES.items() if sentence not in page]
