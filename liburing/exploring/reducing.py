"""Which things that could go on commute, and so which runs only repeat others.

A way is a letter, a ring and a request's number, as `liburing/layer/choices/outlook.h` tells it: `i` starts a request, `e` ends it unstarted, `f` finishes it, `b` starts and finishes it, and `r` returns to the application. Amid an end, `n` is that the request has no fault, and `x` that it has one; before a step, `n` that no time passes, and `t` that it does. Two ways commute if each can still go on after the other, does the same there, and the application can't tell in which order they went. What isn't known to commute is taken not to.
"""

import collections

# What is chosen beside what goes on: that there is no fault and no time passes, a fault, and that time passes.
BESIDE = "nxt"

READS, WRITES, NOTHING = (22, 1), (23, 2), (0, 3)

Request = collections.namedtuple("Request", "code flags address offset length kind")
Way = collections.namedtuple("Way", "letter ring number request is_silent")
RETURN = Way("r", 0, 0, None, False)


class Node:
    """A moment at which something went on: the choice's number, or None if there was one way; the ways; and which of them it was."""

    def __init__(self, at, ways):
        self.at, self.ways, self.chosen = at, ways, None if at is not None else 0


class Outlook:
    """What a run's record says of what could go on."""

    def __init__(self, lines):
        self.requests, self.silent, self.faulty, self.nodes, by_choice = {}, set(), set(), [], {}
        for words in lines:
            if words[0] == "request":
                self.requests[words[1], words[2]] = Request(*map(int, words[3:8]), words[8])
            elif words[0] == "silent":
                self.silent.add((words[1], words[2]))
            elif words[0] == "break":
                self.nodes.append(None)
            elif words[0] == "ways":
                self.nodes.append(
                    Node(
                        None if words[1] == "-" else int(words[1]),
                        [self.way(words[2], word) for word in words[3:]],
                    )
                )
                by_choice[self.nodes[-1].at] = self.nodes[-1]
            elif int(words[0]) in by_choice:
                by_choice[int(words[0])].chosen = int(words[1])

    def way(self, ring, word):
        if word == "r":
            return RETURN
        number, _, fault = word[1:].partition(".")
        if word[0] in BESIDE:
            self.faulty.add((ring, number))
        return Way(word[0] + fault, ring, number, self.requests.get((ring, number)), False)

    def seen_here(self, way):
        """A way that was seen in another run, with its request as this one has it: where bytes lie in memory differs between processes."""
        return way._replace(request=self.requests.get((way.ring, way.number), way.request))

    def chosen(self, node):
        """What went on at a node, with what it turned out to be. An end that may have a fault isn't silent with that."""
        way = node.ways[node.chosen]
        of = way.ring, way.number
        return way._replace(
            is_silent=way.letter in "fb" and of in self.silent and of not in self.faulty
        )


def overlap(one, length, other, other_length):
    return one < other + other_length and other < one + length


def shares_memory(one, other):
    """Whether a read fills bytes that the other reads or fills. Of vectors nobody says where they lie."""
    if one.code not in READS and other.code not in READS:
        return False
    return (
        not one.address
        or not other.address
        or overlap(one.address, one.length, other.address, other.length)
    )


def shares_bytes(one, other):
    """Whether two transfers meet in a file, which is taken to be one file. A read before a write's end sees whether the file is long enough."""
    if one.code in READS and other.code in READS:
        return False
    if one.code in WRITES and other.code in WRITES:
        return overlap(one.offset, one.length, other.offset, other.length)
    read, write = (one, other) if one.code in READS else (other, one)
    return read.offset < write.offset + write.length


def commute_effects(one, other):
    if one.code in NOTHING or other.code in NOTHING:
        return True
    return not shares_memory(one, other) and not shares_bytes(one, other)


def commute_starts(one, other):
    """A start beside another way. Who has started is asked by a cancel, and by what is of another kind; an end that moves bytes, or nothing, doesn't ask."""
    return all(way.letter == "i" or way.request.kind == "plain" for way in (one, other))


def commute_return(one, other):
    """A start beside the return to the application that went on: it may be made before or after it. A return that would be made elsewhere doesn't commute: nobody knows what the application calls then."""
    return other.letter == "r" and one.letter == "i" and one.request.kind == "plain"


def are_told(one, other):
    """Whether the order of two ends can be told by their completions."""
    return not (one.is_silent or other.is_silent)


def are_plain(one, other):
    return "other" not in (one.request.kind, other.request.kind)


def commute(one, other):
    """Whether one that is asleep stays so after the other, which went on."""
    if other.letter == "n":
        return True
    if one.letter[0] in BESIDE or other.letter[0] in BESIDE:
        return False
    if "r" in (one.letter, other.letter):
        return commute_return(one, other)
    if (one.ring, one.number) == (other.ring, other.number):
        return False
    if "i" in (one.letter, other.letter):
        return commute_starts(one, other)
    return (
        not are_told(one, other)
        and are_plain(one, other)
        and commute_effects(one.request, other.request)
    )


def key_of(way):
    return way[:3]


def unfold(outlook, begun, asleep):
    """Looks through a run that began with so many choices, of which the last stands beside ways that were tried before (`asleep`). Gives the choices' lists that are left, each with the ways that are asleep there, and whether the run came to do what another one does."""
    made = [node.chosen for node in outlook.nodes if node and node.at is not None]
    left, asleep, is_begun = [], {key_of(way): outlook.seen_here(way) for way in asleep}, begun == 0
    for node in outlook.nodes:
        if not node:
            asleep = {} if is_begun else asleep
            continue
        if not is_begun and node.at != begun - 1:
            continue
        if node.chosen is None:
            break
        way = outlook.chosen(node)
        if is_begun and node.at is not None:
            left += others_of(node, way, asleep, made)
        if is_begun and key_of(way) in asleep:
            return left, True
        is_begun = True
        asleep = {key: other for key, other in asleep.items() if commute(other, way)}
    return left, False


def others_of(node, way, asleep, made):
    """The other ways of a choice that aren't asleep, each with those that are tried before it."""
    before, left = dict(asleep), []
    before.setdefault(key_of(way), way)
    for number, other in enumerate(node.ways):
        if number != node.chosen and key_of(other) not in asleep:
            left.append((made[: node.at] + [number], list(before.values())))
            before[key_of(other)] = other
    return left
