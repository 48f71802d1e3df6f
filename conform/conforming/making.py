"""Random scenarios from a seed: of what Linux keeps as the profile has it, and of everything, for its own rules.

Of the first, what is known to differ is left out, and told by the scenarios that are written by hand. Left out are a bad word before others and a linked fault in a ring that stops; a fault in a group that drains; a drain in a ring that skips; a skip in a chain; and cancels of what a kernel holds back: a cancel names a hold of its own call or of an earlier one that nothing holds back and no other cancel names, or nobody; one that a worker may carry out names nobody.
"""

import random

from conforming.requests import FAULTS, OPERATIONS


def operation(rng, kind, user_data, flags):
    """A write, a read, an fsync or a no-op; the first three of a file that there is, or of none."""
    file = rng.choice([0, 0, 1, 9])
    if kind == "write":
        return (
            f"write {user_data} {flags} {file} {rng.randrange(8)} {rng.choice(['61', '6162', '-'])}"
        )
    if kind == "read":
        return f"read {user_data} {flags} {file} {rng.randrange(8)} {rng.randrange(5)}"
    return f"fsync {user_data} {flags} {file}" if kind == "fsync" else f"nop {user_data} {flags}"


class Maker:
    def __init__(self, seed):
        self.rng = random.Random(seed)
        self.lines, self.next, self.free_holds, self.held, self.staged = [], 1, [], [], 0
        self.is_skipping = self.rng.random() < 0.3
        self.has_drains = not self.is_skipping and self.rng.random() < 0.6
        self.sq = self.rng.choice([1, 2, 4, 8])
        self.cq = self.rng.choice([self.sq, 2 * self.sq])
        self.has_drained = False

    def name(self):
        self.next += 1
        return self.next - 1

    def item(self, flags, is_linked, is_faulty_allowed):
        """One item with these flags."""
        user_data, rng = self.name(), self.rng
        if rng.random() < 0.15:
            flags += "A"
        flags = flags or "-"
        kind = rng.choice(
            [
                "nop",
                "nop",
                "nop",
                "write",
                "read",
                "fsync",
                "hold",
                "cancel",
                "cancelall",
                "op" if is_faulty_allowed else "nop",
            ]
        )
        if kind in ("cancel", "cancelall"):
            is_plain = not is_linked and "A" not in flags
            name = rng.choice(self.free_holds + [999] if is_plain else [999])
            self.free_holds = [it for it in self.free_holds if it != name]
            return f"{kind} {user_data} {flags} {name}"
        if kind == "hold":
            if "A" in flags:
                return f"nop {user_data} {flags}"
            self.held.append(user_data)
            if not is_linked and not self.has_drained:
                self.free_holds.append(user_data)
            return f"hold {user_data} {flags}"
        if kind == "op":
            return f"op {rng.choice([200, 255])} {user_data} {flags}"
        return operation(rng, kind, user_data, flags)

    def group(self, room):
        """The items of one group."""
        rng = self.rng
        count = min(room, rng.choice([1, 1, 1, 2, 3]))
        drains = self.has_drains and rng.random() < 0.25
        self.has_drained = self.has_drained or drains
        has_fault = not drains and rng.random() < 0.1
        items = []
        for at in range(count):
            is_last = at + 1 == count
            flags = "" if is_last else rng.choice(["L", "L", "H"])
            if drains and at == 0:
                flags += "D"
            if self.is_skipping and count == 1 and not has_fault and rng.random() < 0.4:
                flags += "S"
            items.append(self.item(flags, count > 1, has_fault))
        return items

    def call(self):
        room = self.sq
        while room and self.rng.random() < 0.75:
            items = self.group(room)
            self.lines += items
            room -= len(items)
        self.lines.append("")

    def scenario(self):
        self.lines = [f"# setup --sq {self.sq} --cq {self.cq}"]
        for _ in range(self.rng.randrange(1, 6)):
            self.call()
            if self.held and self.rng.random() < 0.4:
                user_data = self.held.pop(self.rng.randrange(len(self.held)))
                if user_data in self.free_holds:
                    self.free_holds.remove(user_data)
                self.lines.append(f"release {user_data}")
            if self.rng.random() < 0.15:
                self.lines.append(self.rng.choice(["events", "head off", "head on"]))
        return "\n".join(self.lines) + "\n"


def random_scenario(seed):
    return Maker(seed).scenario()


class FreeMaker:
    """Random scenarios of everything that Linux keeps in its own way: nothing is left out."""

    def __init__(self, seed):
        self.rng = random.Random(seed)
        self.next, self.held = 1, []
        self.sq = self.rng.choice([2, 4, 4, 8])
        self.flags = [it for it in "DSLHA" if self.rng.random() < 0.6]
        self.has_faults, self.has_bad_words, self.has_cancels = (
            self.rng.random() < 0.5 for _ in range(3)
        )
        # (how often an entry drains, skips or has a fault)
        self.share = 0.2
        self.kinds = ["nop", "nop", "write", "read", "fsync", "hold"]
        if self.rng.random() < 0.3:
            self.look_at_faults()

    def look_at_faults(self):
        """Makes many entries with a fault among drains, skips, links and holds, and few others."""
        self.flags = ["D", "L"] + [it for it in "SHA" if self.rng.random() < 0.3]
        self.has_faults, self.has_cancels, self.share = True, False, 0.4
        self.kinds = ["nop", "nop", "hold"]

    def name(self):
        """A user data: mostly a new one, at times that of a hold before."""
        if self.held and self.rng.random() < 0.1:
            return self.rng.choice(self.held)
        self.next += 1
        return self.next - 1

    def item(self):
        rng = self.rng
        if self.has_bad_words and rng.random() < 0.1:
            return f"bad {rng.choice([self.sq, 4096, 4294967295])}"
        user_data = self.name()
        flags = (
            "".join(
                it
                for it in self.flags
                if rng.random() < {"L": 0.35, "H": 0.15, "A": 0.2}.get(it, self.share)
            )
            or "-"
        )
        if self.has_faults and rng.random() < self.share:
            return f"{self.fault()} {user_data} {flags}"
        if self.has_cancels and rng.random() < 0.3:
            named = rng.choice(self.held + [user_data - 1, user_data + 1, 999])
            return f"{rng.choice(['cancel', 'cancelall'])} {user_data} {flags} {max(named, 0)}"
        kind = rng.choice(self.kinds)
        if kind == "hold":
            self.held.append(user_data)
            return f"hold {user_data} {flags}"
        return operation(rng, kind, user_data, flags)

    def fault(self):
        """What an entry with a fault begins with: an operation that nobody serves, or a fault of one that is served."""
        rng = self.rng
        return (
            f"op {rng.choice([200, 255])}"
            if rng.random() < 0.3
            else f"fault {rng.choice([*FAULTS])} {rng.choice([*OPERATIONS])}"
        )

    def scenario(self):
        rng = self.rng
        lines = [
            f"# setup --sq {self.sq} --cq {rng.choice([self.sq, 2 * self.sq])}"
            + (" --stop" if rng.random() < 0.4 else "")
        ]
        for _ in range(rng.randrange(1, 5)):
            # (what an earlier call left is taken by the next)
            lines += [self.item() for _ in range(rng.randrange(self.sq // 2 + 1))]
            lines += [""] * rng.choice([1, 1, 2])
            if self.held and rng.random() < 0.4:
                lines.append(f"release {self.held.pop(rng.randrange(len(self.held)))}")
            if rng.random() < 0.1:
                lines.append("events")
        return "\n".join(lines + ["", ""]) + "\n"


def random_linux_scenario(seed):
    return FreeMaker(seed).scenario()
