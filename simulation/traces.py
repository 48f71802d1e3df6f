"""Random traces: lines that mostly go on from what the earlier ones did, and odd ones among them."""

FLAGS = ["-"] * 6 + ["L", "H", "D", "S", "A", "LH", "DL", "LS", "HS", "DS", "SDA", "LDHAS"]
ODD_FLAGS = ["LL", "X", "", "l", "-L", "L-"]
ODD_NUMBERS = [
    "00",
    "01",
    "-1",
    "+1",
    "1a",
    "",
    "4294967295",
    "4294967296",
    "18446744073709551615",
    "18446744073709551616",
]


def is_faulty(entry):
    """Whether an entry's text is that of a faulty one: a guess, on which nothing but the mix of the lines rests."""
    kind, *words = entry.split(" ")
    if kind == "op":
        return words[0] not in ("0", "3", "14", "22", "23")
    if kind == "read":
        return words[3] == str(2**64 - 1) or int(words[4]) > 64
    if kind == "write":
        return words[3] == str(2**64 - 1)
    if kind == "raw":
        raw = bytes.fromhex(words[0])
        return (
            raw[0] not in (0, 3, 14, 22, 23)
            or bool(raw[1] & 0xA1)
            or raw[24] > 64
            or any(raw[40:64])
        )
    return False


class Trace:
    """Makes lines that mostly go on from what the earlier ones did."""

    def __init__(self, rng):
        self.rng = rng
        self.size = rng.choice([1, 1, 2, 4, 4, 8])
        self.lines = []
        # Whether a call stops after a faulty entry, and which slots were last filled with one.
        self.stops, self.faulty = rng.random() < 0.4, set()
        # The words staged, the positions published and those of the open call, in order, and how many entries were accepted. A position is its word, and whether its entry is faulty.
        self.staged, self.published, self.call, self.accepted = [], [], None, 0
        # The requests below this one have ended.
        self.over = 0

    def options(self):
        rng = self.rng
        words = ["--sq", str(self.size)]
        if rng.random() < 0.7:
            words += ["--cq", str(self.size * rng.choice([1, 2, 4]))]
        if rng.random() < 0.5:
            words += ["--files", str(rng.choice([1, 2, 3, 64]))]
        if rng.random() < 0.5:
            words += [
                "--start",
                str(rng.choice([1, 2**31 - 2, 2**32 - 1, 2**32 - 3, rng.randrange(2**32)])),
            ]
        if self.stops:
            words.insert(2 * rng.randint(0, len(words) // 2), "--stop")
        return words

    def user_data(self):
        return str(self.rng.choice([0, 1, 2, 3, 4, 5, 6, 7, 2**64 - 1]))

    def flags(self):
        return self.rng.choice(FLAGS)

    def file(self):
        return str(self.rng.choice([0] * 8 + [1] * 4 + [2, -1, 63, 2**31 - 1, -(2**31)]))

    def offset(self):
        return str(
            self.rng.choice(
                [0] * 8
                + [1, 3, 8, 60, 64, 100] * 2
                + [65472, 65535, 65536, 65537, 2**63, 2**64 - 2, 2**64 - 1]
            )
        )

    def data(self):
        count = self.rng.choice([0, 1, 1, 2, 2, 4, 4, 8, 8, 63, 64, 65])
        digits = "".join(self.rng.choice(["00", "61", "ff", "0a", "7b"]) for _ in range(count))
        return digits or "-"

    def raw(self):
        rng = self.rng
        entry = bytearray(128)
        entry[0] = rng.choice([0, 3, 14, 22, 23, 1, 99, 255])
        entry[1] = rng.choice([0, 0, 0, 2, 4, 8, 12, 16, 64, 1, 32, 128, 255])
        entry[24] = rng.choice([0, 1, 4, 64, 65])
        entry[28] = rng.choice([0, 0, 0, 1, 2])
        entry[32] = rng.randrange(8)
        entry[64:72] = b"wulgach!"
        for _ in range(rng.choice([0, 0, 1, 2])):
            entry[rng.randrange(128)] = rng.choice([1, 255])
        return entry.hex()

    def entry(self):
        rng, user_data, flags = self.rng, self.user_data(), self.flags()
        kind = rng.choices(
            ["nop", "read", "write", "fsync", "cancel", "cancelall", "op", "raw"],
            [8, 3, 3, 1, 4, 3, 0.5, 0.5],
        )[0]
        if kind == "nop":
            return f"nop {user_data} {flags}"
        if kind == "read":
            return f"read {user_data} {flags} {self.file()} {self.offset()} {rng.choice([0, 1, 1, 2, 4, 4, 8, 64, 64, 65, 2**32 - 22])}"
        if kind == "write":
            return f"write {user_data} {flags} {self.file()} {self.offset()} {self.data()}"
        if kind == "fsync":
            return f"fsync {user_data} {flags} {self.file()}"
        if kind in ("cancel", "cancelall"):
            return f"{kind} {user_data} {flags} {self.user_data()}"
        if kind == "op":
            return f"op {rng.choice([0, 3, 14, 22, 23, 1, 99, 255])} {user_data} {flags}"
        return f"raw {self.raw()}"

    def fill(self):
        slot, entry = self.rng.randrange(self.size + (self.rng.random() < 0.1)), self.entry()
        self.lines.append(f"fill {slot} {entry}")
        if all(word != slot for word, _ in self.published):
            (self.faulty.add if is_faulty(entry) else self.faulty.discard)(slot)

    def index(self):
        word = (
            self.rng.randrange(self.size)
            if self.rng.random() < 0.9
            else self.rng.choice([self.size, 2**32 - 1])
        )
        self.lines.append(f"index {word}")
        if len(self.staged) + len(self.published) < self.size:
            self.staged.append(word)

    def tail(self):
        self.lines.append("tail")
        self.published += [(word, word in self.faulty) for word in self.staged]
        self.staged = []

    def begin(self):
        count = self.rng.choice([0, 1, 2, 3, self.size, 2**32 - 1])
        self.lines.append(f"begin {count}")
        if self.call is None:
            self.call = self.published[:count]

    def take(self):
        self.lines.append("take")

    def end(self):
        self.lines += ["take"] * self.rng.choice([0, 1, len(self.call or [])])
        self.lines.append("end")
        if self.call is not None:
            count = next(
                (at + 1 for at, (_, faulty) in enumerate(self.call) if faulty and self.stops),
                len(self.call),
            )
            self.accepted += sum(word < self.size for word, _ in self.call[:count])
            self.published = self.published[count:]
            self.call = None

    def submit(self):
        """A whole call: entries filled, staged, published, taken and accepted."""
        count = self.rng.randint(1, self.size)
        self.lines.append("head")
        for _ in range(count):
            self.fill()
            self.index()
        self.tail()
        if self.call is None:
            self.call = self.published
            self.lines.append(f"begin {self.size}")
        self.lines += ["take"] * len(self.call)
        self.end()

    def number(self):
        rng, most = self.rng, self.accepted
        return str(
            max(
                0,
                rng.choice(
                    [rng.randint(0, most), most - rng.randint(0, 6), most - rng.randint(0, 2)]
                ),
            )
        )

    def work(self):
        """Issues and finishes some of the last requests, mostly in order."""
        numbers = list(range(self.over, self.accepted + 1))[: 2 * self.size + 2]
        if self.rng.random() < 0.5:
            self.rng.shuffle(numbers)
        for number in numbers:
            self.lines += self.rng.choice(
                [
                    [f"issue {number}"],
                    [f"issue {number}", f"finish {number}"],
                    [f"finish {number}"],
                    ["next"],
                ]
            )

    def settle(self):
        """Ends all requests, or nearly all."""
        last = self.accepted - self.rng.choice([0, 0, 1])
        for number in range(self.over, last):
            self.lines += [f"issue {number}", f"finish {number}"]
        self.over = max(self.over, last)

    def reap(self):
        self.lines += self.rng.choice(
            [
                ["cqtail", *["reap"] * self.rng.randint(1, 2 * self.size), "cqhead"],
                ["reap"],
                ["cqtail"],
                ["cqhead", "flush"],
                ["flush", "cqtail"],
            ]
        )

    def odd(self):
        """A line that is mostly none."""
        rng = self.rng
        line = rng.choice(self.lines or ["tail"])
        at = rng.randint(0, len(line))
        words = line.split(" ")
        words[rng.randrange(len(words))] = rng.choice(ODD_NUMBERS + ODD_FLAGS)
        self.lines.append(
            rng.choice(
                [
                    "",
                    " ".join(words),
                    line[:at]
                    + rng.choice([" ", "\r", "0", "-", "A", "\xff", "\t", "é"])
                    + line[at:],
                    line[:at],
                    line + " " + line,
                    line.upper(),
                    line + " " * rng.choice([1, 300 - len(line) if len(line) < 300 else 1]),
                    "fill 0 nop 1 -" + "0" * rng.choice([286, 287, 400]),
                ]
            )
        )

    def make(self, count):
        moves = [
            self.fill,
            self.index,
            self.tail,
            self.begin,
            self.take,
            self.end,
            self.submit,
            self.work,
            self.settle,
            self.reap,
            self.odd,
        ]
        weights = [3, 3, 2, 2, 2, 2, 6, 8, 3, 6, 2]
        # How often the ring is still to be closed: near the end, and once more after that.
        closing = 2 if self.rng.random() < 0.2 else 0
        while len(self.lines) < count:
            self.rng.choices(moves, weights)[0]()
            if self.rng.random() < 0.2:
                self.lines.append(
                    self.rng.choice(
                        ["head", "next", f"issue {self.number()}", f"finish {self.number()}"]
                    )
                )
            if closing and len(self.lines) > (1 - 0.1 * closing) * count:
                self.lines.append("close")
                closing -= 1
        return self.lines
