"""Many runs at once, here or on a cluster: how far they are, and which rules of the core they met."""

import collections
import concurrent.futures
import itertools
import sys
import time

MOST_AT_ONCE, ENOUGH_SECONDS = 64, 0.05


class Here:
    """Runs in this process's threads. `rules` are those that the runs met whose results were taken."""

    def __init__(self, program, jobs):
        self.program, self.jobs, self.rules = program, jobs, {}
        self.executor = concurrent.futures.ThreadPoolExecutor(jobs)

    def submit(self, policies, **how):
        """Begins runs by these policies, one after the other; `taken` gives them."""
        return self.executor.submit(self.program.work, policies, **how)

    def any_of(self, futures):
        """Those that are there, once any is."""
        return concurrent.futures.wait(futures, return_when=concurrent.futures.FIRST_COMPLETED).done

    def taken(self, future):
        """The runs, and the seconds that they took."""
        runs, rules, seconds = future.result()
        self.rules = added([self.rules, rules])
        return runs, seconds

    def close(self):
        self.executor.shutdown()


def pool_of(options, program):
    if options.cluster:
        from exploring.cluster import Cluster

        return Cluster(program, options.cluster)
    return Here(program, options.jobs)


def in_turn(pool, policy_of, items):
    """Runs by the policy of each item, and gives item and run in the items' order. So many go to one hand at once as take a moment. When the caller stops, nothing else is begun."""
    items, size = iter(items), 1
    begun = collections.deque()

    def begin():
        some = list(itertools.islice(items, size))
        if some:
            begun.append((some, pool.submit([policy_of(item) for item in some])))

    try:
        for _ in range(2 * pool.jobs):
            begin()
        while begun:
            some, future = begun.popleft()
            runs, seconds = pool.taken(future)
            if seconds < ENOUGH_SECONDS and len(some) == size < MOST_AT_ONCE:
                size *= 2
            yield from zip(some, runs)
            begin()
    finally:
        for _, future in begun:
            future.cancel()


class Progress:
    """What was seen so far: runs, failures, different orders. Says each second on standard error how far it is, on a terminal, or if it is asked for."""

    def __init__(self, options, count=None):
        self.is_wanted = options.progress or sys.stderr.isatty()
        self.count, self.most = count, options.time
        self.begun = self.said = time.monotonic()
        self.runs = self.failed = 0
        self.orders = set()

    def add(self, run, left=None):
        self.runs += 1
        self.failed += run.fails()
        self.orders.add(run.order)
        now = time.monotonic()
        if self.is_wanted and now - self.said >= 1:
            self.said = now
            self.say(now - self.begun, left)

    def say(self, seconds, left):
        rate = self.runs / seconds
        words = f"explore: {self.runs} runs, {rate:.0f} a second, {self.failed} failed, {len(self.orders)} orders"
        rest = [] if self.count is None else [(self.count - self.runs) / rate]
        rest += [] if self.most is None else [max(0, self.most - seconds)]
        if rest:
            words += f", {min(rest):.0f} seconds left"
        if left is not None:
            words += f", {left} lists left"
        end = "\r" if sys.stderr.isatty() else "\n"
        print(words, end="\033[K" + end if end == "\r" else end, file=sys.stderr, flush=True)

    def is_over(self):
        """Whether the time that was given is up."""
        return self.most is not None and self.seconds() >= self.most

    def seconds(self):
        return time.monotonic() - self.begun

    def rate(self):
        return self.runs / max(self.seconds(), 1e-9)

    def end(self):
        if self.is_wanted and sys.stderr.isatty():
            print("\033[K", end="", file=sys.stderr, flush=True)

    def summary(self):
        """For the JSON that tells of the whole."""
        return {
            "runs": self.runs,
            "seconds": round(self.seconds(), 3),
            "rate": round(self.rate(), 1),
            "orders": len(self.orders),
        }


def added(tables):
    """The sums of several tables."""
    sums = {}
    for table in tables:
        for name, count in table.items():
            sums[name] = sums.get(name, 0) + count
    return sums


def print_rules(rules):
    """Each rule with how often it was met. A request that waits is counted when it is accepted and whenever it is chosen."""
    never = [name for name, count in rules.items() if not count]
    print("\n| Rule | Met |\n|---|---:|")
    for name, count in rules.items():
        print(f"| {name} | {f'{count:,}' if count else 'never'} |")
    print(f"\n{len(rules) - len(never)} of {len(rules)} rules were met")
