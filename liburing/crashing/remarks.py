"""What is told of runs besides what their crashes leave: why they haven't passed, though no check failed."""

import sys

MOST = 20  # lines of one run


class Remarks:
    """Each thing is told once. A run that ends with another status than is wanted has failed, whatever its crashes leave: it refused something, has died, or hung. What was done in a way that wasn't seen hasn't been tested."""

    def __init__(self, wanted, run):
        self.wanted, self.others, self.told, self.lines = wanted, 0, [], {}
        if run.status != wanted:
            self.tell(f"the run in order ends with status {run.status}", run.last_lines())
        for remark in run.remarks:
            self.tell(remark)
        self.is_failed = run.status != wanted

    def tell(self, remark, lines=b"", after=""):
        if remark in self.told:
            return
        self.told.append(remark)
        self.lines[remark] = lines.decode(errors="replace").splitlines()[-MOST:]
        print(f"explore: {remark}{after}{'; its last lines:' if lines else ''}", file=sys.stderr)
        for line in self.lines[remark]:
            print(f"    {line}", file=sys.stderr)

    def add(self, policy, status, lines, remarks, recovery):
        """A run by a policy of its own, or none; and what is told of those that recover."""
        if policy and status != self.wanted:
            self.others += 1
            self.tell(f"a run ends with status {status}", lines, f": {policy}")
        for remark in remarks if policy else []:
            self.tell(remark, after=f" (in the run {policy})")
        for remark in recovery:
            self.tell(remark, after=" (in a recovery)")

    def for_report(self):
        return [{"told": it, "lines": self.lines[it]} for it in self.told]

    def in_short(self):
        """Why the status isn't 0, as the line that counts says it."""
        found = []
        if self.is_failed:
            found.append("the run in order fails")
        if self.others:
            found.append(f"{self.others} {'run fails' if self.others == 1 else 'runs fail'}")
        unseen = [it for it in self.told if "with status" not in it]
        if unseen:
            found.append("not all was seen")
        return "".join(f"; {it}" for it in found)
