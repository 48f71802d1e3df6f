"""Runs on many machines, by Dask's distributed scheduler: a worker that is lost has its runs made again by another, and each list of runs is taken once.

The workers run these modules, which they are sent, and the program, which lies at the same path everywhere.
"""

import os
import sys
import tempfile
import zipfile

DEBIAN = "/usr/bin/python3"
MODULES = os.path.dirname(os.path.realpath(__file__))


def distributed():
    """Dask's module. It comes with Debian's own python3: if this is another one, that takes over."""
    try:
        import dask.distributed

        return dask.distributed
    except ImportError:
        pass
    if (
        os.path.exists(DEBIAN)
        and os.path.realpath(sys.executable) != os.path.realpath(DEBIAN)
        and os.spawnl(
            os.P_WAIT,
            DEBIAN,
            DEBIAN,
            "-c",
            "import importlib.util, sys; sys.exit(importlib.util.find_spec('distributed') is None)",
        )
        == 0
    ):
        os.execv(DEBIAN, [DEBIAN, *sys.argv])
    print(
        "explore: --cluster wants Dask's distributed scheduler, which neither this python3 nor Debian's has: apt-get install python3-distributed",
        file=sys.stderr,
    )
    sys.exit(2)


class Cluster:
    """The workers of a scheduler, in the place of this process's threads (`side_by_side.Here`)."""

    def __init__(self, program, address):
        self.program, self.rules = program, {}
        self.distributed = distributed()
        try:
            self.client = self.distributed.Client(address, timeout=60)
        except OSError as error:
            print(f"explore: {address}: no scheduler answers ({error})", file=sys.stderr)
            sys.exit(2)
        self.jobs = sum(self.client.nthreads().values())
        if not self.jobs:
            print(f"explore: {address}: the scheduler has no workers", file=sys.stderr)
            sys.exit(2)
        self.send_modules()

    def send_modules(self):
        with tempfile.TemporaryDirectory() as room:
            path = f"{room}/exploring.zip"
            with zipfile.ZipFile(path, "w") as file:
                # (what stands in packages is loaded anew by workers that had it before)
                file.writestr("exploring/__init__.py", "")
                for name in sorted(os.listdir(MODULES)):
                    if name.endswith(".py"):
                        file.write(f"{MODULES}/{name}", f"exploring/{name}")
            self.client.upload_file(path)

    def submit(self, policies, **how):
        return self.client.submit(
            work_there, self.program.told(), policies, how, pure=False, retries=10
        )

    def any_of(self, futures):
        return self.distributed.wait(list(futures), return_when="FIRST_COMPLETED").done

    def taken(self, future):
        runs, rules, seconds = future.result()
        future.release()
        self.rules = {
            name: self.rules.get(name, 0) + rules.get(name, 0) for name in {**self.rules, **rules}
        }
        return runs, seconds

    def close(self):
        self.client.close()


programs = {}


def work_there(told, policies, how):
    """On a worker: a program is kept for the next runs of it."""
    from exploring.runs import Program

    key = repr(sorted(told.items()))
    if key not in programs:
        programs[key] = Program.of(told)
    return programs[key].work(policies, **how)
