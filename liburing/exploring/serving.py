"""A program that is started once, and forks each of its runs: `liburing/layer/forks/server.h` is the other side."""

import fcntl
import os
import shutil
import socket
import struct
import subprocess
import tempfile

# Where the folders of runs lie: where TMPDIR says, else in memory, if there is such a place.
ROOM = (
    os.path.abspath(os.environ["TMPDIR"])
    if os.environ.get("TMPDIR")
    else ("/dev/shm" if os.access("/dev/shm", os.W_OK) else None)
)
# status, too late, rings, processes that chose, choices, order, bytes printed
TOLD = struct.Struct("<iI5Q")
ACCOUNT_SIZE = 4096


class Lost(Exception):
    """The server has ended."""


class Server:
    """The server of one thread. `reason` says why there is none, or is None."""

    def __init__(self, program, when, surroundings):
        self.when, self.seconds, self.reason = when, program.seconds, None
        self.place = tempfile.mkdtemp(dir=ROOM) if program.is_fresh else None
        self.output = os.memfd_create("output")
        fcntl.fcntl(self.output, fcntl.F_SETFL, os.O_APPEND)
        self.socket, there = socket.socketpair()
        words = f"{there.fileno()}:{self.output}:{when}{':fresh' if program.is_fresh else ''}"
        with there:
            variables = {**os.environ, **surroundings, "WULGACH_SERVER": words}
            try:
                self.process = subprocess.Popen(
                    program.words,
                    cwd=self.place or program.folder,
                    env=variables,
                    stdin=subprocess.DEVNULL,
                    stdout=self.output,
                    stderr=self.output,
                    pass_fds=[there.fileno(), self.output],
                )
            except OSError:
                self.remove_places()
                raise
        self.stream = self.socket.makefile("rb")
        self.greet(program)

    def greet(self, program):
        self.socket.settimeout(self.seconds)
        try:
            hello = self.stream.readline().decode().split(" ", 1)
        except TimeoutError:
            hello = []
        if hello[:1] == ["ok"]:
            self.socket.settimeout(None)
            if int(hello[1]) != self.process.pid or not self.is_own_program(program):
                self.reason = "it is started by another program"
        else:
            self.reason = (
                hello[1].rstrip("\n")
                if len(hello) == 2
                else "it sets no ring up, or its layer serves no runs"
            )
        if self.reason:
            self.close()

    def is_own_program(self, program):
        """Whether what serves is what was started, and not what a script or a shell has come to."""
        there = os.readlink(f"/proc/{self.process.pid}/exe")
        here = os.path.realpath(shutil.which(program.words[0]) or program.words[0])
        return os.path.samefile(there, here) or os.path.basename(here) in ("uring-run", "refuse")

    def run_all(self, requests):
        """Asks for a run with each of these variables, and gives what is told of it, and what it printed."""
        for variables in requests:
            request = f"{self.seconds}\0" + "".join(
                f"{name}={value}\0" for name, value in variables.items()
            )
            request = os.fsencode(request)
            try:
                self.socket.sendall(struct.pack("<I", len(request)) + request)
            except OSError:
                raise Lost
        for _ in requests:
            head = self.stream.read(TOLD.size)
            if len(head) < TOLD.size:
                raise Lost
            *told, size = TOLD.unpack(head)
            yield told, self.stream.read(size)

    def close(self):
        """Ends it. A run that it waits for ends with it."""
        self.socket.close()
        self.process.kill()
        self.process.wait()
        os.close(self.output)
        self.remove_places()

    def remove_places(self):
        if self.place:
            shutil.rmtree(self.place, ignore_errors=True)
            shutil.rmtree(f"{self.place}.begun", ignore_errors=True)
