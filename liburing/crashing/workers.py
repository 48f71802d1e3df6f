"""Processes that work on tasks side by side. Each has a pipe of its own, and they share no lock: so one can be ended at any moment without another's waiting for it, and one that dies is seen."""

import collections
import multiprocessing
from multiprocessing.connection import wait
from typing import NamedTuple

from exploring.runs import Stopped, stop, told_error

DIED = "a process that crashes and checks has died"
FORK = multiprocessing.get_context("fork")


class Refused(NamedTuple):
    """Why a process can't go on, and whether it has told so."""

    why: str
    is_told: bool


class Worker:
    """A process that begins, and then works on what comes by its pipe."""

    def __init__(self, begin, work, others):
        self.pipe, far = FORK.Pipe()
        self.process = FORK.Process(
            target=serve, args=(far, begin, work, [self.pipe, *others]), daemon=True
        )
        self.process.start()
        far.close()

    def end(self):
        self.process.kill()
        self.process.join()
        self.pipe.close()


def serve(pipe, begin, work, others):
    # Else it would keep open what tells itself and the others that nobody asks any more.
    for it in others:
        it.close()
    try:
        begin()
        while True:
            pipe.send(work(pipe.recv()))
    except (EOFError, BrokenPipeError, KeyboardInterrupt):
        pass
    except Stopped as why:
        pipe.send(Refused(why.message, True))
    except OSError as error:
        pipe.send(Refused(told_error(error), False))


def answers(tasks, count, begin, work):
    """What `work` gives for each task, in the tasks' order, by so many processes. Closing it ends them."""
    left, found, told = collections.deque(enumerate(tasks)), {}, 0
    workers, busy = [], {}
    try:
        while left and len(workers) < count:
            workers.append(Worker(begin, work, [it.pipe for it in workers]))
            give(workers[-1].pipe, left, busy)
        while busy:
            for pipe in wait(list(busy)):
                found[busy.pop(pipe)] = take(pipe)
                give(pipe, left, busy)
            while told in found:
                yield found.pop(told)
                told += 1
    finally:
        for it in workers:
            it.end()


def give(pipe, left, busy):
    """The next task, if there is one."""
    if left:
        number, task = left.popleft()
        busy[pipe] = number
        try:
            pipe.send(task)
        except OSError:
            stop(DIED)


def take(pipe):
    try:
        found = pipe.recv()
    except EOFError:
        stop(DIED)
    if not isinstance(found, Refused):
        return found
    if found.is_told:
        raise Stopped(found.why)
    stop(found.why)
