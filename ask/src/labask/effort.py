"""How much work a question may be: how many plays run side by side, how long it may take, and how far it is.

Ctrl-C ends the work as the end of its time does, so that what is known by then is still answered; a second one ends it at once.
"""
import argparse
import importlib
import os
import signal
import sys
import threading
import time
from collections import deque
from concurrent.futures import Future, ThreadPoolExecutor
from dataclasses import dataclass, field
from typing import TYPE_CHECKING, Any, Callable, Deque, Iterable, Iterator, Optional, Tuple, TypeVar

from labask.command_words import named, number
from labask.terminal import ProgressLine, progress_line

if TYPE_CHECKING:
    from labask.cluster import Cluster

MOST_JOBS = 1_024
SHOWN_SECONDS = 0.1  # between two lines of progress
Item = TypeVar("Item")
Result = TypeVar("Result")


@dataclass
class Effort:
    """The effort of a question; `until` is when its time is over, by the monotonic clock, or None where it has no end.
    `stopped` says whether some work was left out since the effort was over.
    """
    jobs: int = 1
    until: Optional[float] = None
    quiet: bool = True
    interrupted: bool = False
    stopped: bool = False
    shown_at: Optional[float] = field(default=None, repr=False)
    line: Optional[ProgressLine] = field(default=None, repr=False)
    cluster: "Optional[Cluster]" = field(default=None, repr=False)

    def __reduce__(self) -> "Tuple[Any, ...]":
        """What is sent to a worker of a cluster: the seconds that are left, since its clock is another one."""
        return sent_effort, (None if self.until is None else self.until - time.monotonic(),)

    def over(self) -> bool:
        """Whether the work is to stop: its time is over, or Ctrl-C came."""
        return self.interrupted or (self.until is not None and time.monotonic() >= self.until)

    def stops(self) -> bool:
        """As `over`, where work is left that is not done then."""
        self.stopped = self.stopped or self.over()
        return self.stopped

    def results(self, function: Callable[[Item], Result], items: Iterable[Item]) -> Iterator[Result]:
        """What a function gives for each item, in their order; as many are at work side by side as there are jobs.

        The function waits for plays, so threads suffice. Items are taken only as they are needed, and none where the effort is over.
        Where there is a cluster, that does the work, and the function and the items are sent to it.
        """
        if self.cluster is not None:
            yield from self.cluster.results(function, items, self.stops)
            return
        pool = ThreadPoolExecutor(self.jobs) if self.jobs > 1 else None
        waiting: "Deque[Future[Result]]" = deque()
        try:
            for item in items:
                if self.stops():
                    break
                if pool is None:
                    yield function(item)
                    continue
                waiting.append(pool.submit(function, item))
                if len(waiting) > self.jobs:
                    yield waiting.popleft().result()
            while waiting:
                yield waiting.popleft().result()
        finally:
            for future in waiting:
                future.cancel()
            if pool is not None:
                pool.shutdown(wait=False)

    def progress(self, text: str) -> None:
        """Shows how far the work is, in a line of standard error that the next one takes the place of, where that is a terminal."""
        now = time.monotonic()
        if self.quiet or (self.shown_at is not None and now < self.shown_at + SHOWN_SECONDS):
            return
        self.line = self.line or progress_line()
        self.shown_at = now
        self.line.show(text)

    def clear(self) -> None:
        """Takes the line of progress away, before the answer is written."""
        self.shown_at = None
        if self.line is not None:
            self.line.clear()

    def interrupt(self, *_: Any) -> None:
        """Has the work stop, as a handler of SIGINT; the next one ends the program."""
        self.interrupted = True
        signal.signal(signal.SIGINT, signal.default_int_handler)


def sent_effort(seconds: Optional[float]) -> Effort:
    """The effort of a worker of a cluster, which does one thing at a time for so many seconds."""
    return Effort(1, None if seconds is None else time.monotonic() + seconds)


def processors() -> int:
    """How many processors the program may use."""
    return len(os.sched_getaffinity(0)) if hasattr(os, "sched_getaffinity") else os.cpu_count() or 1


def default_effort(jobs: Optional[int] = None) -> Effort:
    """The effort of a question that is answered whole: no end, and as many plays side by side as there are processors, or as said."""
    return Effort(jobs or processors(), quiet=not sys.stderr.isatty())


def number_of_jobs(text: str) -> int:
    """How many plays run side by side, for `add_argument`."""
    count = number(text, MOST_JOBS)
    if count == 0:
        raise argparse.ArgumentTypeError("the number is 0, and it has to be at least 1")
    return count


def add_jobs_argument(parser: argparse.ArgumentParser) -> None:
    """Adds the option that says how many plays run side by side."""
    parser.add_argument("--jobs", metavar="N", type=number_of_jobs, help="how many plays run side by side; by default as many as there "
                        "are processors")


def add_playing_arguments(parser: argparse.ArgumentParser) -> None:
    """Adds the options of a question that says by itself how long it takes."""
    add_jobs_argument(parser)
    parser.add_argument("--quiet", action="store_true", help="show no progress on a terminal")


def add_dask_argument(parser: argparse.ArgumentParser) -> None:
    """Adds the option that names a cluster, to a question whose work may be sent to one."""
    parser.add_argument("--dask", metavar="ADDRESS", type=named, help="play on the cluster of dask.distributed whose scheduler is there, "
                        "in place of this machine")


def add_effort_arguments(parser: argparse.ArgumentParser) -> None:
    """Adds the options that say how much work a question may be."""
    add_playing_arguments(parser)
    parser.add_argument("--time", metavar="SECONDS", type=number, help="stop after so many seconds, and answer what is known by then")


def effort_of(arguments: argparse.Namespace) -> Effort:
    """The effort that a command line allows. From here on Ctrl-C ends the work, and not the program."""
    return jobs_effort(arguments, None if arguments.time is None else time.monotonic() + arguments.time)


def jobs_effort(arguments: argparse.Namespace, until: Optional[float]) -> Effort:
    """The same, until a moment that the question itself gives."""
    effort = Effort(arguments.jobs or processors(), until, arguments.quiet or not sys.stderr.isatty())
    if getattr(arguments, "dask", None) is not None:
        effort.cluster = importlib.import_module("labask.cluster").cluster_at(arguments.dask)
    if threading.current_thread() is threading.main_thread() and signal.getsignal(signal.SIGINT) is signal.default_int_handler:
        signal.signal(signal.SIGINT, effort.interrupt)
    return effort
