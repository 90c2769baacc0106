"""Work of the processor that is done by several processes side by side."""
import multiprocessing
import signal
from typing import Any, Callable, Iterator, Optional, Sequence, Tuple, TypeVar

from labask.effort import Effort

Item = TypeVar("Item")
Result = TypeVar("Result")
_work: Optional[Callable[[Any], Any]] = None  # what a process that was forked does


def _begin() -> None:
    """Leaves Ctrl-C to the process that asked."""
    signal.signal(signal.SIGINT, signal.SIG_IGN)


def _do(item: Any) -> Any:
    """Does the work for an item."""
    assert _work is not None
    return _work(item)


def results(effort: Effort, function: Callable[[Item], Result], items: Sequence[Item]) -> Iterator[Tuple[Item, Result]]:
    """What a function gives for each item, in their order; none are given from when the effort is over."""
    global _work
    if effort.cluster is not None and len(items) > 1:
        yield from zip(items, effort.cluster.results(function, items, effort.stops, 1))
        return
    if effort.jobs <= 1 or len(items) <= 1:
        for item in items:
            if effort.stops():
                return
            yield item, function(item)
        return
    _work = function
    with multiprocessing.get_context("fork").Pool(min(effort.jobs, len(items)), _begin) as pool:
        for item, result in zip(items, pool.imap(_do, items)):
            yield item, result
            if effort.stops():
                return
