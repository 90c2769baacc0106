"""Has a running cluster of `dask.distributed` do the work of a question, so that it may be done by more than one machine.

A worker has the same sources of labask, and runs `labsys` there. The work is sent once; items are sent in batches.
"""
import asyncio
import atexit
import contextlib
import functools
import hashlib
import importlib
import importlib.util
import logging
import pathlib
import pickle
import socket
import time
import warnings
from dataclasses import dataclass
from typing import Any, Callable, Dict, Iterable, Iterator, List, Optional, Sequence, Tuple, TypeVar

from labask.answers import WrongWords
from labask.playing import PlayingFault

ANSWER_SECONDS = 5.0  # within which a cluster answers, and has a worker
BATCH_SECONDS = 0.25  # that a batch of items takes, about
MOST_ITEMS = 256  # of a batch
AHEAD = 4  # batches that are not given yet, for each thread of the workers
RETRIES = 3  # of a batch that a worker can't begin
LOOK_SECONDS = 0.003  # between two looks at what is done
COUNT_SECONDS = 5.0  # between two counts of the workers
LOST = "the cluster of --dask was lost"
Item = TypeVar("Item")
Result = TypeVar("Result")


@dataclass(frozen=True)
class Done:
    """What came of an item: a value, or the fault that was raised."""
    value: Any = None
    fault: Optional[Exception] = None


@functools.lru_cache(maxsize=None)
def sources() -> str:
    """A digest of the sources of labask, the same where they are the same."""
    folder, digest = pathlib.Path(__file__).resolve().parent, hashlib.sha256()
    for path in sorted(folder.rglob("*.py")):
        digest.update(b"%s\0%s\0" % (str(path.relative_to(folder)).encode(), path.read_bytes()))
    return digest.hexdigest()


# ---- what a worker does

@functools.lru_cache(maxsize=4)
def loaded(work: bytes) -> Callable[[Any], Any]:
    """The function that was sent."""
    function: Callable[[Any], Any] = pickle.loads(work)
    return function


def done_of(function: Callable[[Any], Any], item: Any) -> Done:
    """What comes of an item."""
    try:
        return Done(function(item))
    except PlayingFault as fault:
        return Done(fault=PlayingFault(f"{fault}, on the worker of --dask at {socket.gethostname()}"))
    except Exception as fault:
        return Done(fault=fault)


def do_batch(due: str, work: bytes, batch: bytes) -> Tuple[bytes, float]:
    """What comes of each item of a batch, and how many seconds it took; raises `PlayingFault` where a worker has other sources."""
    if sources() != due:
        raise PlayingFault(f"the worker of --dask at {socket.gethostname()} has other sources of labask")
    started, function = time.monotonic(), loaded(work)
    done = [done_of(function, item) for item in pickle.loads(batch)]
    return pickle.dumps(done), time.monotonic() - started


def same(work: bytes) -> bytes:
    """The work, as a task of its own: workers give it to each other, and it is there again where one dies."""
    return work


# ---- what the program that asks does

def distributed(part: str = "") -> Any:
    """The package `distributed`, or a part of it. It need not be there, so that it is imported only here."""
    return importlib.import_module(f"distributed.{part}" if part else "distributed")


class Pass:
    """A function that a cluster does for many items. Batches grow until each takes some time, and come back in any order.

    Items are taken only as they are needed, and none where it stops.
    """

    def __init__(self, client: Any, function: Callable[[Any], Any], items: Iterable[Any], stops: Callable[[], bool], most: int):
        self.client, self.items, self.stops, self.most = client, iter(items), stops, most
        self.dumps: Callable[[Any], bytes] = distributed("protocol.pickle").dumps
        with reaching():
            self.work = client.submit(same, self.dumps(function), pure=False, retries=RETRIES)
        self.completed = distributed().as_completed(with_results=True, raise_errors=False, loop=client.loop)
        self.size, self.sent, self.all_sent = 1, 0, False
        self.threads, self.counted = 1, float("-inf")
        self.places: Dict[Any, int] = {}  # of the batches that are not done
        self.done: Dict[int, List[Done]] = {}  # by the places of their batches

    def has_room(self) -> bool:
        """Whether one more batch is sent by now."""
        if time.monotonic() > self.counted + COUNT_SECONDS:
            with reaching():
                self.threads, self.counted = max(1, sum(self.client.nthreads().values())), time.monotonic()
        return len(self.places) + len(self.done) < AHEAD * self.threads

    def take(self) -> List[Any]:
        """The next batch; none where there are no more items, or it stops."""
        batch: List[Any] = []
        for item in self.items:
            if self.stops():
                return []
            batch.append(item)
            if len(batch) >= self.size:
                break
        return batch

    def send(self) -> bool:
        """Sends the batches there is room for; says whether one is not given yet."""
        while not self.all_sent and self.has_room():
            batch = self.take()
            self.all_sent = not batch
            if batch:
                self.submit(batch)
        return bool(self.places or self.done)

    def submit(self, batch: Sequence[Any]) -> None:
        """Sends a batch."""
        with reaching():
            future = self.client.submit(do_batch, sources(), self.work, self.dumps(batch), pure=False, retries=RETRIES)
        self.places[future] = self.sent
        self.completed.add(future)
        self.sent += 1

    def receive(self) -> None:
        """Takes what is done by now; raises `PlayingFault` where the cluster could not do it."""
        for future, result in self.completed.next_batch(block=False):
            if future.status != "finished":
                raise PlayingFault(words_of(future, result))
            answer, seconds = result
            done: List[Done] = pickle.loads(answer)
            self.done[self.places.pop(future)] = done
            self.size = max(1, min(int(BATCH_SECONDS * len(done) / max(seconds, 1e-6)), 2 * self.size, self.most))

    def results(self) -> Iterator[Any]:
        """What comes of each item, in their order. Where it stops, what is done by then is given up to the first that is not."""
        given = 0
        while self.send():
            self.receive()
            if given in self.done:
                yield from map(value_of, self.done.pop(given))
                given += 1
            elif self.stops():
                return
            else:
                time.sleep(LOOK_SECONDS)

    def close(self) -> None:
        """Cancels what is not done."""
        with contextlib.suppress(Exception):
            self.client.cancel([*self.places, self.work])


@contextlib.contextmanager
def reaching() -> Iterator[None]:
    """Calls on a cluster. Its package has no one class for what goes wrong there, which is a fault of playing here."""
    try:
        yield
    except (Exception, asyncio.CancelledError) as fault:
        raise PlayingFault(LOST) from fault


def value_of(done: Done) -> Any:
    """The value of an item; raises its fault where there is one."""
    if done.fault is not None:
        raise done.fault
    return done.value


def words_of(future: Any, result: Any) -> str:
    """Why a cluster could not do a batch."""
    if future.status != "error":
        return LOST
    fault = result[1] if isinstance(result, tuple) else result
    if isinstance(fault, PlayingFault):
        return str(fault)
    if isinstance(fault, ModuleNotFoundError):
        return f"a worker of --dask has no module {fault.name}: its PYTHONPATH has to have the folder ask/src"
    return f"the cluster of --dask failed: {type(fault).__name__}: {' '.join(str(fault).split())}"


class Cluster:
    """A running cluster."""

    def __init__(self, client: Any):
        self.client = client

    def results(self, function: Callable[[Item], Result], items: Iterable[Item], stops: Callable[[], bool],
                most: int = MOST_ITEMS) -> Iterator[Result]:
        """What a function gives for each item, in their order, by batches of at most so many; fewer where it stops."""
        with contextlib.closing(Pass(self.client, function, items, stops, most)) as doing:
            yield from doing.results()


@functools.lru_cache(maxsize=None)
def cluster_at(address: str) -> Cluster:
    """The cluster whose scheduler has an address; raises `WrongWords` where there is none."""
    if importlib.util.find_spec("distributed") is None:
        raise WrongWords("--dask needs the module distributed, which Debian's package python3-distributed has")
    logging.disable(logging.CRITICAL)
    warnings.filterwarnings("ignore", "Large object")
    try:
        asyncio.run(is_reached(address))
        client = distributed().Client(address, timeout=ANSWER_SECONDS, set_as_default=False, name="labask")
        atexit.register(closed, client)
        client.wait_for_workers(1, timeout=ANSWER_SECONDS)
    except (OSError, ValueError, asyncio.TimeoutError) as fault:
        raise WrongWords(f"--dask {address}: {' '.join(str(fault).split())}") from fault
    return Cluster(client)


async def is_reached(address: str) -> None:
    """Raises `OSError` or `ValueError` where nothing of dask answers at an address."""
    connection = await distributed("comm").connect(address, timeout=ANSWER_SECONDS)
    await connection.close()


def closed(client: Any) -> None:
    """Leaves a cluster."""
    with contextlib.suppress(Exception):
        client.close(timeout=ANSWER_SECONDS)
