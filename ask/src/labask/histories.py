"""What the records of a run say of its processes: whose children they are, what they executed, and their capability sets."""
from bisect import bisect_left
from dataclasses import dataclass
from typing import Any, Dict, Iterable, Iterator, List, Optional, Tuple

EVENTS = ("boot", "fork", "exec", "cap_set_proc")


@dataclass(frozen=True)
class Execution:
    """A call `exec` that was done: the process, the sets and the number of the file, and the sets of the process after it."""
    call: int
    process: str
    number: str
    file_caps: str
    caps: str


class History:
    """The processes of a run. The sets of a process are those that the records give it, as docs/PROFILE.md says."""

    def __init__(self, records: Iterable[Dict[str, Any]]):
        self.parents: Dict[str, str] = {}
        self.executions: Dict[int, Execution] = {}
        self._origins: Dict[str, str] = {}
        self._changes: Dict[str, Tuple[List[int], List[str]]] = {}
        for record in records:
            if record["event"] in EVENTS:
                self._note(record)

    def _note(self, record: Dict[str, Any]) -> None:
        """Keeps what a record says."""
        process, call = record["pid"], record["call"]
        self._origins.setdefault(process, process)
        if record["event"] == "fork":
            self._origins[record["child"]] = self._origins[process]
            self.parents[record["child"]] = process
            self._change(record["child"], call, self._changes[process][1][-1])
            return
        if record["event"] == "exec":
            self.executions[call] = Execution(call, process, record["object"], record["file"], record["caps"])
        self._change(process, call, record["caps"])

    def _change(self, process: str, call: int, caps: str) -> None:
        """Keeps the sets that a process has from a call on."""
        calls, sets = self._changes.setdefault(process, ([], []))
        calls.append(call)
        sets.append(caps)

    def caps_before(self, process: str, call: int) -> Optional[str]:
        """The capability sets of a process right before a call; None where it did not exist."""
        calls, sets = self._changes.get(process, ([], []))
        index = bisect_left(calls, call)
        return sets[index - 1] if index else None

    def ancestors(self, process: str) -> Iterator[str]:
        """The process and those that it comes from, up to one of the world."""
        yield process
        while process in self.parents:
            process = self.parents[process]
            yield process

    def relatives(self, *processes: str) -> Iterator[str]:
        """The processes that come from the same processes of the world as these, and these themselves."""
        origins = {self._origins[each] for each in processes}
        return (each for each, origin in self._origins.items() if origin in origins)
