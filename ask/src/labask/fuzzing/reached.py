"""Which rows of the call table, and which of their checks and refusals, were compared, and which were never reached."""
import re
from collections import Counter
from dataclasses import dataclass, field
from typing import Any, Counter as CounterOf, Dict, Iterable, Iterator, List, Sequence, Tuple

from labask.answers import table
from labask.kernel_profile import CHECKS, DENIALS, REFUSALS
from labask.playing import Outcome, Played

EXERCISE = re.compile(rb"^([0-9]+) exercise \S+ \S+ [a-z_]+ ([a-z_]+) ", re.M)
SOFT = {"write": ("fsetid",), "open": ("fsetid",), "chmod": ("fsetid",), "chown": ("fsetid",), "setuid": ("setuid_all",),
        "setgid": ("setgid_all",)}
Way = Tuple[str, str]


def ways_of(call: str) -> List[Way]:
    """The ways in which a call of a living process can go: done, denied by a check, exercised at a check, refused with an error."""
    exercised = [check for check in (*DENIALS[call], *SOFT.get(call, ())) if CHECKS[check].capability]
    return [("done", ""), *(("denied", check) for check in DENIALS[call]), *(("exercised", check) for check in exercised),
            *(("refused", error) for error in REFUSALS[call])]


@dataclass
class Reached:
    """How often each way of each call was compared."""
    counts: Dict[str, CounterOf[Way]] = field(default_factory=dict)

    def add(self, played: Played, compared: int) -> None:
        """Adds the first calls of a run."""
        names = {}
        for reply in played.replies[:compared]:
            names[reply.number] = reply.call
            way = {Outcome.DONE: ("done", ""), Outcome.DENIED: ("denied", reply.check or ""),
                   Outcome.REFUSED: ("refused", reply.error or "")}[reply.outcome]
            self.counts.setdefault(reply.call, Counter())[way] += 1
        for number, check in EXERCISE.findall(played.trail):
            if int(number) in names:
                self.counts[names[int(number)]]["exercised", check.decode("ascii")] += 1

    def update(self, other: "Reached") -> None:
        """Adds what was reached elsewhere."""
        for call, counts in other.counts.items():
            self.counts.setdefault(call, Counter()).update(counts)

    def of(self, call: str, kind: str) -> Dict[str, int]:
        """How often the ways of a kind were compared of a call."""
        counts = self.counts.get(call, Counter())
        return {word: counts[kind, word] for one, word in ways_of(call) if one == kind and counts[kind, word]}

    def never(self, call: str) -> List[str]:
        """The ways of a call that were never reached, in words."""
        counts = self.counts.get(call, Counter())
        return [f"{kind} {word}".strip() for kind, word in ways_of(call) if not counts[kind, word]]

    def total(self, call: str) -> int:
        """How many replies of a call were compared."""
        return sum(count for (kind, _), count in self.counts.get(call, Counter()).items() if kind != "exercised")

    def lines(self, calls: Iterable[str]) -> Iterator[str]:
        """The table, and what was never reached."""
        calls = list(calls)
        rows: List[Sequence[str]] = [("CALL", "COMPARED", "DONE", "DENIED", "EXERCISED", "REFUSED")]
        for call in calls:
            cells = [" ".join(f"{word} {count}" for word, count in self.of(call, kind).items()) or "-"
                     for kind in ("denied", "exercised", "refused")]
            rows.append((call, str(self.total(call)), str(self.of(call, "done").get("", 0)), *cells))
        yield from table(rows)
        missing = [(call, ", ".join(self.never(call))) for call in calls if self.never(call)]
        yield "Never reached:" if missing else "Each way was reached."
        yield from table(missing, "  ")

    def as_json(self, calls: Iterable[str]) -> Dict[str, Any]:
        """The same as JSON has it."""
        return {call: {"compared": self.total(call), "done": self.of(call, "done").get("", 0), "denied": self.of(call, "denied"),
                       "exercised": self.of(call, "exercised"), "refused": self.of(call, "refused"), "never": self.never(call)}
                for call in calls}
