"""Plays many scripts in one run of `labsys`: each in a copy of the world below a directory of its own.

The real root is a directory of the lowest label that everyone may search, and so are the directories `/gN` which hold the copies.
A copy has the objects of the world, its root among them, and its processes. Numbers n@label are counted over the whole run.
"""
import subprocess
from dataclasses import dataclass, field
from typing import Dict, Iterator, List, Sequence, Tuple

from exhaustive.calls import OBSERVER, Call, after
from exhaustive.names import first_state
from exhaustive.random_worlds import RandomWorld, object_line, process_line

OBSERVER_CAPS = "cap_dac_read_search,cap_mac_read=ep"
ROOTS = 2  # names that lead to the root of a copy
IN_A_GROUP = 32  # copies below one directory
MOST_COPIES = 900  # so that no label has more than 4,095 processes, with the children that are made
MOST_CHANGING = 24  # calls that are asked in one copy and may change it
HARMLESS = ("stat", "readdir", "cap_get_file", "mac_get_file", "fstat", "cap_get_fd", "mac_get_fd", "cap_get_proc", "mac_get_proc",
            "getids", "getpid", "getppid")


@dataclass
class Job:
    """Calls that are asked after a script, each in the state after it. `replies` has the answer to each."""
    script: Tuple[Call, ...]
    asked: Sequence[Call]
    replies: Dict[Call, bytes] = field(default_factory=dict)


Part = Tuple[Job, List[Call]]


def is_harmless(call: Call) -> bool:
    """Whether a call changes nothing that another asked call reads; what is opened is closed again."""
    return call.name in HARMLESS or call.name == "open" and call.rest in ("r", "w")


def parts(job: Job) -> Iterator[Part]:
    """The calls of a job in parts of which each has few calls that may change a copy; the harmless ones come first."""
    harmless = [call for call in job.asked if is_harmless(call)]
    changing = [call for call in job.asked if not is_harmless(call)]
    if harmless or changing:
        yield job, harmless + changing[:MOST_CHANGING]
    yield from ((job, changing[start:start + MOST_CHANGING]) for start in range(MOST_CHANGING, len(changing), MOST_CHANGING))


class Copies:
    """Plays scripts in copies of a world. `runs`, `copies` and `calls` count what was played."""

    def __init__(self, world: RandomWorld, program: str):
        self.world, self.program = world, program
        self.objects = "".join(object_line(each, "\0") + "\n" for each in world.objects)
        self.processes = "".join(process_line(each) + "\n" for each in world.processes)
        self.labels = [each.label for each in world.processes]
        self.lowest = world.labels[0]
        self.first = first_state(world)
        self.runs = self.copies = self.calls = 0

    def play(self, jobs: Sequence[Job]) -> None:
        """Gives each job its replies."""
        waiting = [part for job in jobs for part in parts(job)]
        while waiting:
            batch, waiting = waiting[:MOST_COPIES], waiting[MOST_COPIES:]
            waiting = [*self.run(batch), *waiting]

    def run(self, batch: Sequence[Part]) -> Iterator[Part]:
        """Plays one run; gives what is still to be asked, since a call before it has changed the copy."""
        text, plans = self.text(batch)
        done = subprocess.run([self.program, "play", "/dev/null"], input=text, stdout=subprocess.PIPE, check=False)
        lines = done.stdout.split(b"\n")
        if done.returncode != 0:
            raise AssertionError(f"labsys refuses copies: {lines[-2]!r}\n{text.decode()[:4000]}")
        self.runs, self.copies, self.calls = self.runs + 1, self.copies + len(batch), self.calls + sum(map(len, plans))
        at = 0
        for (job, asked), plan in zip(batch, plans):
            replies = [line.split(b" ", 2)[2] for line in lines[at:at + len(plan)]]
            at += len(plan)
            left = read_replies(job, asked, plan, replies)
            if left:
                yield job, left

    def text(self, batch: Sequence[Part]) -> Tuple[bytes, List[List[bool]]]:
        """The text of a run, and of each copy which of its lines are asked for."""
        roots = [f"/g{number // IN_A_GROUP}/{number % IN_A_GROUP}" for number in range(len(batch))]
        groups = [f"dir /g{number} 0755 0 0 {self.lowest}\n" for number in range(-(-len(batch) // IN_A_GROUP))]
        pieces = ["\n".join((*self.world.policy, f"dir / 0755 0 0 {self.lowest}", "")), *groups,
                  *(self.objects.replace("\0", root) for root in roots),
                  f'proc {self.lowest} 0 0 - "{OBSERVER_CAPS}"\n', self.processes * len(batch), "script\n"]
        drawn = {label: self.labels.count(label) * len(batch) + (label == self.lowest) for label in self.world.labels}
        plans = [self.add_script(part, root, self.tags(number), drawn, pieces)
                 for number, (part, root) in enumerate(zip(batch, roots))]
        return "".join(pieces).encode(), plans

    def tags(self, number: int) -> Dict[int, str]:
        """The tags of the processes of a copy, and of the observer."""
        tags = {OBSERVER: f"1@{self.lowest}"}
        for index, label in enumerate(self.labels):
            before = self.labels.count(label) * number + self.labels[:index].count(label) + (label == self.lowest)
            tags[index] = f"{before + 1}@{label}"
        return tags

    def add_script(self, part: Part, root: str, tags: Dict[int, str], drawn: Dict[str, int], pieces: List[str]) -> List[bool]:
        """Adds the lines of a copy; gives of each line whether it is asked for. `drawn` has the last number of each label."""
        job, asked = part
        state = self.first
        for call in job.script:
            pieces.append(f"{tags[call.actor]} {call.text(root)}\n")
            if call.name == "fork":
                label = state.labels[call.actor]
                drawn[label] += 1
                tags[len(tags) - 1] = f"{drawn[label]}@{label}"
            state = after(call, state)
        plan = [False] * len(job.script)
        for call in asked:
            pieces.append(f"{tags[call.actor]} {call.text(root)}\n")
            plan.append(True)
            if call.name == "open" and is_harmless(call):
                pieces.append(f"{tags[call.actor]} close {len(state.descriptors[call.actor])}\n")
                plan.append(False)
        return plan


def read_replies(job: Job, asked: List[Call], plan: Sequence[bool], replies: Sequence[bytes]) -> List[Call]:
    """Notes the replies of a copy; gives the calls that follow one which has changed the copy."""
    if not all(reply.startswith(b"ok") for reply in replies[:len(job.script)]):
        raise AssertionError(f"a call of a script was not done: {job.script} {replies}")
    wanted = [reply for reply, is_asked in zip(replies, plan) if is_asked]
    for index, (call, reply) in enumerate(zip(asked, wanted), 1):
        job.replies[call] = reply
        if reply.startswith(b"ok") and not is_harmless(call):
            return asked[index:]
    return []
