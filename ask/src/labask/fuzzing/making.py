"""Random worlds with scripts, each from its seed: of all calls, kinds, modes, labels, grades, ids and capability sets.

A script is made while the model of the kernel plays it, so that its calls name what is there: paths, descriptors, processes. Many
calls follow on the one before: they show what it changed, or use what it gave.
"""
import random
from dataclasses import dataclass, field
from typing import Any, Callable, Dict, Iterator, List, Optional, Sequence, Tuple

from labask.fuzzing.following import Following
from labask.kernel.calls import Call, Path, play
from labask.kernel.state import Caps, Kind, Label, Labels, Number, State, bits_of, caps_text, first_state
from labask.kernel.texts import call_text, read_path
from labask.signatures import CALLS, CAPABILITIES
from labask.worlds import Policy, read_world

LENGTHS = (40, 80, 120, 120)  # calls of a script
FOCUSED = 0.4  # how many scripts name one object over and over
FOLLOWED = 0.65  # how many calls are followed by one that has to do with them
LEVELS, CATEGORIES, GRADES = ("low", "mid", "high"), ("a", "b"), ("poor", "fine")
NAMES = ("a", "b", "c", "d")
IDS = (0, 10, 20)
OPEN_MODES, MODES = (0o777, 0o777, 0o666, 0o4777, 0o2777, 0o6777), (0o755, 0o700, 0o644, 0o4755, 0o2755, 0o6777, 0o070, 0o007, 0)
SET_ID_MODES = (0o4777, 0o2777, 0o6777, 0o4755, 0o2755)
ENDS_MADE = 8  # one in so many calls of `exit` is made, so that scripts go on
SIGNALS = (*("0",) * 8, "TERM", "KILL")
KINDS = (*(("dir", "dir", "file", "file", "file", "fifo"),) * 3,
         ("dir", "fifo", "fifo", "file"), ("dir", "file"), ("dir", "dir", "dir", "file"))
SEARCH = 0o111
MANY_BYTES = 2_000  # of some writes; three of them fill a pipe
ONE_POWER = 3  # sets of a single capability
FEW_CALLS = (3, 12)  # of some scripts, which come further with them
ALL_SHARE, FEW_SHARE = 0.4, 0.3  # how many scripts have all calls, and a few; the others have those of a theme
THEMES = tuple(text.split() for text in (
    "open close read write lseek dup pipe mkfifo fstat fork",
    "open close write read stat exit",
    "open close read write dup pipe fork exit mac_set_fd mac_set_proc",
    "open mkdir rmdir link unlink rename readdir stat chdir mkfifo",
    "open write chmod chown stat cap_get_file cap_set_file exec umask",
    "fork exec exit wait kill getppid getids setuid setgid cap_set_proc cap_get_proc",
    "cap_get_fd cap_set_fd cap_set_file cap_get_file open cap_set_proc write exec",
    "mac_set_file mac_get_file mac_set_fd mac_get_fd mac_set_proc open read write lseek rename kill fork",
))
FREQUENT = ("open", "open", "open", "read", "write", "exec", "fork", "rename", "link")
ENDS = ("exit",)
CHANGING = ("exec", "setuid", "mac_set_proc")  # calls that change who may end the caller
MAKING = {"mkdir": 0, "mkfifo": 0, "link": 1, "rename": 1}  # calls that make a name, and the place of its path


@dataclass
class Temper:
    """What the things of a world are like: all of one label or not, open to all or not, and how many capabilities there are."""
    draw: random.Random
    policy: Policy
    one_label: bool
    open: bool
    powers: int
    set_id: bool

    def label(self, above: Label, labels: Labels) -> Label:
        """A label that dominates another one."""
        if self.one_label:
            return above
        level = self.draw.randint(above.level, labels.top.level)
        extra = self.draw.choice((0, 0, labels.top.categories, self.draw.randint(0, labels.top.categories)))
        return Label(level, above.categories | extra, self.draw.randint(labels.top.grade, above.grade))

    def mode(self, kind: str) -> int:
        """A mode of an object; most directories may be searched, since little comes of what stands behind one that may not."""
        mode = self.draw.choice(SET_ID_MODES if self.set_id and kind == "file" else OPEN_MODES if self.open else MODES)
        return mode | SEARCH if kind == "dir" and self.draw.random() < (0.95 if self.open else 0.6) else mode

    def bits(self) -> int:
        """A set of capabilities."""
        if self.powers == ONE_POWER:
            return bits_of([self.draw.choice(CAPABILITIES)])
        share = (0.0, 0.25, 0.9)[self.powers]
        return bits_of([name for name in CAPABILITIES if self.draw.random() < share])

    def process_caps(self) -> Caps:
        """The sets of a process."""
        permitted = self.bits()
        effective = self.draw.choice((permitted, permitted, 0, permitted & self.bits()))
        return Caps(effective, permitted, self.draw.choice((0, permitted, self.bits())))

    def file_caps(self) -> Caps:
        """The sets of a file: the flag is on or off."""
        bits = self.bits() or bits_of([self.draw.choice(CAPABILITIES)])
        permitted, inheritable = self.draw.choice(((bits, self.bits()), (bits, 0), (0, bits)))
        return Caps(self.draw.choice((0, permitted | inheritable)), permitted, inheritable)


@dataclass
class WorldMaker:
    """Makes the lines of a world."""
    draw: random.Random
    lines: List[str] = field(default_factory=list)

    def make(self) -> Tuple[bytes, Temper]:
        """The world up to its line `script`, and what it is like."""
        draw = self.draw
        policy = Policy(LEVELS[:draw.randint(1, 3)], CATEGORIES[:draw.randint(0, 2)], GRADES if draw.random() < 0.3 else ())
        labels = Labels(policy)
        temper = Temper(draw, policy, draw.random() < 0.5, draw.random() < 0.6, draw.choice((0, 1, 1, 2, ONE_POWER)), draw.random() < 0.25)
        bound = draw.choice(["all", "all", "none", ",".join(sorted(draw.sample(CAPABILITIES, 9)))])
        self.lines += ["world 2", " ".join(("levels", *policy.levels)), " ".join(("categories", *policy.categories))]
        self.lines += [" ".join(("grades", *policy.grades))] if policy.grades else []
        self.lines += [f"bound {bound}", f"dir / {temper.mode('dir'):04o} {self.ids()} {labels.text(labels.bottom)}"]
        self.add_objects(temper, labels)
        for _ in range(draw.randint(1, 4)):
            groups = draw.choice(["-", "-", "10", "10,20"])
            label, caps = temper.label(labels.bottom, labels), caps_text(temper.process_caps())
            self.lines.append(f'proc {labels.text(label)} {self.ids()} {groups} "{caps}"')
        return ("\n".join([*self.lines, "script"]) + "\n").encode("ascii"), temper

    def ids(self) -> str:
        """A user and a group."""
        return f"{self.draw.choice(IDS)} {self.draw.choice(IDS)}"

    def add_objects(self, temper: Temper, labels: Labels) -> None:
        """Adds lines of objects below the root."""
        directories, taken, kinds = [("", labels.bottom)], set(), self.draw.choice(KINDS)
        for _ in range(self.draw.choice((2, 3, self.draw.randint(2, 9)))):
            parent, above = self.draw.choice(directories)
            path, label = f"{parent}/{self.draw.choice(NAMES)}", temper.label(above, labels)
            if path in taken or path.count("/") > 4:
                continue
            taken.add(path)
            kind = self.draw.choice(kinds)
            line = f"{kind} {path} {temper.mode(kind):04o} {self.ids()} {labels.text(label)}"
            if kind == "file":
                line += f' "{self.draw.choice(("", "x", "some bytes"))}"'
                line += f' "{caps_text(temper.file_caps())}"' if self.draw.random() < 0.5 else ""
            directories += [(path, label)] if kind == "dir" else []
            self.lines.append(line)


@dataclass
class ScriptMaker:
    """Makes the calls of a script, and plays them in the model."""
    draw: random.Random
    temper: Temper
    state: State
    labels: Labels
    calls: Sequence[str]
    dead: List[Number] = field(default_factory=list)
    focus: Optional[Path] = None
    following: Optional[Following] = None

    def line(self) -> str:
        """The next line."""
        who = self.process()
        call = self.call(who)
        if self.following is not None and self.draw.random() < FOLLOWED:
            who, call = self.follow(self.following) or (who, call)
        before = self.state.processes
        self.state, reply = play(self.state, who, call)
        self.following = Following(who, call, reply, before[who].parent if who in before else None)
        self.dead = [*self.dead, *(each for each in before if each not in self.state.processes)][-4:]
        return f"{self.labels.number_text(who)} {call_text(call, self.labels)}"

    def follow(self, last: Following) -> Optional[Tuple[Number, Call]]:
        """A call that follows on the last one, with its process, or None where there is none of these calls."""
        if self.opened_fifo(last) and self.draw.random() < 0.6:
            return last.who, last.other_end
        names = [name for name in last.names if name in self.calls]
        if not names:
            return None
        who, name = last.caller(self.draw), self.draw.choice(names)
        if who not in self.state.processes:
            return None
        arguments = self.arguments(name, who)
        if name == "kill" and last.call.name in CHANGING:
            family = [other for other, process in self.state.processes.items() if process.parent == last.who or other == last.parent]
            other = self.draw.choice(family if family and self.draw.random() < 0.5 else list(self.state.processes))
            who, other = self.draw.choice(((who, other), (other, who)))
            return who, Call(name, (other, *arguments[1:]))
        first = [last.argument(word, made, self.draw) for word, made in zip(CALLS[name].split()[:1], arguments)]
        return who, Call(name, (*first, *arguments[1:]))

    def opened_fifo(self, last: Following) -> bool:
        """Whether the last call opened a FIFO."""
        if last.call.name != "open" or not last.reply.done:
            return False
        description = dict(self.state.processes[last.who].descriptors)[last.reply.answer[0]]
        return self.state.things[self.state.descriptions[description].thing].kind is Kind.FIFO

    def process(self) -> Number:
        """A process, which mostly lives."""
        living = list(self.state.processes)
        if self.dead and (not living or self.draw.random() < 0.02):
            return self.draw.choice(self.dead)
        return self.draw.choice(living)

    def call(self, who: Number) -> Call:
        """A call of a process."""
        names = [name for name in FREQUENT if name in self.calls]
        name = self.draw.choice([*self.calls, *names])
        if name in ENDS and not set(self.calls) <= set(ENDS) and self.draw.randrange(ENDS_MADE):
            return self.call(who)
        return Call(name, tuple(self.arguments(name, who)))

    def arguments(self, name: str, who: Number) -> List[Any]:
        """The arguments of a call."""
        if name == "open":
            return list(self.open_words(who))
        if name == "umask":
            return [self.draw.choice((0, 0o022, 0o077, 0o777))]
        arguments = [self.argument(word, who) for word in CALLS[name].split()]
        if name in MAKING and self.draw.random() < (0.4 if name == "rename" else 0.7):
            arguments[MAKING[name]] = self.new_path(who)
        return arguments

    def open_words(self, who: Number) -> Tuple[Any, ...]:
        """The arguments of `open`."""
        if self.draw.random() < 0.35:
            path = self.new_path(who) if self.draw.random() < 0.7 else self.path(who)
            return path, self.draw.choice(("wc", "rwc", "wcx", "rwcx", "wct", "wca")), self.mode()
        return self.path(who), self.draw.choice(("r", "r", "w", "rw", "wt", "wa", "rwa", "rwta"))

    def argument(self, word: str, who: Number) -> Any:
        """An argument."""
        draw = self.draw
        makers: Dict[str, Callable[[], Any]] = {
            "PATH": lambda: self.path(who), "FD": lambda: self.descriptor(who), "N": lambda: draw.choice((0, 1, 4, 100)),
            "BYTES": self.content, "OFFSET": lambda: draw.choice((0, 0, 1, 3, -1, -3, 20)),
            "set|cur|end": lambda: draw.choice(("set", "cur", "end")), "MODE": self.mode, "UID": lambda: draw.choice(self.ids(who)[:3] + IDS),
            "GID": lambda: draw.choice(self.ids(who)[3:6] + IDS), "CAPS": lambda: self.caps(who), "LABEL": lambda: self.label(who),
            "PID": lambda: draw.choice(list(self.state.processes) + self.dead + [who]),
            "0|TERM|KILL": lambda: draw.choice(SIGNALS), "on|off": lambda: draw.choice(("on", "off")),
        }
        return makers[word]()

    def ids(self, who: Number) -> Tuple[Any, ...]:
        """The ids of a process: real, effective and saved user, then group."""
        process = self.state.processes.get(who)
        return tuple(process.ids) if process else IDS * 2

    def content(self) -> bytes:
        """Bytes that are written, now and then so many that files and pipes get full."""
        return b"z" * MANY_BYTES if self.draw.random() < 0.1 else self.draw.choice((b"", b"y", b"other bytes"))

    def mode(self) -> int:
        """A mode."""
        return self.draw.choice((*OPEN_MODES, *MODES))

    def descriptor(self, who: Number) -> int:
        """A descriptor, which is mostly open."""
        process = self.state.processes.get(who)
        held = [fd for fd, _ in process.descriptors] if process else []
        return self.draw.choice(held) if held and self.draw.random() < 0.9 else self.draw.randint(0, 3)

    def caps(self, who: Number) -> Caps:
        """Sets, some of them those that the process has."""
        process = self.state.processes.get(who)
        held, passed = (process.caps.permitted, process.caps.inheritable) if process else (0, 0)
        some = held & self.temper.bits()
        full = Caps(held, held, held)
        return self.draw.choice((self.temper.file_caps(), self.temper.process_caps(), full, Caps(some, some, 0), Caps(0, some, some),
                                 Caps(some, held, 0), Caps(0, 0, held), Caps(held, some, 0), Caps(some, held, passed),
                                 Caps(0, some, passed | some), Caps(0, some, self.temper.bits()),
                                 Caps(0, self.temper.bits(), some)))

    def label(self, who: Number) -> Label:
        """A label: of a process or of an object, or a random one."""
        used = {thing.label for thing in self.state.things.values()} | {each.label for each in self.state.processes.values()}
        top, bottom = self.labels.top, self.labels.bottom
        random_one = Label(self.draw.randint(0, top.level), self.draw.randint(0, top.categories), self.draw.randint(top.grade, bottom.grade))
        return self.draw.choice([*sorted(used), top, random_one])

    def new_path(self, who: Number) -> Path:
        """The path of a name that a directory mostly does not have."""
        path = self.path(who, Kind.DIRECTORY)
        return path._replace(names=(*path.names[:7], self.draw.choice(NAMES).encode("ascii")))

    def absolute_share(self, directory: Number) -> float:
        """How many paths of a process in a directory are absolute: few where it was removed."""
        return 1.0 if directory == self.state.root else 0.7 if self.state.spots.get(directory) else 0.2

    def path(self, who: Number, kind: Optional[Kind] = None) -> Path:
        """A path: of what is there, of a new name, or of nothing."""
        draw, names = self.draw, []
        if self.focus is not None and kind is None and draw.random() < 0.5:
            return self.focus
        process = self.state.processes.get(who)
        absolute = process is None or draw.random() < self.absolute_share(process.cwd)
        here = self.state.root if absolute or process is None else process.cwd
        while draw.random() < 0.85:
            entries = sorted(self.state.names.get(here, {}).items())
            if kind is not None:
                entries = [each for each in entries if self.state.things[each[1]].kind is kind]
            if not entries:
                break
            name, here = draw.choice(entries)
            names.append(name)
            if self.state.things[here].kind is not Kind.DIRECTORY:
                break
        if kind is None and (draw.random() < 0.15 or not names and draw.random() < 0.6):
            names.append(draw.choice(NAMES).encode("ascii"))
        return Path(absolute, tuple(names[:8]))


def made(seed: str, calls: Sequence[str]) -> bytes:
    """The world of a seed with a script of these calls."""
    draw = random.Random(seed)
    head, temper = WorldMaker(draw).make()
    world = read_world(head)
    labels = Labels(world.policy)
    maker = ScriptMaker(draw, temper, first_state(world, labels), labels, some_calls(draw, calls))
    if draw.random() < FOCUSED:
        kind = draw.choice(("file", "fifo", "dir"))
        maker.focus = read_path(draw.choice([each for each in world.objects if each.kind.value == kind] or world.objects).path)
    return world.with_script(list(lines_of(maker, draw.choice(LENGTHS))))


def some_calls(draw: random.Random, calls: Sequence[str]) -> Sequence[str]:
    """The calls of a script: all of them, a few, or those of a theme."""
    choice = draw.random()
    if choice < ALL_SHARE or len(calls) <= FEW_CALLS[1]:
        return calls
    if choice < ALL_SHARE + FEW_SHARE:
        return draw.sample(calls, draw.randint(*FEW_CALLS))
    theme = draw.choice(THEMES)
    return [name for name in calls if name in theme] or calls


def lines_of(maker: ScriptMaker, length: int) -> Iterator[str]:
    """So many lines, or fewer where no process lives any more."""
    for _ in range(length):
        if not maker.state.processes:
            return
        yield maker.line()
