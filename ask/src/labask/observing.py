"""A run that is asked about as it goes: an observer looks at objects, and processes are asked about themselves.

The observer reads everything by capabilities. Its label is one that nothing else of the world has, so it draws no number that the
script would draw, and no reply to the script changes; `Observed.play` compares them.
"""
import dataclasses
from dataclasses import dataclass, field
from typing import Dict, Iterator, List, Optional, Tuple

from labask.capability_texts import read_sets
from labask.kernel_profile import CAPABILITIES, MAX_LINE, MAX_PATH, MAX_PATH_NAMES
from labask.playing import Outcome, Player, PlayingFault, Reply, Session
from labask.worlds import ScriptLine, World, canonical_path, path_word, quoted

OBSERVER_CAPS = "cap_dac_read_search,cap_mac_read=ep"
QUESTION_BYTES = 16_384  # of the questions about a call, beside those by which objects are looked at


class NoObserver(PlayingFault):
    """The world has as many levels, categories and grades as there may be."""

    def __init__(self) -> None:
        super().__init__("the world has as many levels, categories and grades as there may be; none is left for an observer")


class NoRoom(PlayingFault):
    """The world and the script have nearly as many bytes as an input may have."""

    def __init__(self) -> None:
        super().__init__("the world and its script are so long that no question fits between the calls, within the limit of an input")


@dataclass(frozen=True)
class ObjectFacts:
    """An object at a moment: its path, or None where no name leads to it, its number n@label, and what `stat` answers."""
    path: Optional[bytes]
    number: str
    kind: str = ""
    mode: str = ""
    owner: str = ""
    group: str = ""
    label: str = ""

    @property
    def text(self) -> str:
        """The object in words, without its line."""
        where = path_word(self.path) if self.path else f"object {self.number}, to which no path leads"
        if not self.kind:
            return where
        return f"{where}: {self.kind} {self.mode}, owner {self.owner}, group {self.group}, label {self.label}"


@dataclass(frozen=True)
class ProcessFacts:
    """A process at a moment: its number, its label, what `getids` answers, and its capability sets."""
    tag: str
    label: str
    ids: Tuple[str, ...]
    caps: str

    @property
    def text(self) -> str:
        """The process in words."""
        user, effective, saved, group, effective_group, saved_group, groups = self.ids
        users = user if user == effective == saved else f"{effective} (real {user}, saved {saved})"
        group_text = group if group == effective_group == saved_group else f"{effective_group} (real {group}, saved {saved_group})"
        return f"{self.tag}: label {self.label}, user {users}, group {group_text}, groups {groups}, {self.caps_text}"

    @property
    def caps_text(self) -> str:
        """The effective capabilities in words, with the sets where they have more."""
        effective = read_sets(self.caps).effective
        names = ",".join(name for name in CAPABILITIES if name in effective) or "none"
        more = "" if self.caps in ("=", f"{names}=ep") else f" of {quoted(self.caps.encode())}"
        return f"effective capabilities {names}{more}"


@dataclass
class Opened:
    """What a descriptor refers to: the number of the object, and the path by which it was opened; a pipe has none."""
    number: str
    path: Optional[bytes]


@dataclass
class Followed:
    """What is followed of a process from its replies: its current directory as number and path, and its descriptors."""
    directory: Tuple[str, Optional[bytes]]
    descriptors: Dict[int, Opened] = field(default_factory=dict)


def unused(names: Tuple[str, ...]) -> str:
    """A name that is none of these."""
    return next(name for name in (f"observer{number or ''}" for number in range(100)) if name not in names)


def with_observer(world: World) -> Tuple[bytes, str]:
    """The lines of the world up to `script` with an observer besides, and the tag of the observer."""
    policy = world.policy
    lines = {line.words[0].text: line for line in reversed(world.lines[: world.script_line]) if line.words}
    name = unused(policy.levels + policy.categories + policy.grades)
    lowest = policy.levels[0]
    for keyword, label in (("levels", name), ("categories", f"{lowest}:{name}"), ("grades", f"{lowest}/{name}")):
        names, most = getattr(policy, keyword), 64 if keyword == "categories" else 16
        if keyword not in lines or len(names) >= most:
            continue
        ordered = (name, *names) if keyword == "grades" else (*names, name)
        text = " ".join((keyword, *ordered)).encode("ascii")
        if len(text) <= MAX_LINE:
            process = f'proc {label} 0 0 - "{OBSERVER_CAPS}"'.encode("ascii")
            return world.head({lines[keyword].number: text}, [process]), f"1@{label}"
    raise NoObserver()


def process_facts(session: Session, tag: str) -> Optional[ProcessFacts]:
    """What a living process of a run answers about itself; None where it does not live."""
    replies = session.calls([f"{tag} {call}" for call in ("mac_get_proc", "getids", "cap_get_proc")])
    if any(reply.outcome is not Outcome.DONE for reply in replies):
        return None
    label, ids, caps = (tuple(word.text for word in reply.words) for reply in replies)
    return ProcessFacts(tag, label[0], ids, caps[0])


class Observed:
    """A run of the script of a world, call by call, with questions between the calls that change nothing."""

    def __init__(self, world: World, player: Player):
        self.world = world
        self.player = player
        self.head, self.observer = with_observer(world)
        self.session = Session(player, self.head)
        self.played: List[str] = []
        root = world.objects[0].number
        self.followed = {each.tag: Followed((root, b"/")) for each in world.processes}
        self.made: Dict[str, int] = {}

    def __enter__(self) -> "Observed":
        self.session.__enter__()
        return self

    def __exit__(self, *given: object) -> None:
        self.session.__exit__(*given)

    def make_room(self, size: int) -> None:
        """Begins the run again with the calls of the script alone, where so many bytes more would be beyond the limit of an input."""
        if self.session.has_room(size):
            return
        self.session.__exit__(None, None, None)
        self.session = Session(self.player, self.head)
        self.session.__enter__()
        self.session.calls(self.played)
        if not self.session.has_room(size):
            raise NoRoom()

    # ---- questions

    def stat(self, path: bytes) -> Optional[ObjectFacts]:
        """What is at an absolute path, or None where nothing is."""
        if path.count(b"/") > MAX_PATH_NAMES or len(path) > MAX_PATH or len(path_word(path)) > 2_000:
            return None
        self.make_room(QUESTION_BYTES)
        reply = self.session.call(f"{self.observer} stat {path_word(path)}")
        if reply.outcome is not Outcome.DONE:
            return None
        kind, mode, owner, group, _, _, number, label = (word.text for word in reply.words)
        return ObjectFacts(path, number, kind, mode, owner, group, label)

    def search(self, number: str) -> Optional[ObjectFacts]:
        """The object with a number, found from the root by the names in directories; None where no name leads to it."""
        waiting = [b"/"]
        while waiting:
            path = waiting.pop()
            facts = self.stat(path)
            if facts and facts.number == number:
                return facts
            if facts and facts.kind == "dir":
                names = self.session.call(f"{self.observer} readdir {path_word(path)}").words
                waiting += [path.rstrip(b"/") + b"/" + name.value for name in reversed(names)]
        return None

    def find(self, number: str, path: Optional[bytes]) -> ObjectFacts:
        """The object with a number: at the path where it was, at another, or without one."""
        facts = self.stat(path) if path else None
        if facts is None or facts.number != number:
            facts = self.search(number)
        return facts or ObjectFacts(None, number)

    def process(self, tag: str) -> Optional[ProcessFacts]:
        """What a living process answers about itself; None where it does not live."""
        return process_facts(self.session, tag)

    def absolute(self, tag: str, path: bytes) -> Optional[bytes]:
        """The absolute path that a path of a process stands for; None where its current directory has no path."""
        if path.startswith(b"/"):
            return canonical_path(path)
        number, directory = self.followed[tag].directory
        here = self.find(number, directory).path
        return None if here is None else canonical_path(here + b"/" + path)

    def at_place(self, line: ScriptLine, reply: Reply) -> Optional[ObjectFacts]:
        """The object at the place of a denial; None where the place is that of a process."""
        place = reply.place or ""
        if place == "fd":
            opened = self.followed[line.tag].descriptors.get(int(line.arguments[0].value))
            return self.descriptor(line, opened) if opened else None
        if not place[1:].isdigit():
            return None
        given = reply.path if reply.path is not None else line.arguments[place[0] == "q"].value
        return self.on_walk(line.tag, given, int(place[1:]))

    def descriptor(self, line: ScriptLine, opened: Opened) -> ObjectFacts:
        """The object that a descriptor refers to: as the caller answers, or as the observer finds it."""
        reply = self.session.call(f"{line.tag} fstat {line.arguments[0].text}")
        if reply.outcome is Outcome.DONE:
            kind, mode, owner, group, _, _, number, label = (word.text for word in reply.words)
            found = self.stat(opened.path) if opened.path else None
            path = opened.path if found and found.number == number else None
            return ObjectFacts(path, number, kind, mode, owner, group, label)
        return self.find(opened.number, opened.path)

    def on_walk(self, tag: str, given: bytes, names: int) -> Optional[ObjectFacts]:
        """The object to which the first so many names of a path of a process lead."""
        walked = [name for name in given.split(b"/") if name not in (b"", b".")][:names]
        start = b"/" if given.startswith(b"/") else self.absolute(tag, b".")
        if start is None:
            number, path = self.followed[tag].directory
            return ObjectFacts(None, number) if not walked else None
        return self.stat(canonical_path(start + b"/" + b"/".join(walked)))

    # ---- the calls of the script

    def play(self, line: ScriptLine) -> Iterator[Reply]:
        """Plays the calls of a line of the script one by one, and follows what their replies say. A reply has the call's number."""
        for number in range(line.first_call, line.first_call + line.calls):
            text = line.single(number)
            self.make_room(len(text) + QUESTION_BYTES)
            self.played.append(text)
            reply = dataclasses.replace(self.session.call(text), number=number)
            if reply.outcome is Outcome.DONE:
                self.follow(line, reply)
            yield reply

    def follow(self, line: ScriptLine, reply: Reply) -> None:
        """Follows current directories, descriptors and new objects after a call that was done."""
        tag, call = line.tag, line.call
        if call == "fork":
            one = self.followed[tag]
            self.followed[reply.words[0].text] = Followed(one.directory, dict(one.descriptors))
        elif call in ("chdir", "open", "mkdir", "mkfifo"):
            path = self.absolute(tag, line.arguments[0].value)
            facts = self.stat(path) if path else None
            self.follow_path(line, reply, facts)
        elif call in ("dup", "close", "pipe"):
            self.follow_descriptor(line, reply)

    def follow_path(self, line: ScriptLine, reply: Reply, facts: Optional[ObjectFacts]) -> None:
        """Follows a call that changed to, opened or made what is at a path."""
        one = self.followed[line.tag]
        if facts is None or facts.path is None:
            return
        if line.call == "chdir":
            one.directory = (facts.number, facts.path)
        elif facts.number not in self.world.objects_by_number:
            self.made.setdefault(facts.number, line.first_call)
        if line.call == "open":
            one.descriptors[int(reply.words[0].value)] = Opened(facts.number, facts.path)

    def follow_descriptor(self, line: ScriptLine, reply: Reply) -> None:
        """Follows a call on descriptors."""
        descriptors = self.followed[line.tag].descriptors
        if line.call == "pipe":
            asked = self.session.call(f"{line.tag} fstat {reply.words[0].text}")
            number = asked.words[6].text if asked.outcome is Outcome.DONE else "of a pipe"
            self.made.setdefault(number, line.first_call)
            descriptors.update((int(word.value), Opened(number, None)) for word in reply.words)
        elif line.call == "close":
            descriptors.pop(int(line.arguments[0].value), None)
        else:
            old = descriptors.get(int(line.arguments[0].value))
            if old:
                descriptors[int(reply.words[0].value)] = old


def prefixes(path: bytes) -> Iterator[bytes]:
    """The paths on the way to an absolute path, from the root to the path."""
    names = [name for name in path.split(b"/") if name]
    return (b"/" + b"/".join(names[:count]) for count in range(len(names) + 1))
