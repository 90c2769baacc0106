"""Looks for a script by which a capability is exercised: a call of a process that has it, or that gets it by a program.

What is found is played. Scripts by which a process gets a capability otherwise are not looked for; whether there may be any says
the closure of the search of `flow`.
"""
import functools
import itertools
import string
from dataclasses import dataclass
from typing import Any, Callable, Collection, Dict, FrozenSet, Iterable, Iterator, List, Optional, Sequence, Tuple

from labask.capability_texts import Sets, read_sets
from labask.effort import Effort
from labask.ever import Asked, Coming, Right
from labask.flow import Call
from labask.kernel.state import Labels, first_state, names_of, read_bound
from labask.kernel_profile import CAPABILITIES, CHECKS
from labask.playing import Outcome, Played, Player
from labask.search.closure import Closure
from labask.search.limits import Limits
from labask.search.problem import Problem
from labask.who import Namer, join_path
from labask.worlds import Kind, World, WorldObject, WorldProcess, path_word, quoted

Record = Dict[str, Any]
MOST_CHOICES = 16  # of labels that are tried
PROBES_OF_A_PLAY = 1_000  # each by a child, whose numbers are few
OPENING, NAMING = ("open {file} w", "mkdir {new} 0700"), ("stat {path}", "readdir {dir}", "open {file} r")
RELABELLING = ("mac_set_file {path} {label}",)
PROBES: Dict[str, Tuple[str, ...]] = {
    "cap_chown": ("chown {path} {user} {group}",), "cap_dac_execute": ("exec {file}",), "cap_dac_read_search": NAMING,
    "cap_dac_write": OPENING, "cap_fowner": ("chmod {path} 0700",), "cap_fsetid": ("chmod {path} 6700", "open {file} wt"),
    "cap_kill": ("kill {process} 0",), "cap_setfcap": ("cap_set_file {file} =",), "cap_setgid": ("setgid {group}",),
    "cap_setuid": ("setuid {user}",), "cap_mac_downgrade": RELABELLING, "cap_mac_read": NAMING,
    "cap_mac_relabel_subj": ("mac_set_proc {label}",), "cap_mac_upgrade": RELABELLING, "cap_mac_write": OPENING + ("chmod {path} 0700",),
    "cap_audit_control": ("aud_switch off",), "cap_audit_write": ('aud_write ""',),
}  # calls that may exercise each capability; the words between braces stand for those of the world


@dataclass(frozen=True)
class Exercised:
    """A script that was played, whose last call exercises what was looked for; and the world to play it in."""
    world: bytes
    calls: Tuple[Call, ...]


@dataclass(frozen=True)
class Position:
    """A process behind the calls of a script: its capability sets, and how many numbers of processes of its label are drawn."""
    script: Tuple[str, ...]
    tag: str
    caps: str
    label: str
    drawn: int


def is_asked_for(capability: str) -> bool:
    """Whether some check asks for a capability."""
    return any(check.capability == capability for check in CHECKS.values())


def calls_of(script: Sequence[str], played: Played, player: Player) -> Tuple[Call, ...]:
    """The calls of a script with what the records of its run say of them."""
    used: Dict[int, Dict[str, None]] = {}
    gave: Dict[int, str] = {}
    for record in player.select("all", played.trail):
        if record["event"] == "exercise":
            used.setdefault(record["call"], {})[record["cap"]] = None
        elif record["event"] == "exec":
            gave[record["call"]] = record["caps"]
    return tuple(Call(text, reply.text, tuple(used.get(reply.number, ())), gave.get(reply.number))
                 for text, reply in zip(script, played.replies))


class Exercising:
    """Looks for scripts of a world; `spared` has the tags of processes that are not asked about."""

    def __init__(self, world: World, player: Player, limits: Limits, effort: Effort, spared: Collection[str] = ()):
        self.world, self.player, self.limits, self.effort = world, player, limits, effort
        self.processes = [each for each in world.processes if each.tag not in spared]
        self.bound = frozenset(names_of(read_bound(world.bound)))
        self.namer = Namer(world)

    # ---- who may have a capability

    @functools.cached_property
    def sets(self) -> Dict[str, FrozenSet[str]]:
        """The capabilities that each process and its children may come to have, by the model; all where the work was stopped."""
        labels, tags = Labels(self.world.policy), [each.tag for each in self.processes]
        problem = Problem(first_state(self.world, labels), process=labels.number(tags[0]))
        closure = Closure(problem).begin().collect(self.effort.over)
        if not closure.whole:
            return dict.fromkeys(tags, frozenset(CAPABILITIES))
        held: Dict[int, FrozenSet[str]] = {}
        for family, versions in closure.acting.items():
            caps = [closure.credentials[number].caps for number in versions]
            held[family] = frozenset(name for each in caps for name in names_of(each.effective | each.permitted))
        return {tag: held[closure.cast.family_of[labels.number(tag)]] for tag in tags}

    def having(self, capability: str) -> List[WorldProcess]:
        """The processes that may come to have a capability, by the model."""
        return [each for each in self.processes if capability in self.sets[each.tag]]

    def given_by(self, program: WorldObject, inheritable: FrozenSet[str]) -> FrozenSet[str]:
        """The capabilities that a file gives to a process with such an inheritable set."""
        sets = read_sets(program.caps or "=")
        return sets.permitted & self.bound | sets.inheritable & inheritable

    # ---- where a capability can be had

    def giving(self, capability: str) -> List[Tuple[WorldProcess, WorldObject]]:
        """The processes with the files that give them a capability when they execute them."""
        return [(process, program) for process in self.having(capability) for program in self.world.objects
                if capability in self.given_by(program, read_sets(process.caps).inheritable)]

    def positions(self, capability: str) -> Iterator[Position]:
        """Processes that have a capability: at the start, and behind a program that they execute at once."""
        for process in self.having(capability):
            if capability in read_sets(process.caps).permitted:
                yield Position((), process.tag, read_sets(process.caps).written, process.label, self.drawn(process.label))
        for process, program in self.giving(capability):
            position = self.behind((f"{process.tag} exec {path_word(program.path)}",), process.tag)
            if position is not None:
                yield position

    def later_positions(self, capability: str) -> Iterator[Position]:
        """Processes that have a capability behind a program that they come to execute by calls of their own and of others."""
        for process, program in self.giving(capability):
            position = self.behind(self.coming(process, program), process.tag)
            if position is not None:
                yield position

    def coming(self, process: WorldProcess, program: WorldObject) -> Tuple[str, ...]:
        """The shortest script by which a process comes to execute a program; none where none was found."""
        asked = Asked(program.path, program.kind, process.tag, Right.EXECUTE)
        found = Coming(self.world, self.player, asked, self.effort).find(self.limits.depth, self.limits.states)
        return tuple(call.text for call in found.calls) if found is not None else ()

    def behind(self, script: Tuple[str, ...], tag: str) -> Optional[Position]:
        """The process behind the calls of a script that are all done; None where there are none or one is not done."""
        played = self.player.play_accepted(self.world.with_script(script))
        if not script or tag not in played.ends or any(reply.outcome is not Outcome.DONE for reply in played.replies):
            return None
        label, children = played.ends[tag].label, [reply.words[0].text for reply in played.replies if reply.call == "fork"]
        forked = sum(child.partition("@")[2] == label for child in children)
        return Position(script, tag, played.ends[tag].caps, label, self.drawn(label) + forked)

    def drawn(self, label: str) -> int:
        """How many numbers of processes of a label are drawn at the start."""
        return sum(each.label == label for each in self.world.processes)

    # ---- which calls exercise it

    def choices(self, name: str) -> List[str]:
        """The words of the world that a word between braces stands for."""
        objects, processes = self.world.objects, self.world.processes
        if name == "new":
            return [path_word(join_path(each.path, self.namer.name(each.path))) for each in objects if each.kind is Kind.DIRECTORY]
        if name in ("path", "file", "dir"):
            return [path_word(each.path) for each in objects if name == "path" or each.kind.value == name]
        if name in ("user", "group"):  # of two there is one that an object or a process does not have
            numbers = {0, 1} | {each.owner if name == "user" else each.group for each in objects}
            return [str(number) for number in sorted(numbers)[-2:]]
        if name == "label":
            return list(dict.fromkeys([each.label for each in objects] + [each.label for each in processes]))[:MOST_CHOICES]
        return [each.tag for each in processes]

    def probes(self, capability: str) -> List[str]:
        """Calls, without the tag, that may exercise a capability."""
        found: List[str] = []
        for template in PROBES.get(capability, ()):
            names = [name for _, name, _, _ in string.Formatter().parse(template) if name]
            for words in itertools.product(*map(self.choices, names)):
                found.append(template.format(**dict(zip(names, words))))
        return found

    def raised(self, position: Position, capability: str) -> Tuple[str, ...]:
        """The call by which the capability becomes effective, where it is not."""
        sets = read_sets(position.caps)
        if capability in sets.effective:
            return ()
        more = Sets(sets.effective | {capability}, sets.inheritable, sets.permitted)
        return (f"{position.tag} cap_set_proc {quoted(more.written.encode('ascii'))}",)

    def hits(self, position: Position, capability: str, wanted: Callable[[Record], bool]) -> Iterator[str]:
        """The calls that exercise a capability as it is wanted when children make them one after another."""
        before = (*position.script, *self.raised(position, capability))
        probes = self.probes(capability)
        for begin in range(0, len(probes), PROBES_OF_A_PLAY):
            lines, asked = list(before), {}
            for count, probe in enumerate(probes[begin:begin + PROBES_OF_A_PLAY], position.drawn + 1):
                child = f"{count}@{position.label}"
                lines += [f"{position.tag} fork", f"{child} {probe}", f"{child} exit 0"]
                asked[len(lines) - 1] = probe
            played = self.player.play_accepted(self.world.with_script(lines))
            records = self.player.select(f"event=exercise;cap={capability}", played.trail)
            yield from dict.fromkeys(asked[each["call"]] for each in records if each["call"] in asked and wanted(each))

    def find(self, capability: str, wanted: Callable[[Record], bool]) -> Optional[Exercised]:
        """A script whose last call exercises a capability in a way that is wanted; longer ones are looked for where no short one is."""
        return (self.find_at(self.positions(capability), capability, wanted)
                or self.find_at(self.later_positions(capability), capability, wanted))

    def find_at(self, positions: Iterable[Position], capability: str, wanted: Callable[[Record], bool]) -> Optional[Exercised]:
        """The shortest script that is found from positions, of which those behind fewer calls come first."""
        best: Optional[Exercised] = None
        for position in positions:
            if self.effort.stops() or best is not None and len(best.calls) <= len(position.script) + 1:
                break
            before = (*position.script, *self.raised(position, capability))
            if best is not None and len(best.calls) <= len(before) + 1:
                continue
            scripts = ((*before, f"{position.tag} {probe}") for probe in self.hits(position, capability, wanted))
            confirmed = (self.confirmed(script, capability, wanted) for script in scripts)
            best = next((found for found in confirmed if found is not None), best)
        return best

    def confirmed(self, script: Tuple[str, ...], capability: str, wanted: Callable[[Record], bool]) -> Optional[Exercised]:
        """The script, played alone; None where its last call does not exercise the capability then."""
        text = self.world.with_script(script)
        played = self.player.play_accepted(text)
        records = self.player.select(f"event=exercise;cap={capability}", played.trail)
        if not any(each["call"] == len(script) and wanted(each) for each in records):
            return None
        return Exercised(text, calls_of(script, played, self.player))
