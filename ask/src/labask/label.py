"""The question `label`: does a label dominate another one, and what are their bounds.

Whether one dominates another is played: a process of the first label opens a file of the second for reading, whose mode lets all.
"""
import argparse
from dataclasses import dataclass
from typing import Any, Dict, Iterator, List, Tuple

from labask.answers import Status, WrongWords, write_json
from labask.kernel.state import Label, Labels
from labask.label_texts import label_faults
from labask.lattice import MOST_DRAWN, Lattice, count_labels, drawing, every_label, join, lacking, lattice_of, meet, used_labels
from labask.playing import Outcome, Player, PlayingFault
from labask.worlds import Policy, World, read_file, read_world

SAID = "Dominance was played by labsys; join and meet are computed by the definition of labels."


@dataclass(frozen=True)
class Compared:
    """Two labels with what was found of them; each text is canonical."""
    one: str
    other: str
    dominates: bool
    dominated: bool
    lacks: Tuple[str, ...]
    other_lacks: Tuple[str, ...]
    join: str
    meet: str

    def lines(self) -> Iterator[str]:
        """The answer as text."""
        if self.one == self.other:
            yield f"{self.one} is the same label, and dominates itself."
        else:
            yield dominance(self.one, self.other, self.lacks)
            yield dominance(self.other, self.one, self.other_lacks)
        yield f"join: {self.join}, the least label that dominates both"
        yield f"meet: {self.meet}, the greatest label that both dominate"

    def as_json(self) -> Dict[str, Any]:
        """The answer as JSON has it."""
        return {"a": self.one, "b": self.other, "dominates": self.dominates, "dominated": self.dominated,
                "lacks": list(self.lacks), "other_lacks": list(self.other_lacks), "join": self.join, "meet": self.meet}


def dominance(one: str, other: str, lacks: Tuple[str, ...]) -> str:
    """Whether one label dominates another one, in words."""
    return f"{one} does not dominate {other}: {', and '.join(lacks)}." if lacks else f"{one} dominates {other}."


def add_arguments(parser: argparse.ArgumentParser) -> None:
    """Adds the arguments of the question."""
    parser.add_argument("file", metavar="FILE", help="the world that names levels, categories and grades; its script is not played")
    parser.add_argument("labels", metavar="LABEL", nargs="*", help="two labels, A and B; with --lattice there may be none")
    parser.add_argument("--lattice", action="store_true", help="write the labels as a drawing in SVG, those that dominate others above them")


def read_label(text: str, policy: Policy) -> Label:
    """The label of a word; raises `WrongWords` where it is none of the policy."""
    for fault in label_faults(text, policy):
        raise WrongWords(f"{text!r} is no label: {fault.message}")
    return Labels(policy).read(text)


def opened(world: World, pairs: List[Tuple[str, str]], player: Player) -> List[bool]:
    """Whether a process of the first label of each pair may open a file of the second for reading, as `labsys` plays it."""
    texts = list(dict.fromkeys(text for pair in pairs for text in pair))
    policy = {line.words[0].text: line.text for line in reversed(world.lines[:world.script_line]) if line.words}
    names = [policy[word].decode("ascii") for word in ("levels", "categories", "grades") if word in policy]
    head = ["world 2", *names, "bound none", f"dir / 0755 0 0 {world.policy.levels[0]}"]
    head += [f'file /{place} 0444 0 0 {text} ""' for place, text in enumerate(texts)] + [f'proc {text} 1 1 - "="' for text in texts]
    calls = [f"1@{one} open /{texts.index(other)} r" for one, other in pairs]
    played = player.play_accepted("\n".join([*head, "script", *calls, ""]).encode("ascii"))
    return [reply.outcome is Outcome.DONE for reply in played.replies]


def compare(world: World, one: str, other: str, player: Player) -> Compared:
    """Compares two labels of a world; raises `WrongWords` where a text is none."""
    policy, labels = world.policy, Labels(world.policy)
    first, second = read_label(one, policy), read_label(other, policy)
    a, b, high, low = map(labels.text, (first, second, join(first, second), meet(first, second)))
    dominates, dominated, *bounds = opened(world, [(a, b), (b, a), (high, a), (high, b), (a, low), (b, low)], player)
    lacks, other_lacks = lacking(first, second, policy), lacking(second, first, policy)
    if not all(bounds) or (dominates, dominated) != (not lacks, not other_lacks):
        raise PlayingFault(f"labsys orders the labels {a} and {b} otherwise than their definition")
    return Compared(a, b, dominates, dominated, tuple(lacks), tuple(other_lacks), high, low)


def marks_of(found: Compared, labels: Labels) -> Dict[Label, str]:
    """The words below labels of a drawing: which are the two, and their bounds."""
    marks: Dict[Label, List[str]] = {}
    for word, text in (("A", found.one), ("B", found.other), ("join", found.join), ("meet", found.meet)):
        marks.setdefault(labels.read(text), []).append(word)
    return {label: ", ".join(words) for label, words in marks.items()}


def drawn_labels(world: World, marked: List[Label]) -> Tuple[List[Label], str]:
    """The labels that are drawn, and which they are: all, or else those of the world, or else those that are marked alone."""
    if count_labels(world.policy) <= MOST_DRAWN:
        return list(every_label(world.policy)), "All labels"
    used = [*used_labels(world), *marked]
    if len(set(used)) <= MOST_DRAWN:
        return used, "The labels of objects and processes, of all labels"
    if not marked:
        raise WrongWords(f"the world has {len(set(used))} labels; at most {MOST_DRAWN} are drawn")
    return marked, "Two labels with their bounds, of all labels"


def write_lattice(lattice: Lattice, policy: Policy, marks: Dict[Label, str], title: str, as_json: bool) -> None:
    """Writes a lattice as SVG, or as JSON."""
    if not as_json:
        print("\n".join(drawing(lattice, policy, marks, title)))
        return
    text = Labels(policy).text
    write_json({"title": title, "labels": [text(each) for each in lattice.labels],
                "covers": [[text(high), text(low)] for high, low in lattice.covers],
                "marks": {text(each): words for each, words in marks.items()}})


def answer(arguments: argparse.Namespace, player: Player) -> int:
    """Answers the question."""
    if len(arguments.labels) != 2 and not (arguments.lattice and not arguments.labels):
        raise WrongWords("two labels are compared; with --lattice there may be none")
    source = read_file(arguments.file)
    player.check(source)
    world = read_world(source)
    found = compare(world, arguments.labels[0], arguments.labels[1], player) if arguments.labels else None
    if arguments.lattice:
        marks = marks_of(found, Labels(world.policy)) if found else {}
        labels, title = drawn_labels(world, list(marks))
        write_lattice(lattice_of(labels), world.policy, marks, title, arguments.json)
        return Status.DONE
    assert found is not None
    if arguments.json:
        write_json({"played": True, **found.as_json()})
    else:
        print("\n".join([*found.lines(), SAID]))
    return Status.YES if found.dominates else Status.NO
