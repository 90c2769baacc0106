"""Which objects and processes a word of the command line names: one, those of a pattern, or those of a label.

`/wards/*` names what is in a directory and `/wards/**` all that is below it. `*` and `?` stand for bytes of one name, and `/**/` for
any names between two, or none. `label:LABEL` names what has this label. A path that is there names that object alone, also where it
has such signs. A process has a name where the line before its own is a comment `# name NAME`.
"""
from typing import List, Optional, TypeVar

from labask.answers import WrongWords
from labask.path_patterns import pattern_of
from labask.worlds import World, WorldObject, WorldProcess, canonical_path, path_word

Thing = TypeVar("Thing", WorldObject, WorldProcess)
LABEL = "label:"


def found(things: List[Thing], message: str) -> List[Thing]:
    """These things; raises `WrongWords` where there are none."""
    if not things:
        raise WrongWords(message)
    return things


def label_named(world: World, text: str) -> Optional[str]:
    """The label that a word `label:LABEL` names, in its canonical form; None where it is another word."""
    return world.policy.canonical(text[len(LABEL):]) if text.startswith(LABEL) else None


def objects_named(world: World, text: str) -> List[WorldObject]:
    """The objects that a word names, in the order of the world; raises `WrongWords` where there is none."""
    label = label_named(world, text)
    if label is not None:
        return found([each for each in world.objects if each.label == label], f"no object of the world has the label {label}")
    path = canonical_path(text.encode("utf-8", "surrogateescape"))
    pattern = None if path in world.objects_by_path else pattern_of(path)
    if pattern is None:
        return found([world.objects_by_path[path]] if path in world.objects_by_path else [],
                     f"no line of the world has the path {path_word(path)}")
    return found([each for each in world.objects if pattern.matches(each.path)], f"no line of the world has a path {path_word(path)}")


def processes_named(world: World, text: str) -> List[WorldProcess]:
    """The processes that a word names, in the order of the world; raises `WrongWords` where there is none."""
    label = label_named(world, text)
    if label is not None:
        return found([each for each in world.processes if each.label == label], f"no process of the world has the label {label}")
    if text in world.processes_by_name:
        return [world.processes_by_name[text]]
    tag = world.policy.canonical_tag(text)
    return found([world.processes_by_tag[tag]] if tag in world.processes_by_tag else [], f"the world has no process {tag}")
