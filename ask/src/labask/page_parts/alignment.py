"""Which lines of two texts stand beside each other, as in a comparison of the texts."""
from difflib import SequenceMatcher
from itertools import takewhile, zip_longest
from typing import Iterator, Optional, Sequence, Tuple

Places = Tuple[Optional[int], Optional[int]]


def same_before(first: Sequence[str], second: Sequence[str]) -> int:
    """How many lines are the same at the beginning of both."""
    return sum(1 for _ in takewhile(lambda both: both[0] == both[1], zip(first, second)))


def differing(first: Sequence[str], second: Sequence[str]) -> Iterator[Tuple[bool, range, range]]:
    """The stretches of lines that are the same, and those that differ, in order. The same lines at the beginning and at the end are
    set aside, and lines that come very often are nowhere looked for, so that long scripts are compared too."""
    begin = same_before(first, second)
    end = same_before(first[begin:][::-1], second[begin:][::-1])
    one, two = len(first) - end, len(second) - end
    yield True, range(begin), range(begin)
    matcher = SequenceMatcher(None, first[begin:one], second[begin:two])
    for word, first_from, first_to, second_from, second_to in matcher.get_opcodes():
        yield word == "equal", range(begin + first_from, begin + first_to), range(begin + second_from, begin + second_to)
    yield True, range(one, len(first)), range(two, len(second))


def aligned(first: Sequence[str], second: Sequence[str]) -> Iterator[Places]:
    """The places of lines, in order: those of the same line in both, or that of a line in one of them alone."""
    for same, ours, theirs in differing(first, second):
        yield from zip(ours, theirs) if same else [*((each, None) for each in ours), *((None, each) for each in theirs)]


def changed(first: Sequence[str], second: Sequence[str]) -> Iterator[Places]:
    """The places of the lines that differ; those that stand in the same stretch are beside each other."""
    for same, ours, theirs in differing(first, second):
        yield from () if same else zip_longest(ours, theirs)
