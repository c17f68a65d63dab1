"""The steps of a list of F-jumping numbers: on which part of the line from 0 to 1 the test ideal stays the same."""

import dataclasses
from fractions import Fraction

from answers import Between, Jump, Jumps


@dataclasses.dataclass(frozen=True)
class Step:
    """A part of the line, from its first number on and before its last, how many changes came before, and its ideal.

    The ideal is empty where the answer doesn't tell it: after an open gap, up to the next number of the list.
    """

    low: Fraction
    high: Fraction
    level: int
    ideal: str
    begins: str = ""  # the F-jumping number at its low end, as the program printed it


@dataclasses.dataclass(frozen=True)
class Gap:
    """An open gap, and how many changes came before: inside there is at least one more."""

    low: Fraction
    high: Fraction
    level: int
    ends: tuple[str, str]


def events(answer: Jumps) -> list[Jump | Between]:
    """The numbers and the gaps in the order of the line; a gap follows the number that it begins at."""
    marked = [(Fraction(jump.at), 0, jump) for jump in answer.jumps]
    marked += [(Fraction(gap.low), 1, gap) for gap in answer.gaps]
    return [event for _, _, event in sorted(marked, key=lambda mark: mark[:2])]


def staircase(answer: Jumps) -> list[Step | Gap]:
    """The parts of the line from 0 to 1, rising. The last one is the point 1 alone where 1 is in the list."""
    parts: list[Step | Gap] = []
    here = Step(Fraction(0), Fraction(0), 0, "(1)")
    for event in events(answer):
        start = Fraction(event.at if isinstance(event, Jump) else event.low)
        if start > here.low or here.begins:
            parts.append(dataclasses.replace(here, high=start))
        if isinstance(event, Jump):
            here = Step(start, start, here.level + 1, event.ideal, event.at)
            continue
        end = Fraction(event.high)
        parts.append(Gap(start, end, here.level, (event.low, event.high)))
        here = Step(end, end, here.level + 1, "")
    if here.low < 1 or here.begins:
        parts.append(dataclasses.replace(here, high=Fraction(1)))
    return parts


def levels(parts: list[Step | Gap]) -> int:
    """How many levels the steps have: one more than there are changes."""
    return 1 + max(part.level + (1 if isinstance(part, Gap) else 0) for part in parts)
