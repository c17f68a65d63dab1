"""Answers of the program as data. Numbers and ideals are kept as the program printed them."""

import dataclasses
import re

JUMP = re.compile(r"jump (\S+) = (\(.*\))")
OPEN = re.compile(r"open \((\S+), (\S+)\)")
BETWEEN = re.compile(r"between (\S+) and (\S+)")
WORDS = ("yes", "no", "off", "unit", "notin")


@dataclasses.dataclass(frozen=True)
class Threshold:
    """The threshold itself."""

    at: str


@dataclasses.dataclass(frozen=True)
class Between:
    """A gap between two candidates, inside which the threshold lies."""

    low: str
    high: str


@dataclasses.dataclass(frozen=True)
class Word:
    """One of WORDS."""

    word: str


@dataclasses.dataclass(frozen=True)
class Jump:
    """An F-jumping number, with the test ideal there."""

    at: str
    ideal: str


@dataclasses.dataclass(frozen=True)
class Jumps:
    """F-jumping numbers and open gaps, both rising, and whether the list is complete."""

    jumps: tuple[Jump, ...]
    gaps: tuple[Between, ...]
    is_complete: bool


@dataclasses.dataclass(frozen=True)
class Unanswered:
    """No answer, and why: a stop, a fault, a session that was cut or a program that failed."""

    why: str


Answer = Threshold | Between | Word | Jumps | Unanswered


@dataclasses.dataclass(frozen=True)
class Outcome:
    """An answer, the digits E that it was found with, and why no greater E was asked for, where that isn't the limit."""

    answer: Answer
    digits: int = 1
    halted: str = ""

    @property
    def is_whole(self) -> bool:
        """Whether a greater E would give the same."""
        if isinstance(self.answer, Jumps):
            return self.answer.is_complete
        return isinstance(self.answer, Threshold | Word)


class NotUnderstood(Exception):
    """A line that no answer of these questions has."""


def one_line(line: str) -> Answer:
    """The answer that has one line."""
    if line.startswith("threshold "):
        return Threshold(line.removeprefix("threshold "))
    if found := BETWEEN.fullmatch(line):
        return Between(*found.groups())
    if line in WORDS:
        return Word(line)
    if line.startswith("stopped "):
        return Unanswered(line)
    raise NotUnderstood(line)


def read(text: str) -> Answer:
    """The answer to the one question of a session."""
    lines = [line.removeprefix("1: ") for line in text.splitlines()]
    if len(lines) == 1 and lines[0] not in ("complete", "incomplete"):
        return one_line(lines[0])
    jumps, gaps = [], []
    for line in lines[:-1]:
        if found := JUMP.fullmatch(line):
            jumps.append(Jump(*found.groups()))
        elif found := OPEN.fullmatch(line):
            gaps.append(Between(*found.groups()))
        else:
            raise NotUnderstood(line)
    if not lines or lines[-1] not in ("complete", "incomplete"):
        raise NotUnderstood(lines[-1] if lines else "no answer")
    return Jumps(tuple(jumps), tuple(gaps), lines[-1] == "complete")
