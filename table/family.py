"""Families of polynomials: templates such as `x^{a}+y^{b}`, the ranges of their parameters, and the members they have.

No algebra is done here. A template is text; what stands in its braces is a whole number, calculated from parameters by
`+`, `-`, `*` and parentheses, and the rest is handed to the program as it is.
"""

import ast
import dataclasses
import itertools
import re
from typing import Iterator

MOST = 10_000
PLACE = re.compile(r"\{([^{}]*)\}")
WORD = re.compile(r"[A-Za-z_][A-Za-z0-9_]*")


class FamilyError(Exception):
    """What is wrong with a template or a range, in words for the user."""


@dataclasses.dataclass(frozen=True)
class Member:
    """A polynomial of the family, or for F-purity the generators of an ideal, with its name, which may be empty."""

    name: str
    text: str

    @property
    def label(self) -> str:
        """The name, or the polynomial where there is no name."""
        return self.name or self.text


def value(expression: str, known: dict[str, int]) -> int:
    """The whole number that an expression in known parameters stands for."""
    try:
        tree = ast.parse(expression.strip(), mode="eval")
    except (SyntaxError, ValueError):
        raise FamilyError(f"'{expression}' isn't a whole number or an expression in parameters") from None
    return value_of(tree.body, expression, known)


def value_of(node: ast.expr, expression: str, known: dict[str, int]) -> int:
    """The same for a piece of the expression."""
    match node:
        case ast.Constant(value=int(number)) if not isinstance(number, bool):
            return number
        case ast.Name(id=name) if name in known:
            return known[name]
        case ast.Name(id=name):
            raise FamilyError(f"the parameter {name} in '{expression}' has no range: give one, as --with {name}=2..5")
        case ast.UnaryOp(op=ast.USub(), operand=inner):
            return -value_of(inner, expression, known)
        case ast.BinOp(left=left, op=ast.Add() | ast.Sub() | ast.Mult() as sign, right=right):
            first, second = value_of(left, expression, known), value_of(right, expression, known)
            return {ast.Add: first + second, ast.Sub: first - second, ast.Mult: first * second}[type(sign)]
    raise FamilyError(f"'{expression}' may have whole numbers, parameters, +, -, * and parentheses alone")


@dataclasses.dataclass(frozen=True)
class Range:
    """The values of a parameter: pieces `m`, `m..n` or `m..n:step`, in which earlier parameters may stand."""

    name: str
    pieces: tuple[str, ...]

    def values(self, known: dict[str, int]) -> list[int]:
        """The values, where the earlier parameters are known."""
        found: list[int] = []
        for piece in self.pieces:
            first, dots, rest = piece.partition("..")
            last, _, step = rest.partition(":")
            low = value(first, known)
            high = value(last, known) if dots else low
            stride = value(step, known) if step else 1
            if stride < 1:
                raise FamilyError(f"the step of the range {self.name}={piece} isn't positive")
            found.extend(itertools.islice(range(low, high + 1, stride), MOST + 1))
        return found


def read_range(text: str) -> Range:
    """The range that is written as `a=2..5,7`."""
    name, mark, rest = text.partition("=")
    pieces = tuple(piece.strip() for piece in rest.split(","))
    if not mark or not WORD.fullmatch(name.strip()) or not all(pieces):
        raise FamilyError(f"'{text}' isn't a range: write NAME=FIRST..LAST, as a=2..5, or NAME=VALUE,VALUE")
    return Range(name.strip(), pieces)


def parameters(template: str) -> set[str]:
    """The words in the braces of a template."""
    return {word for place in PLACE.findall(template) for word in WORD.findall(place)}


def choices(ranges: list[Range], known: dict[str, int]) -> Iterator[dict[str, int]]:
    """Each choice of values for these parameters, the first of them changing slowest."""
    if not ranges:
        yield known
        return
    for chosen in ranges[0].values(known):
        yield from choices(ranges[1:], known | {ranges[0].name: chosen})


def needed(template: str, ranges: list[Range]) -> list[Range]:
    """The ranges that a template uses, and those that stand in them."""
    wanted = parameters(template)
    for given in reversed(ranges):
        if given.name in wanted:
            wanted |= {word for piece in given.pieces for word in WORD.findall(piece)}
    return [given for given in ranges if given.name in wanted]


def filled(template: str, known: dict[str, int]) -> str:
    """The template with a number for each brace."""
    text = PLACE.sub(lambda place: str(value(place[1], known)), template)
    if "{" in text or "}" in text:
        raise FamilyError(f"a brace of '{template}' is not closed or not opened")
    return text


def members(templates: list[str], ranges: list[Range]) -> list[Member]:
    """The members of the family, template by template. `NAME: TEXT` gives a template a name, itself a template."""
    unused = [given.name for given in ranges if all(given not in needed(text, ranges) for text in templates)]
    if unused:
        raise FamilyError(f"no polynomial has the parameter {unused[0]} in braces, as x^{{{unused[0]}}}")
    if len({given.name for given in ranges}) < len(ranges):
        raise FamilyError("a parameter has two ranges")
    found: list[Member] = []
    for template in templates:
        name, mark, text = template.rpartition(":")
        for known in choices(needed(template, ranges), {}):
            member = Member(filled(name, known).strip(), filled(text, known).strip())
            if not member.text:
                raise FamilyError(f"'{template}' has no polynomial")
            found.append(member)
            if len(found) > MOST:
                raise FamilyError(f"the family has more than {MOST} members")
    if not found:
        raise FamilyError("the family has no member")
    return found


def variables(texts: list[str]) -> list[str]:
    """The words of polynomials, sorted as a reader would: x2 before x10."""
    words = {word for text in texts for word in WORD.findall(text)}
    return sorted(words, key=lambda word: [int(piece) if piece.isdigit() else piece for piece in re.split(r"(\d+)", word)])
