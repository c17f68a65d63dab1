"""The command line of `bin/fjcalc-table`."""

import argparse
import dataclasses
import pathlib
import sys

from family import FamilyError, Member, members, read_range, variables
from query import KINDS, Query
from tables import FORMATS

TOP = pathlib.Path(__file__).resolve().parent.parent

DESCRIPTION = """Asks the proved program bin/fjcalc about a family of polynomials over several primes, and prints a table of
F-pure thresholds, of F-jumping numbers in (0, 1], or of F-purity."""

EPILOG = """examples:
  bin/fjcalc-table --primes 2,3,5,7 'x^2+y^3' 'x^3+y^4'
  bin/fjcalc-table --primes 5,7,11 --with a=2..4 --with b=a..5 'x^{a}+y^{b}'
  bin/fjcalc-table --primes 2,3,5 --with n=4..8 --format latex 'D_{n}: x^2*y+y^{n-1}'
  bin/fjcalc-table --ask jumps --primes 5,7,11,13 --svg e8.svg 'E_8: x^3+y^5'
  bin/fjcalc-table --ask fpure --primes 2,3,5,7 'x^3+y^3+z^3' 'x*y, x*z, y*z'

The number E of digits is raised from 1 until an answer is settled, or up to --digits.
Status: 0; 1 for a wrong command line; 2 where a session has a fault; 3 where an answer is a stop or was cut;
8 where the program can't be run."""


class UsageError(Exception):
    """What is wrong with the command line, in words for the user."""


class Parser(argparse.ArgumentParser):
    """A parser whose refusals end with status 1."""

    def error(self, message: str):
        raise UsageError(f"{message} (--help says more)")


def positive(text: str) -> int:
    number = int(text)
    if number < 1:
        raise ValueError
    return number


def parser() -> Parser:
    made = Parser(prog="fjcalc-table", description=DESCRIPTION, epilog=EPILOG, formatter_class=argparse.RawDescriptionHelpFormatter)
    made.add_argument("polynomials", nargs="*", metavar="POLYNOMIAL", help="a polynomial, or a template with parameters in braces; NAME: POLYNOMIAL gives it a name. For F-purity the generators of an ideal, between commas")
    made.add_argument("--file", metavar="FILE", help="more of them, one a line; - is standard input. A # begins a comment")
    made.add_argument("--primes", required=True, metavar="P,P,..", help="the primes")
    made.add_argument("--with", dest="ranges", action="append", default=[], metavar="A=2..5", help="the values of a parameter: FIRST..LAST, FIRST..LAST:STEP, or several between commas; earlier parameters may stand in it")
    made.add_argument("--ask", choices=KINDS, default="threshold", help="what is asked; threshold where it is left out")
    made.add_argument("--variables", metavar="X,Y,..", help="the variables, in the order of the ring; those of the family, sorted, where it is left out")
    made.add_argument("--point", metavar="C,C,..", help="the point at which thresholds or F-purity are asked for; thresholds: the origin where it is left out")
    made.add_argument("--ideal", metavar="G,G,..", help="the generators of the ideal at which thresholds are asked for")
    made.add_argument("--digits", type=positive, metavar="E", help="the greatest number of digits to look with; the program's limit where it is left out")
    made.add_argument("--budget", type=positive, metavar="N", help="the turns that the program gives each basis")
    made.add_argument("--format", choices=FORMATS, default="text", help="text where it is left out")
    made.add_argument("--rows", choices=("polynomials", "primes"), help="what the rows are; primes for one polynomial, where it is left out")
    made.add_argument("--ideals", action="store_true", help="with --ask jumps: a row for each number, with its test ideal")
    made.add_argument("--svg", metavar="FILE", help="with --ask jumps: draws the staircases of test ideals")
    made.add_argument("--jobs", type=positive, default=1, metavar="N", help="how many sessions run side by side")
    made.add_argument("--seconds", type=float, metavar="S", help="the greatest time of a session")
    made.add_argument("--program", metavar="PATH", default=str(TOP / "bin" / "fjcalc"), help="the program; bin/fjcalc where it is left out")
    return made


@dataclasses.dataclass(frozen=True)
class Request:
    """What the command line asks for."""

    query: Query
    family: list[Member]
    primes: list[str]
    form: str
    layout: str
    svg: str | None
    jobs: int
    seconds: float | None
    program: str


def pieces(text: str) -> list[str]:
    """The pieces between commas."""
    return [piece.strip() for piece in text.split(",")]


def lines_of(name: str) -> list[str]:
    """The lines of a file that have more than a comment."""
    try:
        text = sys.stdin.read() if name == "-" else pathlib.Path(name).read_text()
    except (OSError, UnicodeDecodeError) as error:
        raise UsageError(f"{name} can't be read: {getattr(error, 'strerror', None) or 'it is no text'}") from None
    lines = [line.partition("#")[0].strip() for line in text.splitlines()]
    return [line for line in lines if line]


def primes_of(text: str) -> list[str]:
    """The numbers of the list; which of them are primes is for the program to say."""
    found = pieces(text)
    wrong = [piece for piece in found if not (piece.isascii() and piece.isdigit())]
    if wrong:
        raise UsageError(f"--primes has '{wrong[0]}', which isn't a number")
    return list(dict.fromkeys(found))


def query_of(asked: argparse.Namespace, family: list[Member]) -> Query:
    """The question, where the options go together."""
    if asked.ideal and (asked.ask != "threshold" or asked.point):
        raise UsageError("--ideal is for thresholds, in the place of --point")
    if asked.ask == "jumps" and asked.point:
        raise UsageError("F-jumping numbers have no --point")
    if asked.ask != "jumps" and (asked.svg or asked.ideals):
        raise UsageError(f"{'--svg' if asked.svg else '--ideals'} is for --ask jumps")
    if asked.ask == "fpure" and asked.digits:
        raise UsageError("F-purity has no --digits")
    names = pieces(asked.variables) if asked.variables else variables([member.text for member in family] + [asked.ideal or ""])
    if not names:
        raise UsageError("the family has no variable: --variables names them")
    point = tuple(pieces(asked.point)) if asked.point else None
    if asked.ask == "threshold" and not asked.ideal and point is None:
        point = ("0",) * len(names)
    return Query(asked.ask, tuple(names), point, asked.ideal or "", asked.digits, asked.budget)


def layout_of(asked: argparse.Namespace, family: list[Member]) -> str:
    if asked.ideals:
        return "long"
    rows = asked.rows or ("primes" if len(family) == 1 else "polynomials")
    return "tall" if rows == "primes" else "wide"


def read(words: list[str]) -> Request:
    """The request of a command line; UsageError says what is wrong with it."""
    asked = parser().parse_args(words)
    templates = asked.polynomials + (lines_of(asked.file) if asked.file else [])
    if not templates:
        raise UsageError("no polynomial is given (--help says more)")
    try:
        family = members(templates, [read_range(text) for text in asked.ranges])
    except FamilyError as error:
        raise UsageError(str(error)) from None
    query = query_of(asked, family)
    shape = layout_of(asked, family)
    return Request(query, family, primes_of(asked.primes), asked.format, shape, asked.svg, asked.jobs, asked.seconds, asked.program)
