#!/usr/bin/env python3
"""Compares stored answers of the gallery with Macaulay2 and with formulas. The program isn't run.

`examples/compare.py [--seconds S] [--formulas] [NAME ..]` takes the sessions NAME.session of this folder, all of them
where none is named. Every session is asked of Macaulay2, where it is installed, as `bench/peers.py` asks it: each
jumping number by `isFJumpingExponent`, each test ideal by `testIdeal`, each threshold at the origin by `fpt`, each
F-purity by `isFPure`. It is cut after S seconds of a processor for a session, 1800 where no S is given, and what it
answered before is compared; with `--formulas` it isn't asked. These answers are calculated here too, by `formulas.py`,
for polynomials whose terms are written out:

- F-pure thresholds at the origin of sums of powers of different variables, by Hernández 2015;
- those of polynomials that are F-pure at the origin by Fedder 1983: they are 1;
- those of polynomials with two terms where digits add without carrying, by Hernández 2016;
- F-purity at the origin of hypersurfaces, by Fedder 1983, and of monomial ideals: whether they are squarefree;
- lists of F-jumping numbers, and thresholds at the origin, by the Frobenius roots of all powers f^m, m below q, where
  these are monomial ideals for the reason that `formulas.has_monomial_roots` gives, q the greatest power of p up to
  65,536: the test ideal of f^(m/q) has to be that of the list for each m.

It isn't part of the tests, since Macaulay2 may take minutes for a session.
"""

import argparse
import functools
import math
import pathlib
import sys
from fractions import Fraction

import formulas

HERE = pathlib.Path(__file__).resolve().parent
sys.path[:0] = [str(HERE.parent / "bench"), str(HERE.parent / "table")]

from answers import Between, Jumps, Threshold, read as read_answer
from peers import Macaulay2, Unknown
from run import Settings, run_once
from session import Session, read, split_at_commas, terms_of
from staircase import Step, staircase

GREATEST = 65_536


def terms(text: str, session: Session) -> list[formulas.Term]:
    return terms_of(text, session, "grevlex")


def is_expanded(text: str) -> bool:
    return "(" not in text


def is_origin(session: Session, at: str) -> bool:
    return at in session.points and not any(map(int, session.points[at]))


def threshold(found: list[formulas.Term], p: int) -> Fraction | None:
    """The threshold at the origin that a formula gives."""
    exponents = formulas.powers(found)
    if exponents:
        return formulas.threshold_of_powers(exponents, p)
    return Fraction(1) if formulas.is_pure(found, p) else formulas.threshold_of_two(found, p)


def purity(gens: list[list[formulas.Term]], p: int) -> bool | None:
    """Whether the quotient is F-pure at the origin, by a formula."""
    if len(gens) == 1:
        return formulas.is_pure(gens[0], p)
    return all(max(one[0][0]) == 1 for one in gens) if all(len(one) == 1 for one in gens) else None


def by_formula(session: Session) -> dict[int, str]:
    """The answers that a formula gives, by the number of their question."""
    found = {}
    for question in session.questions:
        match question.words:
            case ["threshold", f, at, _] if is_origin(session, at) and is_expanded(session.polynomials[f]):
                exact = threshold(terms(session.polynomials[f], session), session.prime)
                if exact is not None:
                    found[question.number] = f"threshold {exact}"
            case ["fpure", j, at] if is_origin(session, at) and all(map(is_expanded, session.ideals.get(j, ["("]))):
                known = purity([terms(text, session) for text in session.ideals[j]], session.prime)
                if known is not None:
                    found[question.number] = "yes" if known else "no"
    return found


@functools.cache
def roots(text: str, names: tuple[str, ...], p: int) -> list[formulas.Monomials]:
    """The Frobenius roots of the powers of a polynomial below the greatest q, none where they aren't monomial ideals."""
    found = terms(text, Session(p, list(names), {}, {}, {}, {}, []))
    e = max(e for e in range(1, 17) if p**e <= GREATEST)
    return formulas.roots_of_powers(found, p, e) if formulas.has_monomial_roots(found, p) else []


def monomials(ideal: str, session: Session) -> formulas.Monomials:
    """The exponents of those members of a printed ideal that are monomials."""
    members = [terms(text, session) for text in split_at_commas(ideal[1:-1])]
    return frozenset(member[0][0] for member in members if len(member) == 1)


def fits_threshold(answer: Threshold | Between, found: list[formulas.Monomials]) -> bool:
    """Whether the roots of f^m are the unit ideal below the threshold and not from it on."""
    q = len(found)
    if isinstance(answer, Threshold):
        ends = [math.ceil(Fraction(answer.at) * q)] * 2
    else:
        ends = [math.floor(Fraction(answer.low) * q) + 1, math.ceil(Fraction(answer.high) * q)]
    is_unit = [not any(map(any, gens)) for gens in found]
    return all(is_unit[: ends[0]]) and not any(is_unit[ends[1] :])


def fits_list(answer: Jumps, found: list[formulas.Monomials], session: Session) -> bool:
    """Whether the roots of f^m are the test ideals of the list, where it tells them."""
    q = len(found)
    steps = [part for part in staircase(answer) if isinstance(part, Step) and part.ideal]
    at = lambda step: set(found[math.ceil(step.low * q) : math.ceil(step.high * q)])
    return all(at(step) <= {monomials(step.ideal, session)} for step in steps)


def answer_to(number: int, lines: list[str]) -> str:
    """The lines of the answer to one question, without its number."""
    return "\n".join(line.removeprefix(f"{number}: ") for line in lines if line.startswith(f"{number}: "))


def fits_formula(text: str, told: str) -> bool:
    """Whether what a formula gives is the answer, or a threshold inside the open gap that is told."""
    if told.startswith("between "):
        gap = read_answer(told)
        return Fraction(gap.low) < Fraction(text.removeprefix("threshold ")) < Fraction(gap.high)
    return text == told


def by_roots(session: Session, lines: list[str]) -> dict[int, bool]:
    """Which answers fit the Frobenius roots of powers, by the number of their question."""
    fits = {}
    for question in session.questions:
        match question.words:
            case ["jumps", f, _]:
                check = lambda answer, found: fits_list(answer, found, session)
            case ["threshold", f, at, _] if is_origin(session, at):
                check = fits_threshold
            case _:
                continue
        found = roots(session.polynomials[f], tuple(session.variables), session.prime) if is_expanded(session.polynomials[f]) else []
        if found:
            fits[question.number] = check(read_answer(answer_to(question.number, lines)), found)
    return fits


def by_macaulay(session: Session) -> tuple[list[str], bool] | None:
    """The lines that Macaulay2 gives, and whether it was cut, the question at which it was left out; nothing where it has no
    call for a question."""
    peer = Macaulay2()
    try:
        script = peer.script(session)
    except Unknown:
        return None
    timed = run_once(peer.command, script)
    lines = peer.answers(timed.lines, session)
    if not timed.was_cut:
        return lines, False
    numbers = [number_of(line) for line in lines if not line.endswith(": nothing")]
    return [line for line in lines if number_of(line) < max(numbers, default=1)], True


def number_of(line: str) -> int:
    return int(line.partition(":")[0])


def compare(name: str, is_asking: bool) -> bool:
    """Compares one session, prints what was found, and answers whether all agrees."""
    session = read((HERE / f"{name}.session").read_text())
    lines = (HERE / f"{name}.answers").read_text().splitlines()
    known = by_formula(session)
    wrong = [f"{n}: {text}, by a formula" for n, text in known.items() if not fits_formula(text, answer_to(n, lines))]
    fits = by_roots(session, lines)
    wrong += [f"{n}: not so, by the roots of powers" for n, is_so in fits.items() if not is_so]
    told = by_macaulay(session) if is_asking else None
    asked = "Macaulay2 not asked"
    if told is not None:
        others, was_cut = told
        reached = number_of(others[-1]) if others else 0
        own = [line for line in lines if not was_cut or number_of(line) <= reached]
        wrong += [f"{line}, by Macaulay2" for line in others if line not in own]
        wrong += [f"{line}, not by Macaulay2" for line in own if line not in others]
        asked = f"{len(others)} lines of Macaulay2" + (f", which was cut, of {len(lines)}" if was_cut else "")
    print(f"{name}: {len(known)} answers by formulas, {len(fits)} by roots of powers, {asked}: {'agree' if not wrong else 'DIFFER'}", flush=True)
    print(*[f"  {line}\n" for line in wrong], sep="", end="")
    return not wrong


def main() -> int:
    parser = argparse.ArgumentParser(description="Compares stored answers of the gallery with Macaulay2 and with formulas.")
    parser.add_argument("names", nargs="*", metavar="NAME", help="a session of this folder")
    parser.add_argument("--seconds", type=int, default=1800, metavar="S", help="cut Macaulay2 after so many seconds of a processor")
    parser.add_argument("--formulas", action="store_true", help="don't ask Macaulay2")
    asked = parser.parse_args()
    names = asked.names or sorted(path.stem for path in HERE.glob("*.session"))
    Settings.limit = asked.seconds
    is_asking = Macaulay2().is_installed() and not asked.formulas
    return 0 if all([compare(name, is_asking) for name in names]) else 1


if __name__ == "__main__":
    sys.exit(main())
