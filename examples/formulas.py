"""Formulas for a few kinds of answers, over the terms of polynomials: pairs of exponents and a coefficient."""

import functools
import itertools
import math
from fractions import Fraction

Term = tuple[tuple[int, ...], int]
Monomial = tuple[int, ...]
Monomials = frozenset[Monomial]

FAR = 2000  # digits: more than the periods of the fractions here


def below(x: Fraction, power: int) -> int:
    """The digits of x before this power of the base, as one number, where x has infinitely many digits that aren't 0."""
    return math.ceil(x * power) - 1


def power_of_carry(parts: list[Fraction], p: int) -> int | None:
    """The power of p before whose digit the digits of these numbers add without carrying; nothing where all do."""
    before = 1
    for _ in range(FAR):
        power = before * p
        if sum(below(x, power) - p * below(x, before) for x in parts) > p - 1:
            return before
        before = power
    return None


def threshold_of_powers(exponents: list[int], p: int) -> Fraction:
    """The F-pure threshold at the origin of x1^a1 + .. + xn^an (Hernández 2015): where the digits of the 1/ai add without
    carrying, it is their sum; else the sum of the digits before the first carry, and one unit of the last of them."""
    parts = [Fraction(1, a) for a in exponents]
    before = power_of_carry(parts, p)
    return sum(parts) if before is None else Fraction(sum(below(x, before) for x in parts) + 1, before)


def powers(terms: list[Term]) -> list[int] | None:
    """The exponents of a sum of powers of different variables, nothing where the terms aren't such a sum."""
    found = [[a for a in exponents if a] for exponents, _ in terms]
    places = {next((i for i, a in enumerate(exponents) if a), None) for exponents, _ in terms}
    is_sum = all(len(one) == 1 for one in found) and len(places) == len(terms)
    return [one[0] for one in found] if is_sum else None


def corners(first: Monomial, second: Monomial) -> list[tuple[Fraction, Fraction]]:
    """The corners of the splitting polytope of two terms: the s, t from 0 on with s a_i + t b_i at most 1 for each i."""
    lines = [(a, b, 1) for a, b in zip(first, second)] + [(1, 0, 0), (0, 1, 0)]
    found = set()
    for (a, b, c), (d, e, f) in itertools.combinations(lines, 2):
        if a * e != b * d:
            s, t = Fraction(c * e - b * f, a * e - b * d), Fraction(a * f - c * d, a * e - b * d)
            if min(s, t) >= 0 and all(s * i + t * j <= 1 for i, j in zip(first, second)):
                found.add((s, t))
    return sorted(found)


def greatest_corner(first: Monomial, second: Monomial) -> list[Fraction] | None:
    """The point of the splitting polytope with the greatest sum, nothing where there are several."""
    found = corners(first, second)
    most = max(map(sum, found))
    points = [point for point in found if sum(point) == most]
    return list(points[0]) if len(points) == 1 else None


def threshold_of_two(terms: list[Term], p: int) -> Fraction | None:
    """The F-pure threshold at the origin of a polynomial with two terms whose polytope has one greatest point with digits
    that add without carrying: their sum (Hernández 2016). Nothing for others."""
    if len(terms) != 2:
        return None
    point = greatest_corner(terms[0][0], terms[1][0])
    return sum(point) if point and all(point) and power_of_carry(point, p) is None else None


def is_pure(terms: list[Term], p: int) -> bool:
    """Whether f^(p-1) has a term with all exponents below p (Fedder 1983): f is F-pure at the origin exactly then, and
    its threshold there is 1 exactly then. Terms with a greater exponent are left out on the way."""
    power = {tuple(0 for _ in terms[0][0]): 1}
    for _ in range(p - 1):
        found: dict[Monomial, int] = {}
        for monomial, c in power.items():
            for exponents, d in terms:
                product = tuple(a + b for a, b in zip(monomial, exponents))
                if max(product) < p:
                    found[product] = (found.get(product, 0) + c * d) % p
        power = {monomial: c for monomial, c in found.items() if c}
    return bool(power)


def rank(rows: list[list[int]], p: int) -> int:
    """The rank of a matrix over GF(p)."""
    found = 0
    rows = [[a % p for a in row] for row in rows]
    while rows:
        first = rows.pop()
        place = next((i for i, a in enumerate(first) if a), None)
        if place is not None:
            found += 1
            inverse = pow(first[place], -1, p)
            rows = [[(a - b * row[place] * inverse) % p for a, b in zip(row, first)] for row in rows]
    return found


def has_monomial_roots(terms: list[Term], p: int) -> bool:
    """Whether different products of d terms, d below p, have different residues modulo p, for each d. Then the parts of
    f^d times a monomial are monomials, and so are the Frobenius roots of powers of f."""
    return rank([[*exponents, 1] for exponents, _ in terms], p) == len(terms)


def least(monomials: set[Monomial]) -> Monomials:
    """Those that no other one divides."""
    divides = lambda a, b: a != b and all(map(int.__le__, a, b))
    return frozenset(b for b in monomials if not any(divides(a, b) for a in monomials))


def counts(terms: int, whole: int) -> list[Monomial]:
    """How often each term is taken in a product of so many terms."""
    bars = itertools.combinations(range(whole + terms - 1), terms - 1)
    return [tuple(b - a - 1 for a, b in itertools.pairwise((-1, *chosen, whole + terms - 1))) for chosen in bars]


def roots_of_powers(terms: list[Term], p: int, e: int) -> list[Monomials]:
    """The Frobenius roots at e of f^m for each m below p^e, as monomials, where `has_monomial_roots`.

    By the digits of m: the root of f^(d q + m) at one e more is the root at 1 of f^d times that of f^m.
    A product of d terms stands in f^d with a multinomial coefficient, which isn't 0 modulo p.
    """
    monomial = lambda taken: tuple(sum(n * a[i] for n, (a, _) in zip(taken, terms)) for i in range(len(terms[0][0])))
    products = [least({monomial(taken) for taken in counts(len(terms), d)}) for d in range(p)]

    @functools.cache
    def root(d: int, gens: Monomials) -> Monomials:
        return least({tuple((a + b) // p for a, b in zip(one, other)) for one in products[d] for other in gens})

    found = [frozenset({tuple(0 for _ in terms[0][0])})]
    for _ in range(e):
        found = [root(d, gens) for d in range(p) for gens in found]
    return found
