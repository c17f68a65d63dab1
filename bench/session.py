"""Sessions of fjcalc as data, as far as the peers know their questions, and polynomials as the session language prints them."""

import dataclasses
import re


@dataclasses.dataclass
class Question:
    number: int
    order: str
    words: list[str]


@dataclasses.dataclass
class Session:
    prime: int
    variables: list[str]
    polynomials: dict[str, str]
    ideals: dict[str, list[str]]
    points: dict[str, list[str]]
    lets: dict[str, list[str]]
    questions: list[Question]


def split_at_commas(text: str) -> list[str]:
    """The pieces between the commas that stand in no parentheses."""
    pieces, depth, start = [], 0, 0
    for place, sign in enumerate(text):
        depth += {"(": 1, ")": -1}.get(sign, 0)
        if sign == "," and depth == 0:
            pieces.append(text[start:place].strip())
            start = place + 1
    return pieces + [text[start:].strip()]


def read(text: str) -> Session:
    """The session, which has no fault."""
    session = Session(0, [], {}, {}, {}, {}, [])
    order = "grevlex"
    for line in text.splitlines():
        line = line.partition("#")[0].strip()
        word, _, rest = line.partition(" ")
        if word == "ring":
            prime, _, names = rest.partition(" ")
            session.prime, session.variables = int(prime), split_at_commas(names)
        elif word == "order":
            order = rest.strip()
        elif word == "poly":
            name, _, value = rest.partition("=")
            session.polynomials[name.strip()] = value.strip()
        elif word == "ideal":
            name, _, value = rest.partition("=")
            session.ideals[name.strip()] = split_at_commas(value.strip()[1:-1])
        elif word == "point":
            name, _, value = rest.partition("=")
            session.points[name.strip()] = split_at_commas(value.strip()[1:-1])
        elif word == "let":
            name, _, question = rest.partition("=")
            session.lets[name.strip()] = question.split()
        elif word == "ask":
            session.questions.append(Question(len(session.questions) + 1, order, rest.split()))
    return session


Term = tuple[tuple[int, ...], int]


def key(order: str, exponents: tuple[int, ...]) -> tuple[int, ...]:
    """What monomials are compared by: the greater key is the greater monomial."""
    if order == "lex":
        return exponents
    if order == "grlex":
        return (sum(exponents), *exponents)
    return (sum(exponents), *(-a for a in reversed(exponents)))


def terms_of(text: str, session: Session, order: str) -> list[Term]:
    """The terms of a sum of terms, falling in the order, with coefficients from 1 to p - 1."""
    terms: dict[tuple[int, ...], int] = {}
    for sign, body in re.findall(r"([+-]?)\s*([^+\-\s]+)", text):
        coefficient, exponents = (-1 if sign == "-" else 1), [0] * len(session.variables)
        for factor in body.split("*"):
            name, _, power = factor.partition("^")
            if name.isdigit():
                coefficient *= int(name)
            else:
                exponents[session.variables.index(name)] += int(power or 1)
        terms[tuple(exponents)] = (terms.get(tuple(exponents), 0) + coefficient) % session.prime
    nonzero = [(a, c) for a, c in terms.items() if c]
    return sorted(nonzero, key=lambda term: key(order, term[0]), reverse=True)


def printed_term(session: Session, exponents: tuple[int, ...], coefficient: int) -> str:
    factors = [name if a == 1 else f"{name}^{a}" for name, a in zip(session.variables, exponents) if a]
    if coefficient != 1 or not factors:
        factors.insert(0, str(coefficient))
    return "*".join(factors)


def printed(terms: list[Term], session: Session) -> str:
    return "+".join(printed_term(session, a, c) for a, c in terms) or "0"


def printed_ideal(members: list[str], session: Session, order: str) -> str:
    """The members of a reduced basis as fjcalc prints them: monic, rising by lead."""
    polynomials = [terms for terms in (terms_of(text, session, order) for text in members) if terms]
    monic = []
    for terms in polynomials:
        inverse = pow(terms[0][1], -1, session.prime)
        monic.append([(a, c * inverse % session.prime) for a, c in terms])
    monic.sort(key=lambda terms: key(order, terms[0][0]))
    return "(" + (", ".join(printed(terms, session) for terms in monic) or "0") + ")"
