"""The sessions that are timed, by name, each for rising sizes. All are made here, from fixed seeds, but those that the
program generates, whose text is the words for it."""

import itertools
import random
from typing import Callable

LETTERS = "xyzuvwt"
PRIMES = [2, 3, 5, 7, 11, 13]
GREATEST = {2: 16, 3: 10, 5: 6, 7: 5, 11: 4, 13: 4}  # the greatest E for each prime

CURVE = "x^2*y+y^3*z+z^5"
QUARTIC = "x^3*y+y^3*z+z^3*x"
E8 = "x^2+y^3+z^5"


def monomial(exponents: tuple[int, ...]) -> str:
    return "*".join(f"{name}^{a}" for name, a in zip(LETTERS, exponents) if a) or "1"


def random_polynomial(source: random.Random, prime: int, variables: int, degree: int, terms: int, least: int = 0) -> str:
    """A sum of so many terms with random coefficients, their exponents random with a total from the least to the degree."""
    chosen = []
    for _ in range(terms):
        exponents = [0] * variables
        for _ in range(source.randint(least, degree)):
            exponents[source.randrange(variables)] += 1
        chosen.append(f"{source.randint(1, prime - 1)}*{monomial(tuple(exponents))}")
    return "+".join(chosen)


def ring(prime: int, variables: int) -> str:
    return f"ring {prime} {', '.join(LETTERS[:variables])}"


def parts(size: int) -> str:
    """One polynomial of so many terms in seven variables over GF(13)."""
    text = random_polynomial(random.Random(size), 13, 7, 100, size)
    return f"{ring(13, 7)}\npoly f = {text}\nask parts 0 f\n"


def products(size: int) -> str:
    """So many products of two polynomials of thirty terms."""
    source = random.Random(1)
    lines = [ring(13, 4)]
    for i in range(size):
        first, second = (random_polynomial(source, 13, 4, 20, 30) for _ in range(2))
        lines.append(f"poly f{i} = ({first})*({second})")
    return "\n".join(lines + [f"ask parts 0 f{size - 1}", ""])


def powers(size: int) -> str:
    """The power of x+y+1 with this exponent."""
    return f"{ring(13, 2)}\npoly f = (x+y+1)^{size}\nask parts 0 f\n"


def cyclic(size: int) -> str:
    """The cyclic roots of this order."""
    names = LETTERS[:size]
    sums = []
    for length in range(1, size):
        sums.append("+".join("*".join(names[(start + i) % size] for i in range(length)) for start in range(size)))
    sums.append("*".join(names) + "-1")
    return f"{ring(13, size)}\nideal J = ({', '.join(sums)})\nask basis J\n"


def katsura(size: int) -> str:
    """Katsura's equations in size + 1 variables."""
    at = lambda k: LETTERS[abs(k)] if abs(k) <= size else "0"
    lines = ["+".join(f"{at(k)}*{at(m - k)}" for k in range(-size, size + 1)) + f"-{at(m)}" for m in range(size)]
    lines.append("+".join(at(k) for k in range(-size, size + 1)) + "-1")
    return f"{ring(13, size + 1)}\nideal J = ({', '.join(lines)})\nask basis J\n"


def dense(source: random.Random, variables: int, degree: int) -> str:
    """A random polynomial over GF(13) with all its terms."""
    monomials = [m for m in itertools.product(range(degree + 1), repeat=variables) if sum(m) <= degree]
    return "+".join(f"{source.randint(0, 12)}*{monomial(m)}" for m in monomials)


def dense_ideal(source: random.Random, variables: int, degree: int, count: int) -> str:
    return f"({', '.join(dense(source, variables, degree) for _ in range(count))})"


def quadrics(size: int) -> str:
    """As many random quadrics, with all their terms, as there are variables."""
    return f"{ring(13, size)}\nideal J = {dense_ideal(random.Random(size), size, 2, size)}\nask basis J\n"


def cubics(size: int) -> str:
    """As many random cubics, with all their terms, as there are variables."""
    return f"{ring(13, size)}\nideal J = {dense_ideal(random.Random(size), size, 3, size)}\nask basis J\n"


def lex(size: int) -> str:
    """So many random quadrics in as many variables, by the order lex."""
    return f"{ring(13, size)}\nideal J = {dense_ideal(random.Random(size), size, 2, size)}\norder lex\nask basis J\n"


def minors_of(matrix: list[list[str]], size: int) -> list[str]:
    """The minors of this size, 2 or 3, expanded by their first row."""
    def determinant(rows: tuple[int, ...], columns: tuple[int, ...]) -> str:
        if len(rows) == 1:
            return matrix[rows[0]][columns[0]]
        signed = [
            ("-" if i % 2 else "+") + f"({matrix[rows[0]][c]})*({determinant(rows[1:], columns[:i] + columns[i + 1:])})"
            for i, c in enumerate(columns)
        ]
        return "".join(signed).removeprefix("+")

    rows = itertools.combinations(range(len(matrix)), size)
    return [determinant(r, c) for r in rows for c in itertools.combinations(range(len(matrix[0])), size)]


def minors(size: int) -> str:
    """The minors of this size of a 3 x 4 matrix of random linear forms in seven variables."""
    source = random.Random(size)
    form = lambda: "+".join(f"{source.randint(1, 12)}*{name}" for name in LETTERS)
    matrix = [[form() for _ in range(4)] for _ in range(3)]
    return f"{ring(13, 7)}\nideal J = ({', '.join(minors_of(matrix, size))})\nask basis J\n"


def high(size: int) -> str:
    """Three binomials of degree about a thousand, whose cofactors are long."""
    return f"{ring(13, 2).replace('x, y', 'y, x')}\nideal J = (x^206*y^794-y^760, x^145*y^687-x^232*y^573, x^371-x^441*y^373)\nask basis J\n"


def product(size: int) -> str:
    """The product of an ideal of two cubics and one of three quadrics in so many variables."""
    source = random.Random(size)
    first, second = dense_ideal(source, size, 3, 2), dense_ideal(source, size, 2, 3)
    return f"{ring(13, size)}\nideal J = {first}\nideal K = {second}\nask product J K\n"


def ideals(prime: int) -> str:
    """Sums, products, powers and roots of ideals of four to eight generators in three to five variables."""
    source = random.Random(prime)
    variables = 3 + prime % 3
    lines = [ring(prime, variables)]
    for name, count in [("J", 4), ("K", 6), ("L", 8)]:
        gens = [random_polynomial(source, prime, variables, 4, 3) for _ in range(count)]
        lines.append(f"ideal {name} = ({', '.join(gens)})")
    for j, k in [("J", "K"), ("J", "L"), ("K", "L")]:
        lines += [f"ask sum {j} {k}", f"ask product {j} {k}", f"ask same {j} {k}"]
    for j in "JKL":
        lines += [f"ask power 1 {j}", f"ask root 1 {j}"]
    return "\n".join(lines + [""])


def proper_ideals(prime: int) -> list[str]:
    """Ideals J, K and L of four, six and eight generators without a constant term, in three to five variables."""
    source = random.Random(prime)
    variables = 3 + prime % 3
    lines = [ring(prime, variables)]
    for name, count in [("J", 4), ("K", 6), ("L", 8)]:
        gens = [random_polynomial(source, prime, variables, 4, 2, least=2) for _ in range(count)]
        lines.append(f"ideal {name} = ({', '.join(gens)})")
    return lines


def meets(prime: int) -> str:
    """Meets of ideals of four to eight generators in three to five variables."""
    return "\n".join(proper_ideals(prime) + ["ask meet J K", "ask meet J L", "ask meet K L", ""])


def colons(prime: int) -> str:
    """Quotients of the same ideals."""
    return "\n".join(proper_ideals(prime) + [f"ask colon {j} {k}" for j, k in itertools.permutations("JKL", 2)] + [""])


def tests(prime: int) -> str:
    """Test ideals of one polynomial at many exponents: 48 over GF(2), 84 over GF(5)."""
    count, below = {2: (48, 24), 5: (84, 60)}[prime]
    asked = [f"ask test f {k}/{below}" for k in range(1, count + 1)]
    return "\n".join([ring(prime, 3), f"poly f = {CURVE}", *asked, ""])


# Moduli below which 7 has the multiplicative order 10, 100 and 1000: the lengths of the periods of their fractions.
MODULUS = {10: 11, 100: 101, 1000: 3001}


def period(size: int) -> str:
    """The test ideals of two curves over GF(7) at fractions with a period of so many digits."""
    modulus = MODULUS[size]
    lines = [ring(7, 2), "poly f = x^2+y^3", "poly g = x^5+y^4+x^2*y^2"]
    return "\n".join(lines + [f"ask test f {5 * modulus // 6 + 1}/{modulus}", f"ask test g {modulus // 2 + 1}/{modulus}", ""])


def nu(prime: int) -> Callable[[int], str]:
    """The greatest power of a polynomial outside of a Frobenius power of the maximal ideal, at this e."""
    return lambda e: f"{ring(prime, 3)}\npoly f = {CURVE}\nideal m = (x, y, z)\nask nu {e} f m\n"


def pure(*names: str) -> Callable[[int], str]:
    """Whether quotients are F-pure, over each prime."""
    def session(prime: int) -> str:
        lines = []
        for name in names:
            variables, gens = PURE[name]
            lines = lines or [ring(prime, variables)]
            lines += [f"ideal {name} = ({', '.join(gens)})", f"ask fpure {name}"]
        return "\n".join(lines + [""])

    return session


def nonfaces(vertices: int, facets: list[str]) -> list[str]:
    """The generators of a Stanley-Reisner ideal: the least sets of vertices that lie in no facet."""
    least: list[set[str]] = []
    for count in range(1, vertices + 1):
        for chosen in map(set, itertools.combinations(LETTERS[:vertices], count)):
            if not any(chosen <= set(facet) for facet in facets) and not any(smaller <= chosen for smaller in least):
                least.append(chosen)
    return ["*".join(sorted(chosen, key=LETTERS.index)) for chosen in least]


def fermat(degree: int) -> list[str]:
    return ["+".join(f"{name}^{degree}" for name in LETTERS[:degree])]


PLANE = ["xyz", "xyu", "xzv", "xuw", "xvw", "yzw", "yuv", "yvw", "zuv", "zuw"]  # the real projective plane on six vertices

# How many variables, and the generators.
PURE = {
    "matrix": (6, minors_of([["x", "y", "z"], ["u", "v", "w"]], 2)),
    "symmetric": (6, minors_of([["x", "y", "z"], ["y", "u", "v"], ["z", "v", "w"]], 2)),
    "segre": (5, ["x^3+y^3+z^3+u^3+v^3-(x+y+z+u+v)^3"]),
    "fermat3": (3, fermat(3)),
    "fermat4": (4, fermat(4)),
    "fermat5": (5, fermat(5)),
    "hexagon": (6, nonfaces(6, ["xy", "yz", "zu", "uv", "vw", "wx"])),
    "plane": (6, nonfaces(6, PLANE)),
}


def jumps(variables: int, polynomial: str, most: int = 16) -> Callable[[int], str]:
    """The jumping numbers of a polynomial at the greatest E that is at most this, over each prime."""
    return lambda prime: f"{ring(prime, variables)}\npoly f = {polynomial}\nask jumps f {min(most, GREATEST[prime])}\n"


def fifth(size: int) -> str:
    """The jumping numbers of x^5 over GF(2) at this E."""
    return f"ring 2 x\npoly f = x^5\nask jumps f {size}\n"


def generated(size: int) -> str:
    """The words by which the program answers the generated session of this number."""
    return f"gen {size}"


def thresholds(*places: str) -> Callable[[int], str]:
    """Thresholds of a cusp, a quartic and E_8 at these places, at the greatest E."""
    def session(prime: int) -> str:
        lines = [ring(prime, 3), "poly c = x^2+y^3", f"poly q = {QUARTIC}", f"poly g = {E8}"]
        lines += ["point O = (0, 0, 0)", "ideal J = (x^2, y^2, z^2)", "ideal K = (x, y^2, z^3)"]
        return "\n".join(lines + [f"ask threshold {f} {at} {GREATEST[prime]}" for f in "cqg" for at in places] + [""])

    return session


Workload = tuple[str, Callable[[int], str], list[int]]

WORKLOADS: list[Workload] = [
    ("parts", parts, [10, 100, 1000]),
    ("products", products, [10, 100, 1000]),
    ("powers", powers, [10, 20, 40]),
    ("cyclic", cyclic, [3, 4, 5, 6]),
    ("katsura", katsura, [3, 4, 5, 6]),
    ("quadrics", quadrics, [3, 4, 5, 6, 7]),
    ("cubics", cubics, [3, 4]),
    ("minors", minors, [2, 3]),
    ("lex", lex, [3]),
    ("high", high, [3]),
    ("product", product, [3, 4, 5]),
    ("ideals", ideals, PRIMES),
    ("meets", meets, PRIMES),
    ("colons", colons, PRIMES),
    ("tests", tests, [2, 5]),
    ("period", period, [10, 100, 1000]),
    ("nu5", nu(5), [1, 2, 4, 6]),
    ("nu13", nu(13), [1, 2, 4, 6]),
    ("matrix", pure("matrix"), PRIMES),
    ("symmetric", pure("symmetric"), PRIMES),
    ("segre", pure("segre"), PRIMES),
    ("fermat3", pure("fermat3"), PRIMES),
    ("fermat4", pure("fermat4"), PRIMES),
    ("fermat5", pure("fermat5"), PRIMES),
    ("complexes", pure("hexagon", "plane"), PRIMES),
    ("cusp", jumps(2, "x^2+y^3"), PRIMES),
    ("cusp-2", jumps(2, "x^2+y^3", 2), PRIMES),
    ("node", jumps(2, "x*y"), PRIMES),
    ("fifth", fifth, [4, 8, 12, 16]),
    ("e8", jumps(3, E8), PRIMES),
    ("quartic", jumps(3, QUARTIC), PRIMES),
    ("at-points", thresholds("O"), [5, 11]),
    ("at-ideals", thresholds("J", "K"), [5, 11]),
    ("gen", generated, [60, 250, 1000]),
]
