#!/usr/bin/env python3
"""Tests of the table: families, answers, formats and pictures, and whole runs on stored answers.

`python3 -B table/tests/test_table.py`
"""

import contextlib
import csv
import importlib.util
import io
import pathlib
import sys
import tempfile
import unittest
import xml.etree.ElementTree
from fractions import Fraction

HERE = pathlib.Path(__file__).resolve().parent
sys.path[:0] = [str(HERE.parent), str(HERE)]

import answers
import family
import picture
import staircase
import text
from answers import Between, Jump, Jumps, Threshold, Unanswered, Word
from stored import Stored

SPEC = importlib.util.spec_from_file_location("whole", HERE.parent / "__main__.py")
whole = importlib.util.module_from_spec(SPEC)
SPEC.loader.exec_module(whole)


def ran(*words: str) -> tuple[int, str, str]:
    """The status of a run, what it prints, and what it tells as an error."""
    printed, told = io.StringIO(), io.StringIO()
    with contextlib.redirect_stdout(printed), contextlib.redirect_stderr(told):
        status = whole.main(list(words), Stored)
    return status, printed.getvalue(), told.getvalue()


class Families(unittest.TestCase):
    def texts(self, templates: list[str], *ranges: str) -> list[str]:
        return [member.text for member in family.members(templates, [family.read_range(given) for given in ranges])]

    def test_ranges(self):
        self.assertEqual(self.texts(["x^{a}+y^{b}"], "a=2..3", "b=a..3"), ["x^2+y^2", "x^2+y^3", "x^3+y^3"])
        self.assertEqual(self.texts(["x^{a}"], "a=1,4..8:2"), ["x^1", "x^4", "x^6", "x^8"])
        self.assertEqual(self.texts(["x^{2*(n-1)}", "y"], "n=2..3"), ["x^2", "x^4", "y"])

    def test_names(self):
        found = family.members(["A_{n}: x^2+y^{n+1}"], [family.read_range("n=3")])
        self.assertEqual([(member.name, member.text) for member in found], [("A_3", "x^2+y^4")])

    def test_refusals(self):
        for templates, ranges, why in [
            (["x^{a}"], [], "no range"),
            (["x"], ["a=2"], "no polynomial has the parameter a"),
            (["x^{a}"], ["a=2", "a=3"], "two ranges"),
            (["x^{a"], ["a=1..2"], "no polynomial has"),
            (["x^{a}}"], ["a=2"], "a brace"),
            (["x^{a/2}"], ["a=2"], "alone"),
            (["x^{a}"], ["a=3..2"], "no member"),
            (["x^{a}"], ["a=1..99999"], "more than"),
            (["E_8:"], [], "no polynomial"),
        ]:
            with self.assertRaises(family.FamilyError) as caught:
                self.texts(templates, *ranges)
            self.assertIn(why, str(caught.exception))

    def test_variables(self):
        self.assertEqual(family.variables(["x10+y*x2", "w"]), ["w", "x2", "x10", "y"])


class Answers(unittest.TestCase):
    def test_one_line(self):
        self.assertEqual(answers.read("1: threshold 4/5\n"), Threshold("4/5"))
        self.assertEqual(answers.read("1: between 3/4 and 1\n"), Between("3/4", "1"))
        self.assertEqual(answers.read("1: off\n"), Word("off"))
        self.assertEqual(answers.read("1: stopped pairs\n"), Unanswered("stopped pairs"))

    def test_lists(self):
        found = answers.read("1: jump 1 = (y^3+x^2, z)\n1: open (3/4, 1)\n1: incomplete\n")
        self.assertEqual(found, Jumps((Jump("1", "(y^3+x^2, z)"),), (Between("3/4", "1"),), False))

    def test_what_is_not_understood(self):
        for written in ["", "1: 5/6\n", "1: jump 1\n1: complete\n", "1: jump 1 = (x)\n1: perhaps\n"]:
            with self.assertRaises(answers.NotUnderstood):
                answers.read(written)


class Staircases(unittest.TestCase):
    def test_complete(self):
        parts = staircase.staircase(Jumps((Jump("4/5", "(y, x)"), Jump("1", "(f)")), (), True))
        self.assertEqual([(part.low, part.high, part.level, part.ideal) for part in parts],
                         [(0, Fraction(4, 5), 0, "(1)"), (Fraction(4, 5), 1, 1, "(y, x)"), (1, 1, 2, "(f)")])
        self.assertEqual(staircase.levels(parts), 3)

    def test_gaps(self):
        gaps = (Between("0", "1/3"), Between("2/3", "1"))
        parts = staircase.staircase(Jumps((Jump("1/3", "(x)"), Jump("1", "(x^3)")), gaps, False))
        kinds = [(type(part).__name__, part.low, part.high, part.level) for part in parts]
        third, two = Fraction(1, 3), Fraction(2, 3)
        self.assertEqual(kinds, [("Gap", 0, third, 0), ("Step", third, two, 2), ("Gap", two, 1, 2), ("Step", 1, 1, 4)])

    def test_an_ideal_that_is_not_told(self):
        parts = staircase.staircase(Jumps((Jump("1", "(f)"),), (Between("0", "1/2"),), False))
        self.assertEqual([part.ideal for part in parts[1:]], ["", "(f)"])


class Notation(unittest.TestCase):
    def test_latex(self):
        self.assertEqual(text.latex_math("2*x1^10*y+3*4"), r"2x_{1}^{10}y+3\cdot 4")
        self.assertEqual(text.latex_math("(x, y^2)"), "(x, y^{2})")
        self.assertEqual(text.latex_name("E_8"), "$E_{8}$")
        self.assertEqual(text.latex_name("50% of it"), r"50\% of it")

    def test_places_spread(self):
        self.assertEqual(picture.spread([10, 11], [0, 20], 0, 100), [10, 30])
        self.assertEqual(picture.spread([90, 99], [0, 20], 0, 100), [80, 100])
        self.assertIsNone(picture.spread([1, 2, 3], [0, 60, 60], 0, 100))


class Runs(unittest.TestCase):
    def test_thresholds(self):
        status, printed, _ = ran("--primes", "2,5", "cusp: x^2+y^3", "x*y")
        self.assertEqual((status, printed), (0, THRESHOLDS))

    def test_side_by_side(self):
        self.assertEqual(ran("--jobs", "4", "--primes", "2,5", "cusp: x^2+y^3", "x*y")[1], THRESHOLDS)

    def test_a_gap(self):
        status, printed, _ = ran("--primes", "5", "--digits", "1", "--format", "markdown", "x^2+y^3", "x*y")
        self.assertEqual(status, 0)
        self.assertIn("| `x^2+y^3` | between 3/4 and 1 |", printed)
        self.assertIn("- between a and b: the threshold lies inside", printed)

    def test_latex(self):
        printed = ran("--primes", "2,5", "--format", "latex", "cusp: x^2+y^3", "x*y")[1]
        self.assertIn(r"cusp & $x^{2}+y^{3}$ & $1/2$ & $4/5$ \\", printed)
        self.assertIn(r"\toprule", printed)

    def test_csv(self):
        printed = ran("--ask", "jumps", "--primes", "5", "--digits", "1", "--format", "csv", "x^2+y^3")[1]
        rows = list(csv.reader(io.StringIO(printed)))
        self.assertEqual(rows[1:], [["", "x^2+y^3", "5", "1", "jump", "1", "", "(y^3+x^2)"],
                                    ["", "x^2+y^3", "5", "1", "open", "3/4", "1", ""],
                                    ["", "x^2+y^3", "5", "1", "incomplete", "", "", ""]])

    def test_jumps(self):
        printed = ran("--ask", "jumps", "--primes", "2,5", "--format", "markdown", "x^2+y^3")[1]
        self.assertIn("| p = 5 | 4/5, 1 |", printed)
        self.assertNotIn("incomplete", printed)

    def test_ideals(self):
        printed = ran("--ask", "jumps", "--primes", "5", "--ideals", "x^2+y^3")[1]
        self.assertIn("x^2+y^3   5       4/5   (y, x)\n", printed)

    def test_purity(self):
        status, printed, _ = ran("--ask", "fpure", "--primes", "2,7", "--variables", "x,y,z", "x^3+y^3+z^3", "x*y, x*z, y*z")
        self.assertEqual(status, 0)
        self.assertIn("x*y, x*z, y*z   yes     yes", printed)
        self.assertIn("x^3+y^3+z^3     no      yes", printed)

    def test_a_stop(self):
        status, printed, _ = ran("--primes", "5", "--budget", "1", "--ideal", "x^2,x*y+y^2", "x^2")
        self.assertEqual(status, 3)
        self.assertIn("stopped pairs", printed)
        self.assertIn("nothing is said", printed)

    def test_a_constant(self):
        status, printed, _ = ran("--primes", "5", "5*x")
        self.assertEqual(status, 2)
        self.assertIn("fault Constant", printed)

    def test_a_bad_prime(self):
        status, printed, told = ran("--primes", "5,4", "x^2")
        self.assertEqual((status, printed), (2, ""))
        self.assertEqual(told, "fjcalc-table: the ring over GF(4): fault Prime at 1:6 (the program takes no such prime)\n  ring 4 x\n       ^\n")

    def test_a_bad_polynomial(self):
        status, _, told = ran("--primes", "5", "x^2+*y")
        self.assertEqual(status, 2)
        self.assertIn("the polynomial x^2+*y: fault Syntax at 2:14", told)
        self.assertIn("  poly f = x^2+*y\n               ^\n", told)

    def test_a_program_that_fails(self):
        status, _, told = ran("--primes", "5", "x^77")
        self.assertEqual(status, 8)
        self.assertIn("not stored", told)

    def test_a_program_that_is_not_there(self):
        told = io.StringIO()
        with contextlib.redirect_stderr(told):
            self.assertEqual(whole.main(["--primes", "5", "x", "--program", "/no/such"]), 8)
        self.assertIn("/no/such does not run", told.getvalue())

    def test_wrong_words(self):
        for words, why in [
            (["x"], "--primes"),
            (["--primes", "5"], "no polynomial is given"),
            (["--primes", "5", "--svg", "a.svg", "x"], "--svg is for --ask jumps"),
            (["--primes", "5", "--ask", "jumps", "--point", "0", "x"], "no --point"),
            (["--primes", "p", "x"], "isn't a number"),
            (["--primes", "5", "7"], "no variable"),
        ]:
            status, _, told = ran(*words)
            self.assertEqual(status, 1)
            self.assertIn(why, told)

    def test_picture(self):
        with tempfile.TemporaryDirectory() as folder:
            file = pathlib.Path(folder) / "a.svg"
            ran("--ask", "jumps", "--primes", "2,5", "--digits", "1", "--svg", str(file), "cusp: x^2+y^3")
            drawn = file.read_text()
        xml.etree.ElementTree.fromstring(drawn)
        self.assertIn("url(#open)", drawn)
        self.assertIn(">3/4<", drawn)
        self.assertIn("incomplete", drawn)

    def test_picture_of_the_manual(self):
        with tempfile.TemporaryDirectory() as folder:
            file = pathlib.Path(folder) / "a.svg"
            ran("--ask", "jumps", "--primes", "2,3,5,7", "--svg", str(file), "E_8: x^3+y^5")
            self.assertEqual(file.read_text(), (HERE.parent.parent / "docs" / "staircase.svg").read_text())


THRESHOLDS = """F-pure thresholds at the origin, in GF(p)[x, y]

name   f         p = 2   p = 5
------------------------------
cusp   x^2+y^3   1/2     4/5
       x*y       1       1
"""

if __name__ == "__main__":
    unittest.main()
