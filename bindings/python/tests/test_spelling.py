"""Terms that double at each level are cut. Spelt whole, with 2^120 symbols, they would not end."""

import unittest

from pallihun import Problem
from pallihun.spelling import LIMIT


def doubled(term, levels):
    for _ in range(levels):
        term = ("f", term, term)
    return term


class Spelling(unittest.TestCase):
    def assert_cut(self, text):
        self.assertEqual(len(text), LIMIT + 1)
        self.assertTrue(text.startswith("f(f(f(") and text.endswith("…"))

    def test_a_term_that_doubles(self):
        problem = Problem(left=[doubled("x", 120)], left_labels=["M"], right=["y"], right_labels=["N"])
        self.assertEqual(len(problem.nodes), 122)
        paired, put = problem.listing()
        self.assert_cut(paired.bindings["y"])
        self.assert_cut(put.labels["N"][0])
        self.assert_cut(paired.pairs[0][0])
        self.assertLess(len(str(problem) + str(paired) + str(put)), 10 * LIMIT)

    def test_two_terms_that_double(self):
        entry, = Problem(left=[doubled("x", 120)], right=[doubled(("g", "y", "a"), 120)]).listing()
        self.assertEqual(entry.bindings, {"x": "g(y,a)", "y": "y"})

    def test_values_that_double(self):
        """Each variable has twice the variable before it as its value."""
        left = [("p", *(f"x{8 * row + place + 1}" for place in range(8))) for row in range(7)]
        right = [("p", *(doubled(f"x{8 * row + place}", 2) for place in range(8))) for row in range(7)]
        entry = Problem(left=[("q", *left)], right=[("q", *right)]).listing().entries[0]
        self.assertEqual(entry.bindings["x1"], "f(f(x0,x0),f(x0,x0))")
        self.assert_cut(entry.bindings["x56"])
        self.assertIn("x56 = f(f(f(", str(entry))

    def test_the_limit(self):
        problem = Problem.parse("f(aa,b) =")
        term, = problem.left
        self.assertEqual(problem.spell(term, 7), "f(aa,b)")
        self.assertEqual(problem.spell(term, 6), "f(aa,b…")
        self.assertEqual(problem.spell(term, 3), "f(a…")
        self.assertEqual(problem.spell(term, 0), "…")
        self.assertEqual(len(Problem([doubled("a", 12)]).spell(12, None)), 5 * 2**12 - 4)


if __name__ == "__main__":
    unittest.main()
