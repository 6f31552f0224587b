"""Listings with names: the examples of the scope, and that every entry makes the sides equal."""

import itertools
import random
import re
import unittest
from collections import Counter

from pallihun import FullError, Problem, Unification

VARIABLE = re.compile(r"\b[u-z][a-z0-9]*")


def texts(problem):
    return [str(entry) for entry in Problem.parse(problem).listing()]


def digits(problem):
    return [entry.digits for entry in Problem.parse(problem).listing()]


def random_term(random_numbers, depth):
    kind = random_numbers.randrange(6 if depth else 4)
    if kind < 2:
        return random_numbers.choice("xyz")
    if kind < 4:
        return random_numbers.choice("ab")
    name, count = random_numbers.choice([("f", 1), ("g", 2), ("f", 2)])
    return (name, *(random_term(random_numbers, depth - 1) for _ in range(count)))


def random_problem(random_numbers, most_terms):
    def terms():
        return [random_term(random_numbers, 2) for _ in range(random_numbers.randrange(most_terms + 1))]

    labels = ["M", "N"][: random_numbers.randrange(3)], ["K", "L"][: random_numbers.randrange(3)]
    return Problem(terms(), labels[0], terms(), labels[1])


def choices(problem):
    """Every string of digits in which no right term is paired twice and each one without a partner is in a label."""
    n, m = len(problem.left), len(problem.right)
    left_digits = [range(1, m + len(problem.right_labels) + 1)] * n
    right_digits = [range(len(problem.left_labels) + 1)] * m
    for choice in itertools.product(*left_digits, *right_digits):
        paired = [digit for digit in choice[:n] if digit <= m]
        if len(set(paired)) == len(paired) and all((j in paired) == (choice[n + j - 1] == 0) for j in range(1, m + 1)):
            yield choice


def admissible(problem, choice):
    """Whether the pairs of a choice have a common unifier: that of two terms that have them as arguments."""
    m = len(problem.right)
    pairs = [(left, problem.right[digit - 1]) for left, digit in zip(problem.left, choice) if digit <= m]
    sides = ["p(" + ",".join(problem.spell(pair[side]) for pair in pairs) + ")" for side in (0, 1)]
    return Problem.parse(" = ".join(sides)).unify().unified


class Examples(unittest.TestCase):
    def test_example_1(self):
        problem = Problem.parse("{a, a | M} = {a | N}")
        table = [12, 4, 16, 0, 16, 2, 18, 1, 19, 1, 20, 1, 1, 1, 0, 0, 0, 0, 1, 0, 2]
        table[13] = 0  # the number of the name a
        self.assertEqual(problem.table(), table)
        self.assertEqual([entry.words for entry in problem.listing()], [(1, 2, 0), (2, 1, 0), (2, 2, 1)])

    def test_example_2(self):
        listing = Problem.parse("{a, a | M} = {a | N}").listing(8)
        self.assertEqual((listing.finished, len(listing.entries)), (False, 2))

    def test_examples_3_to_6(self):
        self.assertEqual(texts("="), ["both sides are empty"])
        self.assertEqual(texts("a | M ="), [])
        self.assertEqual(texts("a = | N"), ["a in N; N = {a}"])
        self.assertEqual(texts("| M = "), ["M = {}"])

    def test_example_7(self):
        problem = Problem.parse("f(x), f(y) = f(a), f(a)")
        self.assertEqual([entry.digits for entry in problem.listing()], [(1, 2, 0, 0), (2, 1, 0, 0)])
        for entry in problem.listing():
            self.assertEqual(entry.bindings, {"x": "a", "y": "a"})
            self.assertEqual(entry.pairs, [("f(x)", "f(a)"), ("f(y)", "f(a)")])

    def test_examples_8_to_12(self):
        answers = [
            ("x = f(x)", "occurs"),
            ("f(x,a) = f(g(x),b)", "clash"),
            ("p(x,x) = p(f(x),a)", "clash"),
            ("f(a) = f(a,a)", "clash"),
            ("y = x", "unified; x = y"),
            ("f(x,?b) = f(?b,a)", "unified; x = a, ?b = a"),
            ("a = a", "unified"),
        ]
        for text, answer in answers:
            with self.subTest(text):
                self.assertEqual(str(Problem.parse(text).unify()), answer)

    def test_unifying_chosen_terms(self):
        problem = Problem.parse("a, f(x) = b, f(a) | N")
        self.assertEqual(problem.unify(1, 1).bindings, {"x": "a"})
        clash = problem.unify()
        self.assertEqual((clash.unified, clash.answer, clash.bindings), (False, Unification.CLASH, {}))

    def test_pairs_are_unified_together(self):
        listing = Problem.parse("x, x = a, b").listing()
        self.assertEqual((listing.finished, listing.entries), (True, []))

    def test_a_rule_with_two_premises(self):
        self.assertEqual(digits("| G, D = p, q"), [(1, 1), (1, 2), (2, 1), (2, 2)])
        self.assertEqual(texts("| G, D = p, q")[1], "p in G, q in D; G = {p}, D = {q}")


class Entries(unittest.TestCase):
    def test_the_text_of_an_entry(self):
        self.assertEqual(
            texts("f(x,a), a | M = y | N"),
            [
                "f(x,a) with y, a in N; y = f(x,a); M = {..}, N = {a, ..}",
                "f(x,a) in N, a with y; y = a; M = {..}, N = {f(x,a), ..}",
                "f(x,a) in N, a in N, y in M; M = {y, ..}, N = {f(x,a), a, ..}",
            ],
        )

    def test_the_parts_of_an_entry(self):
        entry = Problem.parse("f(x), a | M = f(g(y)), y, x | N, K").listing().entries[0]
        self.assertEqual(entry.digits, (1, 2, 0, 0, 1))
        self.assertEqual(entry.pairs, [("f(x)", "f(g(y))"), ("a", "y")])
        self.assertEqual(entry.bindings, {"x": "g(a)", "y": "a"})
        self.assertEqual(entry.labels, {"M": ["g(a)"], "N": [], "K": []})
        self.assertTrue(entry.rests)
        self.assertEqual(repr(entry), "<entry 1 2 0 0 1: " + str(entry) + ">")

    def test_labels_are_counted_on_their_side(self):
        self.assertEqual(texts("a = | N, K"), ["a in N; N = {a}, K = {}", "a in K; N = {}, K = {a}"])
        self.assertEqual(texts("| N, K = a"), ["a in N; N = {a}, K = {}", "a in K; N = {}, K = {a}"])
        self.assertEqual(texts("a, b | M = b | N, K")[-1], "a in K, b in K, b in M; M = {b, ..}, N = {..}, K = {a, b, ..}")

    def test_rests_only_with_labels_on_both_sides(self):
        for text, rests in [("| M = | N", True), ("| M =", False), ("= | N", False), ("=", False)]:
            with self.subTest(text):
                entry, = Problem.parse(text).listing()
                self.assertEqual((entry.rests, ".." in str(entry)), (rests, rests))

    def test_variables_with_one_value(self):
        entry, = Problem.parse("g(x,y) = g(y,z)").listing()
        self.assertEqual(entry.bindings, {"x": "x", "y": "x", "z": "x"})
        self.assertEqual(str(entry), "g(x,y) with g(y,z); y = x, z = x")


class FullListings(unittest.TestCase):
    def test_a_full_listing_does_not_look_finished(self):
        for lent, fitted in [(8, 2), (2, 0)]:
            with self.subTest(lent=lent):
                listing = Problem.parse("{a, a | M} = {a | N}").listing(lent)
                self.assertEqual((listing.finished, listing.full, len(listing.entries)), (False, True, fitted))
                self.assertTrue(listing)
                self.assertRaises(FullError, len, listing)
                self.assertRaises(FullError, list, listing)
                self.assertEqual(str(listing).split("\n")[0], f"full {fitted}")
                self.assertIn(f"full {fitted}", repr(listing))
                seen = 0
                with self.assertRaisesRegex(FullError, f"more entries than the {fitted} that fit into {lent} words"):
                    for _ in listing:
                        seen += 1
                self.assertEqual(seen, fitted)

    def test_a_finished_listing(self):
        listing = Problem.parse("{a, a | M} = {a | N}").listing(9)
        self.assertEqual((listing.finished, listing.full, len(listing), len(list(listing))), (True, False, 3, 3))
        self.assertTrue(listing)
        self.assertFalse(Problem.parse("a = b").listing())
        self.assertEqual(str(Problem.parse("a = b").listing()), "entries 0")


class RandomProblems(unittest.TestCase):
    def test_every_entry_makes_the_sides_equal(self):
        """With empty rests: its values are put for the variables, its contents for the labels."""
        random_numbers, entries = random.Random(1), 0
        for _ in range(400):
            problem = random_problem(random_numbers, 3)
            for entry in problem.listing():
                self.assert_equal_sides(problem, entry)
                entries += 1
        self.assertGreater(entries, 2000)

    def assert_equal_sides(self, problem, entry):
        values, contents = entry.values(None), entry.contents(None)

        def put_in(terms, labels):
            replaced = [VARIABLE.sub(lambda name: values[name.group()], problem.spell(term)) for term in terms]
            return Counter(replaced + [term for label in labels for term in contents[label]])

        left, right = put_in(problem.left, problem.left_labels), put_in(problem.right, problem.right_labels)
        self.assertEqual(left, right, f"{problem}: {entry}")
        for value in values.values():
            self.assertEqual(VARIABLE.sub(lambda name: values[name.group()], value), value, f"{problem}: {entry}")

    def test_every_admissible_choice_is_an_entry(self):
        random_numbers, found = random.Random(2), 0
        for _ in range(150):
            problem = random_problem(random_numbers, 2)
            expected = [choice for choice in choices(problem) if admissible(problem, choice)]
            self.assertEqual([entry.digits for entry in problem.listing()], expected, str(problem))
            found += len(expected)
        self.assertGreater(found, 200)

    def test_text_reads_back(self):
        random_numbers = random.Random(3)
        for _ in range(300):
            problem = random_problem(random_numbers, 4)
            self.assertEqual(Problem.parse(str(problem)).table(), problem.table(), str(problem))


if __name__ == "__main__":
    unittest.main()
