"""Problems from tuples: the tables of their texts, and errors that name the part."""

import unittest

from pallihun import Const, Problem, ProblemError, Var

SAME = [
    ("f(x,a), a | M = y | N", dict(left=[("f", "x", "a"), "a"], left_labels=["M"], right=["y"], right_labels=["N"])),
    ("{} = {}", dict()),
    ("| G D = p, q", dict(left_labels=["G", "D"], right=["p", "q"])),
    ("?foo, x(), f(x(),?b), foo = x", dict(left=[Var("foo"), ("x",), ("f", Const("x"), Var("b")), "foo"], right=["x"])),
    ("g(f(x),f(y)) = f(x) | K'", dict(left=[("g", ("f", "x"), ("f", "y"))], right=[("f", "x")], right_labels=["K'"])),
    ("f, f(f), f(f,f), 0 = ", dict(left=["f", ("f", "f"), ("f", ("f",), "f"), "0"])),
]

NAME = "a name, a Var or a tuple is expected, and here is"
LABEL = "a label, which begins with an upper-case letter, is expected, and here is"
SECOND = "the label M stands here a second time: a label stands once in a problem"

ERRORS = [
    ("left[1]: a term is expected, and here is the label M", dict(left=["a", "M"])),
    ("left[0], argument 2: a term is expected, and here is the label M", dict(left=[("f", "a", "M")])),
    (f"right[0], argument 1, argument 2: {NAME} 7", dict(right=[("f", ("g", "a", 7))])),
    (f"right[0]: {NAME} 'f(a)'", dict(right=["f(a)"])),
    (f"right[0]: {NAME} ''", dict(right=[""])),
    (f"left[0]: {NAME} 'a\\n'", dict(left=["a\n"])),
    (f"left[0]: {NAME} ['f', 'a']", dict(left=[["f", "a"]])),
    (f"left[0]: {NAME} 'a b'", dict(left=[Var("a b")])),
    ("left[0]: a term is expected, and here is an empty tuple", dict(left=[()])),
    ("left[0]: x is a variable, which has no arguments", dict(left=[("x", "a")])),
    ("left[0]: foo is a variable, which has no arguments", dict(left=[(Var("foo"), "a")])),
    ("left[8]: this is one term too many: a side has at most 8", dict(left=["a"] * 9)),
    ("right[0], argument 9: this is one argument too many: f has at most 8", dict(right=[("f",) + ("a",) * 9])),
    ("left: a list of terms is expected, and here is 'abc'", dict(left="abc")),
    ("right_labels: a list of labels is expected, and here is 'MN'", dict(right_labels="MN")),
    (f"left_labels[1]: {LABEL} 'm'", dict(left_labels=["M", "m"])),
    (f"right_labels[0]: {LABEL} 1", dict(right_labels=[1])),
    (f"right_labels[0]: {SECOND}", dict(left_labels=["M"], right_labels=["M"])),
    (f"left_labels[1]: {SECOND}", dict(left_labels=["M", "M"])),
    ("left_labels[4]: this is one label too many: a side has at most 4", dict(left_labels=list("ABCDE"))),
]


def nested(levels):
    term = "a"
    for _ in range(levels):
        term = ("f", term)
    return term


class Tuples(unittest.TestCase):
    def test_text_and_tuples_give_the_same_table(self):
        for text, parts in SAME:
            with self.subTest(text):
                self.assertEqual(Problem(**parts).table(), Problem.parse(text).table())
                self.assertEqual(str(Problem(**parts)), str(Problem.parse(text)))

    def test_every_error_names_its_part(self):
        for message, parts in ERRORS:
            with self.subTest(message):
                with self.assertRaises(ProblemError) as caught:
                    Problem(**parts)
                self.assertEqual(str(caught.exception), message)
                self.assertIsInstance(caught.exception, ValueError)

    def test_limits_of_the_whole_problem(self):
        variables = [("f", *(f"x{number}" for number in range(start, start + 8))) for start in range(0, 64, 8)]
        Problem(left=variables)
        with self.assertRaisesRegex(ProblemError, r"^right\[0\], argument 1: y is one variable too many"):
            Problem(left=variables, right=[("f", "y")])
        with self.assertRaisesRegex(ProblemError, r"^right\[0\]: b is one node too many"):
            Problem(left=[nested(255)], right=["b"])
        wide = "a"
        for _ in range(64):
            wide = ("f",) + (wide,) * 8
        Problem(left=[wide])
        with self.assertRaisesRegex(ProblemError, r"^right\[0\]: g has too many arguments: .* 512 in all"):
            Problem(left=[wide], right=[("g", "a")])

    def test_levels(self):
        self.assertEqual(len(Problem(left=[nested(255)]).nodes), 256)
        for levels in [256, 20000]:
            self.assertRaisesRegex(ProblemError, "one node too many", Problem, [nested(levels)])

    def test_tuples_that_are_gone(self):
        """Each tuple is made anew and dropped, so that Python may give a later one the place of an earlier one."""
        left = (("f", ("g", f"a{number}")) for number in range(8))
        right = (("h", ("k", f"b{number}")) for number in range(8))
        problem = Problem(left, (), right, ())
        self.assertEqual([problem.spell(term) for term in problem.right], [f"h(k(b{number}))" for number in range(8)])

    def test_var(self):
        self.assertEqual(Var("a"), Var("a"))
        self.assertEqual(len({Var("a"), Var("a"), Var("b")}), 2)
        self.assertNotEqual(Var("a"), "a")
        self.assertEqual(repr(Var("a")), "Var('a')")


if __name__ == "__main__":
    unittest.main()
