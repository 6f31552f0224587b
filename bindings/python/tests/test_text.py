"""Problems from text: what is read, and every error with its line and column."""

import pickle
import unittest

from pallihun import ParseError, Problem, ProblemError

# The reason, the text, and the text up to the place that it speaks of.
ERRORS = [
    ("the character '&' has no meaning here", "f(a) & b = c", "f(a) "),
    ("the character '_' has no meaning here", "_a = b", ""),
    ("the character '?' has no meaning here", "f(? a) = b", "f("),
    ("the character 'é' has no meaning here", "aé = b", "a"),
    ("',' or ')' among the arguments of f is expected, and here is '='", "f(x, a = b", "f(x, a "),
    ("',' or ')' among the arguments of g is expected, and here is the end", "a = f(g(x", "a = f(g(x"),
    ("',', '|' or '=' is expected, and here is ')'", "f(a)) = b", "f(a)"),
    ("',', '|' or the end is expected, and here is ')'", "b = f(a))", "b = f(a)"),
    ("a term is expected, and here is ','", "a,, b = c", "a,"),
    ("a term is expected, and here is ','", "f(a,, b) = c", "f(a,"),
    ("a term is expected, and here is ')'", "f(a,) = c", "f(a,"),
    ("a term is expected, and here is the end", "a = f(", "a = f("),
    ("a term is expected, and here is '='", "a, = c", "a, "),
    ("a term is expected, and here is '('", "(a) = c", ""),
    ("',', '|' or '=' is expected, and here is the name b", "a b = c", "a "),
    ("'=' is expected, and here is the end", "a | N", "a | N"),
    ("'=' is expected, and here is the end", "  ", "  "),
    ("there is a second '='", "a = b = c", "a = b "),
    ("the label M stands here a second time", "a | M, M = b", "a | M, "),
    ("the label M stands here a second time", "a | M = b | N M", "a | M = b | N "),
    ("a term (labels stand after '|') is expected, and here is the label M", "a, M = b", "a, "),
    ("a term (labels stand after '|') is expected, and here is the label M", "f(M) = b", "f("),
    ("a label, which begins with an upper-case letter, is expected, and here is the name m", "a | m = b", "a | "),
    ("a label, which begins with an upper-case letter, is expected, and here is the variable ?m", "a | ?m = b", "a | "),
    ("a label, which begins with an upper-case letter, is expected, and here is '='", "a | = b", "a | "),
    ("a label, which begins with an upper-case letter, is expected, and here is ','", "a | M,, N = b", "a | M,"),
    ("',', a label or '=' is expected, and here is the name n", "a | M n = b", "a | M "),
    ("',', a label or '=' is expected, and here is '|'", "a | M | N = b", "a | M "),
    ("',', '|' or '}' is expected, and here is '='", "{a = b", "{a "),
    ("',', a label or '}' is expected, and here is the end", "a = {a | M", "a = {a | M"),
    ("a term, '|' or '}' is expected, and here is '{'", "{{a}} = b", "{"),
    ("',', '|' or '=' is expected, and here is '}'", "a} = b", "a"),
    ("'=' is expected, and here is the name b", "{a} b = c", "{a} "),
    ("the end is expected, and here is the name d", "{a} = {c} d", "{a} = {c} "),
    ("x is a variable, which has no arguments", "a, x(a) = b", "a, x"),
    ("?f is a variable, which has no arguments", "?f(a) = b", "?f"),
    ("?f is a variable, which has no arguments", "?f() = b", "?f"),
    ("this is one term too many: a side has at most 8", "a,a,a,a,a,a,a,a, b = c", "a,a,a,a,a,a,a,a, "),
    ("this is one term too many: a side has at most 8", "a = {b,b,b,b,b,b,b,b,c}", "a = {b,b,b,b,b,b,b,b,"),
    ("this is one label too many: a side has at most 4", "a | A B C D E = b", "a | A B C D "),
    ("this is one argument too many: f has at most 8", "g(f(a,a,a,a,a,a,a,a,b)) = c", "g(f(a,a,a,a,a,a,a,a,"),
]


def rows(name, count, each):
    """Terms of so many arguments, which are numbered through."""
    arguments = [each(number) for number in range(count)]
    return [f"{name}{start}({','.join(arguments[start:start + 8])})" for start in range(0, count, 8)]


class Errors(unittest.TestCase):
    def wrong(self, text):
        with self.assertRaises(ParseError) as caught:
            Problem.parse(text)
        return caught.exception

    def test_every_error_has_its_line_and_column(self):
        for reason, text, before in ERRORS:
            with self.subTest(text):
                error = self.wrong(text)
                self.assertEqual((error.line, error.column), (1, len(before) + 1))
                self.assertTrue(error.reason.startswith(reason), error.reason)
                message = f"line 1, column {len(before) + 1}: {error.reason}\n  {text}\n  {' ' * len(before)}^"
                self.assertEqual(str(error), message)

    def test_errors_are_value_errors(self):
        self.assertIsInstance(self.wrong("a"), ValueError)
        self.assertIsInstance(self.wrong("a"), ProblemError)

    def test_lines_are_counted(self):
        error = self.wrong("a,\n\tb |\nM, m = c\n")
        self.assertEqual((error.line, error.column), (3, 4))
        self.assertIn("\n  M, m = c\n     ^", str(error))
        with self.assertRaises(ParseError) as caught:
            Problem.parse("a", 7)
        self.assertEqual((caught.exception.line, caught.exception.column), (7, 2))

    def test_a_long_line_is_cut_around_the_place(self):
        error = self.wrong("f(" + "a" * 1000 + "&" + "a" * 1000 + ") = b")
        _, shown, caret = str(error).split("\n")
        self.assertEqual(shown[len(caret) - 1], "&")
        self.assertLess(len(shown), 120)

    def test_a_tab_keeps_its_place(self):
        self.assertTrue(str(self.wrong("a,\t& = b")).endswith("\n  a, & = b\n     ^"))

    def test_variables_over_the_limit(self):
        terms = rows("f", 65, lambda number: f"x{number}")
        Problem.parse(", ".join(terms[:8]) + " =")
        text = ", ".join(terms[:8]) + " = " + terms[8]
        error = self.wrong(text)
        self.assertEqual(error.column, text.index("x64") + 1)
        self.assertIn("x64 is one variable too many: a problem has at most 64", error.reason)

    def test_nodes_over_the_limit(self):
        for count, good in [(224, True), (225, False)]:
            # 224 constants stand in 28 applications of 8, and these in 4.
            constants = rows("f", count, lambda number: f"c{number}")
            packed = [f"g({','.join(constants[start:start + 8])})" for start in range(0, len(constants), 8)]
            text = ", ".join(packed[:4]) + " = " + ", ".join(packed[4:])
            with self.subTest(count=count):
                if good:
                    self.assertEqual(len(Problem.parse(text).nodes), 256)
                else:
                    error = self.wrong(text)
                    self.assertIn("is one node too many: a problem has at most 256", error.reason)
                    self.assertEqual(error.column, text.index("f224") + 1)

    def test_levels_over_the_limit(self):
        self.assertEqual(len(Problem.parse("f(" * 255 + "a" + ")" * 255 + " = ").nodes), 256)
        self.assertEqual(self.wrong("f(" * 256 + "a" + ")" * 256 + " = ").column, 1)
        self.assertEqual(self.wrong("f(" * 100000).column, 200001)

    def test_arguments_over_the_limit(self):
        rows_of_8 = ",".join("a" * 8)
        terms = [f"h{number}({rows_of_8})" for number in range(57)]
        packed = [f"g({','.join(terms[start:start + 8])})" for start in range(0, 56, 8)]
        text = ", ".join(packed) + " = "
        self.assertEqual(len(Problem.parse(text + "k(a,a,a,a,a,a,a,a)").table()) - len(Problem.parse(text).table()), 13)
        error = self.wrong(text + "k(a,a,a,a,a,a,a,a), k(a)")
        self.assertEqual(error.column, len(text + "k(a,a,a,a,a,a,a,a), ") + 1)
        self.assertIn("k has too many arguments: a problem has at most 512 in all", error.reason)

    def test_an_error_can_be_pickled(self):
        error = self.wrong("a,\nb")
        again = pickle.loads(pickle.dumps(error))
        self.assertEqual((str(again), again.line, again.column), (str(error), error.line, error.column))


class Reading(unittest.TestCase):
    def test_forms_of_one_problem(self):
        table = Problem.parse("f(x,a), a | M, N = y | K").table()
        forms = [
            "{f(x,a), a | M, N} = {y | K}",
            " f ( x , a ) ,a|M N=y|K ",
            "f(x,a),\na | M ,N\n= {y|K}",
            "g(u,b), b() | A B = ?foo | C",
        ]
        for form in forms:
            with self.subTest(form):
                self.assertEqual(Problem.parse(form).table(), table)

    def test_empty_sides(self):
        for text in ["=", " = ", "{} = {}", "{ } ="]:
            with self.subTest(text):
                self.assertEqual(Problem.parse(text).table(), [12, 0] * 6)
        self.assertEqual(Problem.parse("| M =").table(), [12, 0, 12, 0, 12, 0, 12, 1, 13, 0, 13, 0, 1])

    def test_variables_and_constants(self):
        problem = Problem.parse("x, x', u_1, ?a, a, x(), 0, t1 =")
        self.assertEqual(problem.variables, ("x", "x'", "u_1", "a"))
        spelt = [problem.spell(term) for term in problem.left]
        self.assertEqual(spelt, ["x", "x'", "u_1", "?a", "a", "x()", "0", "t1"])

    def test_equal_terms_share_a_node(self):
        problem = Problem.parse("f(x,a), f(x,a), a = f(x,a), f(a)")
        self.assertEqual(problem.left, (2, 2, 1))
        self.assertEqual(problem.right, (2, 3))
        self.assertEqual(problem.table()[12:-5], [0, 0, 0, 0, 1, 1, 0, 0, 1, 0, 0, 2, 1, 0, 2, 1, 0, 1, 1])

    def test_text_reads_back(self):
        for text in ["{f(x,a), a | M} = {y | N}", "{ | M, N} = {}", "{?foo, x(), g(x(),?b)} = {g(x)}"]:
            with self.subTest(text):
                self.assertEqual(str(Problem.parse(text)), text)
                self.assertEqual(repr(Problem.parse(text)), f"Problem.parse({text!r})")


if __name__ == "__main__":
    unittest.main()
