"""The command line."""

import os
import subprocess
import sys
import unittest

PYTHON = os.path.dirname(os.path.dirname(os.path.abspath(__file__)))


def run(*arguments, given="", folder=PYTHON, command=("-m", "pallihun"), **environment):
    return subprocess.run(
        [sys.executable, *command, *arguments],
        cwd=folder,
        env={**os.environ, "PYTHONIOENCODING": "utf-8", "PYTHONDONTWRITEBYTECODE": "1", **environment},
        input=given,
        stdout=subprocess.PIPE,
        stderr=subprocess.PIPE,
        universal_newlines=True,
    )


class Command(unittest.TestCase):
    def assert_answers(self, done, status, out, error=""):
        self.assertEqual((done.returncode, done.stdout, done.stderr), (status, out, error))

    def test_a_listing(self):
        out = (
            "{a, a | M} = {a | N}\n"
            "entries 3\n"
            "1 2 0  a with a, a in N; M = {..}, N = {a, ..}\n"
            "2 1 0  a in N, a with a; M = {..}, N = {a, ..}\n"
            "2 2 1  a in N, a in N, a in M; M = {a, ..}, N = {a, a, ..}\n"
        )
        self.assert_answers(run("a, a | M = a | N"), 0, out)
        folder = os.path.join("python", "pallihun")
        self.assert_answers(run("a, a | M = a | N", folder=os.path.dirname(PYTHON), command=(folder,)), 0, out)

    def test_no_entry(self):
        none = "No terms for the variables and multisets for the labels make the two sides equal."
        self.assert_answers(run("a = b"), 0, f"{{a}} = {{b}}\nentries 0\n{none}\n")

    def test_an_entry_of_no_words(self):
        self.assert_answers(run("="), 0, "{} = {}\nentries 1\nboth sides are empty\n")

    def test_full(self):
        out = "{a} = {a}\nfull 0\nThere are more entries: lend more words with --lent.\n"
        self.assert_answers(run("a = a", "--lent", "1"), 0, out)

    def test_table(self):
        self.assert_answers(run("--table", "a | M ="), 0, "12 4 16 0 16 1 17 1 18 0 18 0 1 0 0 0 0 1\n")
        self.assert_answers(run("--table", "=", PALLIHUN_LIBRARY="/nowhere"), 0, "12 0 12 0 12 0 12 0 12 0 12 0\n")

    def test_unify(self):
        self.assert_answers(run("--unify", "f(x,y) = f(y,a)"), 0, "unified; x = a, y = a\n")
        self.assert_answers(run("--unify", "x = f(x)"), 0, "occurs\n")
        error = "line 1, column 1: to unify, a term is expected on each side\n  = a\n  ^\n"
        self.assert_answers(run("--unify", "= a"), 2, "", error)

    def test_wrong_text(self):
        error = "line 1, column 6: a term is expected, and here is '='\n  f(a, = b\n       ^\n"
        self.assert_answers(run("f(a, = b"), 2, "", error)

    def test_lines(self):
        done = run("--unify", given="a = x\n\n# passed over\nf( = b\nb = b\n")
        error = "line 4, column 4: a term is expected, and here is '='\n  f( = b\n     ^\n"
        self.assert_answers(done, 2, "unified; x = a\nunified\n", error)
        self.assert_answers(run(given=""), 0, "")

    def test_wrong_options(self):
        for arguments in [["--lent", "-1", "="], ["--lent", "many", "="], ["--lent", "1000000000000", "="], ["=", "="]]:
            with self.subTest(" ".join(arguments)):
                done = run(*arguments)
                self.assertEqual((done.returncode, done.stdout), (2, ""))
                self.assertIn("usage:", done.stderr)

    def test_no_library(self):
        done = run("a = a", PALLIHUN_LIBRARY="/nowhere")
        self.assertEqual((done.returncode, done.stdout), (1, ""))
        self.assertIn("make lib", done.stderr)
        self.assertNotIn("Traceback", done.stderr)

    def test_output_without_the_cutting_sign(self):
        long_name = "a" * 400
        done = run(f"{long_name} = x", PYTHONIOENCODING="ascii")
        self.assertEqual((done.returncode, done.stderr), (0, ""))
        self.assertIn("a\\u2026", done.stdout)


if __name__ == "__main__":
    unittest.main()
