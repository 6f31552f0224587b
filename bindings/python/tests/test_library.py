"""The operations on lists of words, against the project's stored examples and its header."""

import os
import re
import subprocess
import sys
import unittest

from pallihun import Checked, Listed, Unification, check, entry_words, list_entries, list_lent, unify, unify_lent
from pallihun import nodes

PYTHON = os.path.dirname(os.path.dirname(os.path.abspath(__file__)))
PROJECT = os.path.dirname(os.path.dirname(PYTHON))

EXAMPLE_1 = [12, 4, 16, 0, 16, 2, 18, 1, 19, 1, 20, 1, 1, 1, 0, 0, 0, 0, 1, 0, 2]


def lines(name):
    with open(os.path.join(PROJECT, "crates", "examples", name), encoding="utf-8") as file:
        return file.read().splitlines()


def questions():
    """Each line of the stored examples: its name, the numbers of its name, its table and the line that answers it."""
    for question, answered in zip(lines("stdin"), lines("stdout")):
        name, words = question.split(":")
        numbers = [int(number) for number in re.findall("[0-9]+", name)]
        yield name, numbers, [int(word) for word in words.split()], answered


def lent_words(lent):
    return list(range(9000, 9000 + lent))


def spelt(name, answer, words):
    """The line of an answer, with every lent word."""
    return f"{name}: {answer}" + ("," if words else "") + "".join(f" {word}" for word in words)


def unify_line(name, table, a, b, lent):
    answer, words = unify_lent(table, a, b, lent_words(lent))
    return answer, spelt(name, f"refused {answer}" if answer.refused else answer.name.lower(), words)


def list_line(name, table, lent):
    answer, entries, words = list_lent(table, lent_words(lent))
    first = {Listed.FINISHED: f"entries {entries}", Listed.FULL: f"full {entries}"}
    return answer, spelt(name, first.get(answer, f"refused {answer}"), words)


def check_line(name, table):
    answer = check(table)
    return answer, spelt(name, f"refused {answer}" if answer.refused else answer.name.lower(), [])


class StoredExamples(unittest.TestCase):
    def test_there_is_an_answer_to_every_line(self):
        self.assertEqual(len(lines("stdin")), len(lines("stdout")))
        self.assertGreater(len(lines("stdin")), 300)

    def test_every_line_has_its_answer_and_lent_words(self):
        for name, numbers, table, answered in questions():
            with self.subTest(name):
                if name.startswith("unify "):
                    _, line = unify_line(name, table, *numbers[:3])
                elif name.startswith("list with "):
                    _, line = list_line(name, table, numbers[0])
                else:
                    _, line = check_line(name, table)
                self.assertEqual(line, answered)

    def test_each_answer_is_met(self):
        met, entries = set(), set()
        for name, numbers, table, _ in questions():
            if name.startswith("unify "):
                answer, _ = unify_line(name, table, *numbers[:3])
            elif name.startswith("list with "):
                answer, line = list_line(name, table, numbers[0])
                entries.add(": entries 0" in line)
            else:
                answer = check(table)
            met.add(repr(answer))
        for answer in [*Checked, *Unification, *Listed]:
            with self.subTest(repr(answer)):
                self.assertIn(repr(answer), met)
        self.assertEqual(entries, {False, True}, "finished listings of no entry and of some")

    def test_words_that_are_no_lent_words_are_the_same(self):
        """`unify` and `list_entries` give the words that the calls with lent words write."""
        for name, numbers, table, _ in questions():
            if name.startswith("unify "):
                a, b, lent = numbers[:3]
                answer, words = unify_lent(table, a, b, lent_words(lent))
                written = [word for word, before in zip(words, lent_words(lent)) if word != before]
                self.assertEqual(unify(table, a, b, lent), (answer, written), name)
            elif name.startswith("list with "):
                answer, count, words = list_lent(table, lent_words(numbers[0]))
                listing = list_entries(table, numbers[0])
                self.assertEqual((listing.answer, len(listing.entries)), (answer, count), name)
                self.assertEqual(sum(listing.entries, []), words[: count * entry_words(table)], name)


class Header(unittest.TestCase):
    """What the package repeats of include/pallihun.h."""

    def setUp(self):
        with open(os.path.join(PROJECT, "include", "pallihun.h"), encoding="utf-8") as file:
            found = re.findall(r"^#define PALLIHUN_([A-Z_]+) ([0-9]+)\b", file.read(), re.MULTILINE)
        self.header = {name: int(number) for name, number in found}

    def test_answers_have_the_numbers_of_the_header(self):
        for answer in [*Checked, *Unification, *Listed]:
            with self.subTest(repr(answer)):
                self.assertEqual(self.header[answer.name], answer)

    def test_limits_are_those_of_the_header(self):
        for name in ["MAX_NODES", "MAX_ARGUMENTS", "MAX_TERMS", "MAX_LABELS", "MAX_COUNT"]:
            with self.subTest(name):
                self.assertEqual(self.header[name], getattr(nodes, name))
        self.assertEqual(self.header["MAX_VARIABLE"] + 1, nodes.MAX_VARIABLES)


class Words(unittest.TestCase):
    def test_entry_words(self):
        self.assertEqual(entry_words(EXAMPLE_1), 3)
        self.assertEqual(entry_words(EXAMPLE_1[:-1]), 0)

    def test_full_and_finished(self):
        entries = [[1, 2, 0], [2, 1, 0], [2, 2, 1]]
        self.assertEqual(list_entries(EXAMPLE_1), (Listed.FINISHED, entries))
        self.assertEqual(list_entries(EXAMPLE_1, 9), (Listed.FINISHED, entries))
        self.assertEqual(list_entries(EXAMPLE_1, 8), (Listed.FULL, entries[:2]))
        self.assertEqual(list_entries(EXAMPLE_1, 0), (Listed.FULL, []))

    def test_binding_words_of_a_table_with_sides(self):
        """Example 7: f(x) with f(a) gives x the node of a, and leaves y."""
        nodes_and_arguments = [1, 1, 0, 0, 0, 0, 0, 0, 0, 1, 0, 0, 1, 3, 0, 1, 1, 3, 1, 1, 1, 3, 2, 1, 1, 2, 0]
        table = [12, 24, 36, 3, 39, 2, 41, 0, 41, 2, 43, 0] + nodes_and_arguments + [3, 4, 5, 5]
        self.assertEqual(unify(table, 3, 5), (Unification.UNIFIED, [0, 2]))
        self.assertEqual(list_entries(table), (Listed.FINISHED, [[1, 2, 0, 0, 0, 0], [2, 1, 0, 0, 0, 0]]))

    def test_a_refusal_is_a_value(self):
        self.assertEqual(check([]), Checked.TOO_FEW_WORDS)
        self.assertEqual(unify(EXAMPLE_1, 0, 1), (Unification.NOT_A_NODE, []))
        self.assertEqual(list_entries(EXAMPLE_1[:-1]), (Listed.BROKEN_PAIR, []))

    def test_words_outside_their_range(self):
        for word in [-1, 2**32, 2**64]:
            calls = [
                lambda: check(EXAMPLE_1 + [word]),
                lambda: entry_words([word]),
                lambda: list_entries([word] + EXAMPLE_1),
                lambda: unify(EXAMPLE_1, word, 0),
                lambda: unify(EXAMPLE_1, 0, word),
                lambda: unify_lent(EXAMPLE_1, 0, 0, [word]),
                lambda: list_lent(EXAMPLE_1, [0, word]),
            ]
            for number, call in enumerate(calls):
                with self.subTest(word=word, call=number):
                    self.assertRaisesRegex(ValueError, f"is {word}, which is outside", call)
        self.assertEqual(check([2**32 - 1] * 12), Checked.BROKEN_PAIR)

    def test_words_that_are_no_numbers(self):
        self.assertRaises(TypeError, check, [1.5])
        self.assertRaises(TypeError, check, ["12"])

    def test_lent_below_0(self):
        self.assertRaises(ValueError, list_entries, EXAMPLE_1, -1)


class Finding(unittest.TestCase):
    def call(self, library):
        code = "import pallihun; print(int(pallihun.check([])))"
        environment = dict(os.environ, PALLIHUN_LIBRARY=library, PYTHONPATH=PYTHON, PYTHONDONTWRITEBYTECODE="1")
        pipe = subprocess.PIPE
        command = [sys.executable, "-c", code]
        return subprocess.run(command, env=environment, stdout=pipe, stderr=pipe, universal_newlines=True)

    def test_a_named_library_that_is_not_there(self):
        failed = self.call("/nowhere/libpallihun.so")
        self.assertNotEqual(failed.returncode, 0)
        self.assertIn("OSError", failed.stderr)
        self.assertIn("/nowhere/libpallihun.so", failed.stderr)
        self.assertIn("make lib", failed.stderr)

    def test_a_named_library_that_is_another(self):
        failed = self.call("libc.so.6")
        self.assertNotEqual(failed.returncode, 0)
        self.assertIn("pallihun_check", failed.stderr)

    def test_a_named_library(self):
        named = os.environ.get("PALLIHUN_LIBRARY", os.path.join(PROJECT, "target", "lib", "libpallihun.so"))
        self.assertEqual(self.call(named).stdout, "1\n")


if __name__ == "__main__":
    unittest.main()
