"""README.md and the package's first page show what happens."""

import doctest
import os
import re
import shlex
import unittest

import pallihun

from .test_command import PYTHON, run

README = os.path.join(PYTHON, "README.md")


def shown_commands():
    """Each command that README.md shows, with the lines below it."""
    with open(README, encoding="utf-8") as file:
        for block in re.findall(r"(?:^    .*\n)+", file.read(), re.MULTILINE):
            lines = [line[4:] for line in block.splitlines()]
            starts = [number for number, line in enumerate(lines) if line.startswith("$ ")]
            for start, end in zip(starts, starts[1:] + [len(lines)]):
                yield lines[start][2:], lines[start + 1 : end]


class Readme(unittest.TestCase):
    def test_commands(self):
        commands = list(shown_commands())
        self.assertGreaterEqual(len(commands), 5)
        for command, below in commands:
            with self.subTest(command):
                words = shlex.split(command)
                self.assertEqual(words[:3], ["python3", "-m", "pallihun"])
                done = run(*words[3:])
                self.assertEqual((done.stdout + done.stderr).splitlines(), below)

    def test_programs(self):
        failed, tried = doctest.testfile(README, module_relative=False, encoding="utf-8")
        self.assertEqual(failed, 0)
        self.assertGreater(tried, 8)

    def test_the_first_page(self):
        failed, tried = doctest.testmod(pallihun)
        self.assertEqual((failed, tried), (0, 2))


if __name__ == "__main__":
    unittest.main()
