"""Runs the tests. The last line is 'N passed, M failed', subtests counted; the exit status is 1 if one failed."""

import os
import sys
import unittest

sys.dont_write_bytecode = True
HERE = os.path.dirname(os.path.abspath(__file__))


class Counted(unittest.TextTestResult):
    """Results, with the tests and subtests that passed counted."""

    passed = 0

    def addSuccess(self, test):
        super().addSuccess(test)
        self.passed += 1

    def addSubTest(self, test, subtest, error):
        super().addSubTest(test, subtest, error)
        self.passed += error is None

    @property
    def failed(self):
        return len(self.failures) + len(self.errors) + len(self.unexpectedSuccesses)


def main():
    os.environ["PYTHONDONTWRITEBYTECODE"] = "1"
    sys.path.insert(0, HERE)
    tests = unittest.defaultTestLoader.discover(os.path.join(HERE, "tests"), top_level_dir=HERE)
    result = unittest.TextTestRunner(resultclass=Counted).run(tests)
    failed = result.failed + (result.passed == 0)
    sys.stderr.flush()
    print(f"{result.passed} passed, {failed} failed", flush=True)
    return 1 if failed else 0


if __name__ == "__main__":
    sys.exit(main())
