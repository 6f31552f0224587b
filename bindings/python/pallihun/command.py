"""The command line: problems are read, and their listings printed."""

import argparse
import os
import sys

from .library import LENT_TO_LIST
from .problem import Problem
from .text import ParseError

MOST_LENT = 2**24
WRONG_TEXT = 2

DESCRIPTION = "Lists the unifiers of two multisets of terms, such as 'f(x,a), a | M = y | N'."
FORM = """
A term is a name, or a name with arguments in parentheses. A name that begins with u, v, w, x, y or z is a variable.
Labels of multiset variables begin with an upper-case letter, and stand after '|'.
Without a problem, lines are read from standard input, one problem each. A line that begins with '#' is passed over.
"""


def main(arguments=None) -> int:
    """Runs the command: 0, 2 if a text is wrong, 1 if there is no library."""
    options = _options(arguments)
    for stream in (sys.stdin, sys.stdout):
        if hasattr(stream, "reconfigure"):
            stream.reconfigure(errors="backslashreplace")
    try:
        if options.problem is None:
            return _answer_lines(options)
        return _answer(options.problem, options)
    except KeyboardInterrupt:
        print()
        return 130
    except BrokenPipeError:
        os.dup2(os.open(os.devnull, os.O_WRONLY), sys.stdout.fileno())
        return 1
    except OSError as error:
        print(error, file=sys.stderr)
        return 1


def _options(arguments):
    parser = argparse.ArgumentParser(
        prog="python3 -m pallihun",
        description=DESCRIPTION,
        epilog=FORM,
        formatter_class=argparse.RawDescriptionHelpFormatter,
    )
    parser.add_argument("problem", nargs="?", help="the problem")
    parser.add_argument("--table", action="store_true", help="print the words of the table, and no listing")
    parser.add_argument("--unify", action="store_true", help="unify the first terms of both sides, and list nothing")
    parser.add_argument("--lent", type=_lent, default=LENT_TO_LIST, metavar="N", help="lend N words (%(default)s)")
    return parser.parse_args(arguments)


def _lent(text):
    lent = int(text)
    if not 0 <= lent <= MOST_LENT:
        raise argparse.ArgumentTypeError(f"{text} words cannot be lent: 0 to {MOST_LENT} can")
    return lent


def _answer_lines(options):
    """Answers each line of standard input. A wrong one does not end it."""
    status = 0
    for number, line in enumerate(_lines(), 1):
        if line.strip() and not line.startswith("#"):
            status = _answer(line, options, number) or status
    return status


def _lines():
    """The lines of standard input, with a prompt on a terminal."""
    if not sys.stdin.isatty():
        for line in sys.stdin:
            yield line.rstrip("\n")
        return
    try:
        import readline  # noqa: F401  so that a line can be edited
    except ImportError:
        pass
    print("Give a problem, such as f(x,a), a | M = y | N (Control-D ends)")
    while True:
        try:
            yield input("> ")
        except EOFError:
            print()
            return


def _answer(text, options, line_number=1):
    """Prints what is asked of one problem."""
    try:
        problem = Problem.parse(text, line_number)
        if options.unify and not (problem.left and problem.right):
            raise ParseError("to unify, a term is expected on each side", text, 0, line_number)
    except ParseError as error:
        sys.stdout.flush()
        print(error, file=sys.stderr)
        return WRONG_TEXT
    if options.table:
        print(*problem.table())
    elif options.unify:
        print(problem.unify())
    else:
        _print_listing(problem, options.lent)
    sys.stdout.flush()
    return 0


def _print_listing(problem, lent):
    listing = problem.listing(lent)
    print(problem)
    print(listing.first_line)
    for entry in listing.entries:
        print("  ".join(filter(None, [" ".join(map(str, entry.digits)), str(entry)])))
    if listing.full:
        print("There are more entries: lend more words with --lent.")
    elif not listing:
        print("No terms for the variables and multisets for the labels make the two sides equal.")
