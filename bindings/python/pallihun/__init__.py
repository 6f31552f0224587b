"""Pallihun from Python: the unifiers of two multisets of first-order terms with labelled multiset variables.

    >>> from pallihun import Problem
    >>> for entry in Problem.parse("f(x,a), a | M = y | N").listing():
    ...     print(entry)
    f(x,a) with y, a in N; y = f(x,a); M = {..}, N = {a, ..}
    f(x,a) in N, a with y; y = a; M = {..}, N = {f(x,a), ..}
    f(x,a) in N, a in N, y in M; M = {y, ..}, N = {f(x,a), a, ..}

- `Problem`: a problem from a line of text or from tuples, with its listing;
- `Unifiers` and `Entry`: what a listing says, spelt out;
- `check`, `unify`, `list_entries`, `entry_words`: the library's operations on lists of words.

It needs the shared library, which `make lib` makes; the variable PALLIHUN_LIBRARY names one elsewhere.
"""

from .library import (
    Bindings,
    Checked,
    Listed,
    Listing,
    Unification,
    check,
    entry_words,
    list_entries,
    list_lent,
    unify,
    unify_lent,
)
from .nodes import LimitError, ProblemError
from .problem import Problem
from .text import ParseError
from .tuples import Const, Var
from .unifiers import Entry, FullError, TermUnifier, Unifiers

__version__ = "0.1.0"

__all__ = [
    "Bindings",
    "Checked",
    "Const",
    "Entry",
    "FullError",
    "LimitError",
    "Listed",
    "Listing",
    "ParseError",
    "Problem",
    "ProblemError",
    "TermUnifier",
    "Unification",
    "Unifiers",
    "Var",
    "check",
    "entry_words",
    "list_entries",
    "list_lent",
    "unify",
    "unify_lent",
]
