"""The shared library: its operations on lists of words, as include/pallihun.h has them.

A refusal is an answer here, and no exception. A word outside 0 to 2^32 - 1 is a ValueError.
The library is opened at the first call.
"""

import ctypes
import ctypes.util
import operator
import os
from enum import IntEnum
from functools import lru_cache
from typing import Iterable, List, NamedTuple, Tuple

LENT_TO_UNIFY = 64
LENT_TO_LIST = 16384


class Answer(IntEnum):
    """The number of an answer. 0 says that the work is done."""

    @property
    def refused(self) -> bool:
        return 1 <= self <= 9


TABLE_REFUSALS = [
    ("TOO_FEW_WORDS", 1),
    ("BROKEN_PAIR", 2),
    ("OVER_LIMIT", 3),
    ("WRONG_NODE", 4),
    ("WRONG_ARGUMENT", 5),
    ("WRONG_TERM", 6),
    ("WRONG_LABEL", 7),
]

# What checking, unifying and listing answer.
Checked = Answer("Checked", [("ACCEPTED", 0)] + TABLE_REFUSALS, module=__name__)
Unification = Answer(
    "Unification",
    [("UNIFIED", 0)] + TABLE_REFUSALS + [("NOT_A_NODE", 8), ("TOO_FEW_LENT", 9), ("CLASH", 1000), ("OCCURS", 1001)],
    module=__name__,
)
Listed = Answer("Listed", [("FINISHED", 0)] + TABLE_REFUSALS + [("FULL", 10)], module=__name__)


class Bindings(NamedTuple):
    """What unifying two nodes gives: the answer, and the binding words, which are there only if it is UNIFIED."""

    answer: Unification
    words: List[int]


class Listing(NamedTuple):
    """What listing a table gives: the answer, and the words of each entry. If it is FULL, there are more entries."""

    answer: Listed
    entries: List[List[int]]


def check(table: Iterable[int]) -> Checked:
    """Checks a table."""
    words = _array(table)
    return Checked(_library().pallihun_check(words, len(words)))


def unify(table: Iterable[int], a: int, b: int, lent: int = LENT_TO_UNIFY) -> Bindings:
    """Unifies nodes a and b of a table, with so many words lent."""
    table = list(table)
    out = _lent(lent)
    answer = _unify(_array(table), a, b, out)
    if answer != Unification.UNIFIED:
        return Bindings(answer, [])
    left_terms, right_terms = table[5], table[9]
    return Bindings(answer, out[: entry_words(table) - left_terms - right_terms])


def list_entries(table: Iterable[int], lent: int = LENT_TO_LIST) -> Listing:
    """Lists the unifiers of a table's two sides, with so many words lent."""
    words = _array(table)
    out = _lent(lent)
    answer, count = _list(words, out)
    size = _library().pallihun_entry_words(words, len(words))
    return Listing(answer, [out[place * size : (place + 1) * size] for place in range(count)])


def entry_words(table: Iterable[int]) -> int:
    """How many words an entry of a table's listing has. Where the table is refused, 0."""
    words = _array(table)
    return _library().pallihun_entry_words(words, len(words))


def unify_lent(table: Iterable[int], a: int, b: int, lent: Iterable[int]) -> Tuple[Unification, List[int]]:
    """Unifies two nodes with these words lent: the answer, and every lent word after the call."""
    out = _array(lent)
    answer = _unify(_array(table), a, b, out)
    return answer, list(out)


def list_lent(table: Iterable[int], lent: Iterable[int]) -> Tuple[Listed, int, List[int]]:
    """Lists a table with these words lent: the answer, the number of entries, and every lent word after the call."""
    out = _array(lent)
    answer, count = _list(_array(table), out)
    return answer, count, list(out)


def _unify(table, a, b, out):
    a, b = _word(a, "node a"), _word(b, "node b")
    return Unification(_library().pallihun_unify(table, len(table), a, b, out, len(out)))


def _list(table, out):
    listing = _library().pallihun_list(table, len(table), out, len(out))
    return Listed(listing.answer), listing.entries


def _array(words):
    words = [_word(word, f"word {place}") for place, word in enumerate(words)]
    return (ctypes.c_uint32 * len(words))(*words)


def _lent(lent):
    if operator.index(lent) < 0:
        raise ValueError(f"{lent} words cannot be lent")
    return (ctypes.c_uint32 * lent)()


def _word(word, what):
    word = operator.index(word)
    if not 0 <= word < 2**32:
        raise ValueError(f"{what} is {word}, which is outside 0 to 4294967295")
    return word


class _Listing(ctypes.Structure):
    _fields_ = [("answer", ctypes.c_uint32), ("entries", ctypes.c_uint64)]


_WORDS = ctypes.POINTER(ctypes.c_uint32)
_SIZE = ctypes.c_size_t
_OPERATIONS = {
    "pallihun_check": (ctypes.c_uint32, [_WORDS, _SIZE]),
    "pallihun_unify": (ctypes.c_uint32, [_WORDS, _SIZE, ctypes.c_uint32, ctypes.c_uint32, _WORDS, _SIZE]),
    "pallihun_list": (_Listing, [_WORDS, _SIZE, _WORDS, _SIZE]),
    "pallihun_entry_words": (_SIZE, [_WORDS, _SIZE]),
}


@lru_cache(maxsize=None)
def _library():
    """The library, opened once."""
    failures = []
    for path in _paths():
        try:
            return _opened(path)
        except (OSError, AttributeError) as failure:
            failures.append(str(failure))
    failures.append("`make lib` makes target/lib/libpallihun.so; the variable PALLIHUN_LIBRARY names one elsewhere")
    raise OSError("libpallihun.so cannot be opened:\n  " + "\n  ".join(failures))


def _paths():
    """Where the library may be. If PALLIHUN_LIBRARY is set, nowhere else."""
    named = os.environ.get("PALLIHUN_LIBRARY")
    if named:
        yield named
        return
    here = os.path.dirname(os.path.abspath(__file__))
    yield os.path.normpath(os.path.join(here, "..", "..", "..", "target", "lib", "libpallihun.so"))
    yield "libpallihun.so.0"
    installed = ctypes.util.find_library("pallihun")
    if installed:
        yield installed


def _opened(path):
    library = ctypes.CDLL(path)
    for name, (result, arguments) in _OPERATIONS.items():
        operation = getattr(library, name)
        operation.restype, operation.argtypes = result, arguments
    return library
