"""What the library answers, with the names of the problem."""

from typing import Dict, Iterator, List, Optional, Tuple

from .library import Bindings, Listed, Listing, Unification
from .nodes import Node
from .spelling import LIMIT, spell


class FullError(Exception):
    """A listing that is full was used as if it were finished."""


class Unifiers:
    """The listing of a problem: its entries, and whether they are all.

    `entries` are those that fitted. If the listing is full, going through it raises FullError after the last of them,
    and asking for its length does. A listing is true if the problem has an entry, be it one that did not fit; so
    `not listing` says that no assignment makes the two sides equal.
    """

    def __init__(self, problem, listing: Listing, lent: int):
        self.problem = problem
        self.lent = lent
        self.finished = listing.answer == Listed.FINISHED
        self.entries = [Entry(problem, words) for words in listing.entries]

    @property
    def full(self) -> bool:
        return not self.finished

    def __iter__(self) -> Iterator["Entry"]:
        yield from self.entries
        self._must_be_finished()

    def __len__(self) -> int:
        self._must_be_finished()
        return len(self.entries)

    def __bool__(self) -> bool:
        return self.full or bool(self.entries)

    def _must_be_finished(self):
        if self.full:
            raise FullError(f"there are more entries than the {len(self.entries)} that fit into {self.lent} words")

    @property
    def first_line(self) -> str:
        """The first line that the program `list` prints."""
        return f"{'entries' if self.finished else 'full'} {len(self.entries)}"

    def __str__(self):
        return "\n".join([self.first_line] + [str(entry) for entry in self.entries])

    def __repr__(self):
        return f"<{self.first_line}: {self.problem}>"


class Entry:
    """An entry of a listing: a way to pair and put the terms, and a most general unifier of the pairs.

    `words` are its words, and `digits` those of them that are not binding words.
    Its text has three parts, of which those that are empty are left out:

        f(x,a) with y, a in N; y = f(x,a); M = {..}, N = {a, ..}

    - each left term with the right term it is paired with, or in the right label it is put in; then each right term
      without a partner, in the left label it is put in; all as they stand in the problem;
    - the variables whose value is not themselves, each with its value;
    - what each label holds, under the unifier. `..` is its rest: any multiset, but the rests of the left labels
      together are those of the right labels together. There are rests only if both sides have labels.

    A term of more than 300 characters is cut, and ends in `…`.
    """

    def __init__(self, problem, words: List[int]):
        digits = len(problem.left) + len(problem.right)
        self.problem = problem
        self.words = tuple(words)
        self.digits, self._bindings = self.words[:digits], self.words[digits:]

    @property
    def pairs(self) -> List[Tuple[str, str]]:
        """The left terms that have a partner, each with its partner, as they stand in the problem."""
        pairs = [(term, partner) for term, partner, label in self._placed() if not label]
        return [(self.problem.spell(term), self.problem.spell(partner)) for term, partner in pairs]

    @property
    def bindings(self) -> Dict[str, str]:
        """The value of each variable."""
        return self.values()

    @property
    def labels(self) -> Dict[str, List[str]]:
        """The terms put in each label, under the unifier, without the rest."""
        return self.contents()

    @property
    def rests(self) -> bool:
        """Whether labels have rests."""
        return bool(self.problem.left_labels and self.problem.right_labels)

    def values(self, limit: Optional[int] = LIMIT) -> Dict[str, str]:
        """The value of each variable, cut after `limit` characters."""
        return _values(self.problem, self._bindings, limit)

    def contents(self, limit: Optional[int] = LIMIT) -> Dict[str, List[str]]:
        """The terms put in each label, under the unifier, each cut after `limit` characters."""
        contents = {label: [] for label in self.problem.left_labels + self.problem.right_labels}
        for term, _, label in self._placed():
            if label:
                contents[label].append(spell(self.problem.nodes, term, self._bindings, limit))
        return contents

    def _placed(self):
        """Each left term, and each right term without a partner: the term, its partner or None, its label or None."""
        problem = self.problem
        n, m = len(problem.left), len(problem.right)
        for term, digit in zip(problem.left, self.digits):
            if digit <= m:
                yield term, problem.right[digit - 1], None
            else:
                yield term, None, problem.right_labels[digit - m - 1]
        for term, digit in zip(problem.right, self.digits[n:]):
            if digit > 0:
                yield term, None, problem.left_labels[digit - 1]

    def _choice(self):
        """The first part of its text."""
        for term, partner, label in self._placed():
            where = f"in {label}" if label else f"with {self.problem.spell(partner)}"
            yield f"{self.problem.spell(term)} {where}"

    def _held(self):
        """The last part of its text."""
        rest = [".."] if self.rests else []
        return [f"{label} = {{{', '.join(terms + rest)}}}" for label, terms in self.labels.items()]

    def __str__(self):
        parts = [", ".join(self._choice()), ", ".join(_changed(self.problem, self._bindings)), ", ".join(self._held())]
        return "; ".join(filter(None, parts)) or "both sides are empty"

    def __repr__(self):
        return f"<entry {' '.join(map(str, self.digits))}: {self}>"


class TermUnifier:
    """What unifying two terms gives: `answer`, and `bindings`, the value of each variable, if they have a unifier."""

    def __init__(self, problem, bindings: Bindings):
        self.problem = problem
        self.answer = bindings.answer
        self._bindings = bindings.words

    @property
    def unified(self) -> bool:
        return self.answer == Unification.UNIFIED

    @property
    def bindings(self) -> Dict[str, str]:
        return _values(self.problem, self._bindings, LIMIT) if self.unified else {}

    def __str__(self):
        changed = _changed(self.problem, self._bindings) if self.unified else []
        return "; ".join(filter(None, [self.answer.name.lower(), ", ".join(changed)]))

    def __repr__(self):
        return f"<{self}>"


def _values(problem, bindings, limit):
    """The value of each variable."""
    return {
        name: spell(problem.nodes, bindings[number], bindings, limit) for number, name in enumerate(problem.variables)
    }


def _changed(problem, bindings):
    """The variables that get a value other than themselves, with it."""
    changed = []
    for number, name in enumerate(problem.variables):
        variable, value = Node(name, number, None), problem.nodes[bindings[number]]
        if value != variable:
            changed.append(f"{variable.spelt_name} = {spell(problem.nodes, bindings[number], bindings)}")
    return changed
