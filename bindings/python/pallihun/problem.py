"""Problems: two multisets of terms with labels, which are to be made equal."""

from typing import Iterable, List, Optional

from . import library
from .nodes import ProblemError
from .spelling import LIMIT, side, spell
from .text import Parser
from .tuples import Reader
from .unifiers import TermUnifier, Unifiers


class Problem:
    """A problem, built from tuples or from a line of text.

        Problem(left=[("f", "x", "a"), "a"], left_labels=["M"], right=["y"], right_labels=["N"])
        Problem.parse("f(x,a), a | M = y | N")

    What cannot be read is a ProblemError, which is a ValueError and says where it is wrong; in a text, a ParseError.
    `nodes` are its different terms, arguments first; `left` and `right` are node numbers; `left_labels` and
    `right_labels` are names, as are `variables`, which stand in order of appearance.
    """

    def __init__(
        self, left: Iterable = (), left_labels: Iterable = (), right: Iterable = (), right_labels: Iterable = ()
    ):
        self._take(Reader(left, left_labels, right, right_labels))

    @classmethod
    def parse(cls, text: str, first_line: int = 1) -> "Problem":
        """The problem of a text. An error counts its lines from `first_line` on."""
        problem = cls.__new__(cls)
        problem._take(Parser(text, first_line))
        return problem

    def _take(self, read):
        self._nodes = read.nodes
        self.nodes = tuple(read.nodes.nodes)
        self.variables = tuple(read.nodes.variables)
        self.left, self.left_labels = tuple(read.left), tuple(read.left_labels)
        self.right, self.right_labels = tuple(read.right), tuple(read.right_labels)

    def table(self) -> List[int]:
        """The words of its table. Labels have the numbers 1, 2, .., first the left ones."""
        labels = list(range(1, 1 + len(self.left_labels) + len(self.right_labels)))
        left_labels, right_labels = labels[: len(self.left_labels)], labels[len(self.left_labels) :]
        sections = [*self._nodes.sections(), self.left, left_labels, self.right, right_labels]
        header, words = [], []
        for section in sections:
            header += [2 * len(sections) + len(words), len(section)]
            words += section
        return header + words

    def listing(self, lent: int = library.LENT_TO_LIST) -> Unifiers:
        """The unifiers of the two sides, as many as fit into so many lent words."""
        listing = library.list_entries(self.table(), lent)
        _accepted(listing.answer)
        return Unifiers(self, listing, lent)

    def unify(self, left: int = 0, right: int = 0) -> TermUnifier:
        """Unifies one left and one right term, which are counted from 0."""
        bindings = library.unify(self.table(), self.left[left], self.right[right])
        _accepted(bindings.answer)
        return TermUnifier(self, bindings)

    def spell(self, term: int, limit: Optional[int] = LIMIT) -> str:
        """The term of a node as it stands, cut after `limit` characters."""
        return spell(self.nodes, term, None, limit)

    def __str__(self):
        left = side([self.spell(term) for term in self.left], self.left_labels)
        right = side([self.spell(term) for term in self.right], self.right_labels)
        return f"{left} = {right}"

    def __repr__(self):
        return f"Problem.parse({str(self)!r})"


def _accepted(answer):
    """A problem keeps every limit as it is built, so that its table is not refused."""
    if answer.refused:
        raise ProblemError(f"the library refuses the table: {answer.name}")
