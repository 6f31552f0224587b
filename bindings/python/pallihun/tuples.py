"""Reading the terms of a problem from tuples.

A term is a name, or a tuple of a name and arguments: `("f", "x", "a")`.
As in a text, a name that begins with u, v, w, x, y or z and stands alone is a variable, which has no arguments.
`Var("foo")` is a variable of whatever name, and `Const("x")`, which is `("x",)`, a constant of whatever name.
"""

import reprlib

from .nodes import (
    LABEL,
    MAX_COUNT,
    MAX_LABELS,
    MAX_NODES,
    MAX_TERMS,
    NAME,
    TOO_MANY_NODES,
    LimitError,
    Nodes,
    ProblemError,
    alone_a_variable,
)


class Var:
    """A variable of whatever name."""

    __slots__ = ("name",)

    def __init__(self, name: str):
        self.name = name

    def __repr__(self):
        return f"Var({self.name!r})"

    def __eq__(self, other):
        return isinstance(other, Var) and self.name == other.name

    def __hash__(self):
        return hash(("Var", self.name))


def Const(name: str):
    """A constant of whatever name."""
    return (name,)


class Reader:
    """Reads one problem. What was read is in its attributes."""

    def __init__(self, left, left_labels, right, right_labels):
        self.nodes = Nodes()
        self.all_labels = set()
        self._read = {}
        self.left = self.terms(left, "left")
        self.left_labels = self.labels(left_labels, "left_labels")
        self.right = self.terms(right, "right")
        self.right_labels = self.labels(right_labels, "right_labels")

    def terms(self, terms, side):
        terms = _listed(terms, side, "terms")
        if len(terms) > MAX_TERMS:
            _wrong(f"{side}[{MAX_TERMS}]", f"this is one term too many: a side has at most {MAX_TERMS}")
        return [self.term(term, f"{side}[{place}]") for place, term in enumerate(terms)]

    def labels(self, labels, side):
        labels = _listed(labels, side, "labels")
        for number, label in enumerate(labels):
            place = f"{side}[{number}]"
            if not (isinstance(label, str) and LABEL.fullmatch(label)):
                here = reprlib.repr(label)
                _wrong(place, f"a label, which begins with an upper-case letter, is expected, and here is {here}")
            if label in self.all_labels:
                _wrong(place, f"the label {label} stands here a second time: a label stands once in a problem")
            if number == MAX_LABELS:
                _wrong(place, f"this is one label too many: a side has at most {MAX_LABELS}")
            self.all_labels.add(label)
        return labels

    def term(self, term, place, level=1):
        """The node of a term. A tuple that stands at many places is read once."""
        if not isinstance(term, tuple):
            return self.alone(term, place)
        if id(term) in self._read:
            return self._read[id(term)][1]
        if level > MAX_NODES:
            _wrong(place, f"this is one node too many: {TOO_MANY_NODES}")
        name = _applied_name(term, place)
        self.nodes.appears(name)
        arguments = []
        for number, argument in enumerate(term[1:], 1):
            arguments.append(self.term(argument, f"{place}, argument {number}", level + 1))
        node = _placed(place, self.nodes.application, name, tuple(arguments))
        self._read[id(term)] = term, node
        return node

    def alone(self, term, place):
        """The node of a name that stands alone."""
        name = _name(term.name if isinstance(term, Var) else term, place)
        if isinstance(term, Var) or alone_a_variable(name):
            return _placed(place, self.nodes.variable, name)
        return _placed(place, self.nodes.application, name, ())


def _applied_name(term, place):
    """The name of an application."""
    if not term:
        _wrong(place, "a term is expected, and here is an empty tuple")
    if isinstance(term[0], Var):
        _wrong(place, f"{term[0].name} is a variable, which has no arguments")
    name = _name(term[0], place)
    if len(term) > 1 and alone_a_variable(name):
        _wrong(place, f"{name} is a variable, which has no arguments")
    if len(term) > 1 + MAX_COUNT:
        ninth = f"{place}, argument {MAX_COUNT + 1}"
        _wrong(ninth, f"this is one argument too many: {name} has at most {MAX_COUNT}")
    return name


def _name(name, place):
    if isinstance(name, str) and NAME.fullmatch(name):
        return name
    if isinstance(name, str) and LABEL.fullmatch(name):
        _wrong(place, f"a term is expected, and here is the label {name}")
    _wrong(place, f"a name, a Var or a tuple is expected, and here is {reprlib.repr(name)}")


def _listed(parts, side, what):
    if isinstance(parts, str):
        _wrong(side, f"a list of {what} is expected, and here is {reprlib.repr(parts)}")
    return list(parts)


def _placed(place, placed, *parts):
    """A node, or an error at its place if it passes a limit."""
    try:
        return placed(*parts)
    except LimitError as error:
        _wrong(place, str(error))


def _wrong(place, reason):
    raise ProblemError(f"{place}: {reason}") from None
