"""Reading a problem from a line of text, such as `f(x,a), a | M = y | N`.

    problem    side = side
    side       terms | labels, or one of these without the other, or nothing; braces may stand around it
    terms      split by commas
    term       name, or name(term, ..)
    labels     split by commas or blanks

A name begins with a lower-case letter or a digit, a label with an upper-case letter; letters, digits, _ and ' follow.
A name that begins with u, v, w, x, y or z and stands without parentheses is a variable, which has no arguments.
`?name` is a variable of whatever name, `name()` a constant of whatever name.
"""

import re
from typing import List, NamedTuple

from .nodes import LABEL, MAX_COUNT, MAX_LABELS, MAX_TERMS, NAME, LimitError, Nodes, ProblemError, alone_a_variable

TOKEN = re.compile(
    rf"(?P<blank>\s+)|(?P<variable>\?{NAME.pattern})|(?P<name>{NAME.pattern})|(?P<label>{LABEL.pattern})"
    r"|(?P<mark>[(),|={}])",
    re.ASCII,
)
SHOWN_BEFORE, SHOWN_AFTER = 70, 30


class ParseError(ProblemError):
    """The text is no problem: `reason`, and where, `line` and `column` being counted from 1."""

    def __init__(self, reason: str, text: str, place: int, first_line: int = 1):
        start = text.rfind("\n", 0, place) + 1
        self.reason = reason
        self.line = first_line + text.count("\n", 0, place)
        self.column = place - start + 1
        shown, caret = _shown(text[start:].split("\n", 1)[0], place - start)
        self._given = reason, text, place, first_line
        super().__init__(f"line {self.line}, column {self.column}: {reason}\n  {shown}\n  {' ' * caret}^")

    def __reduce__(self):
        return ParseError, self._given


def _shown(line, caret):
    """The part of a line around a place, and where the place is in it."""
    begin = caret - SHOWN_BEFORE if caret > SHOWN_BEFORE else 0
    shown = "".join(sign if sign.isprintable() else " " for sign in line[begin : caret + SHOWN_AFTER])
    before, after = "…" if begin else "", "…" if caret + SHOWN_AFTER < len(line) else ""
    return before + shown + after, len(before) + caret - begin


class Token(NamedTuple):
    """A name, a label or a variable, a mark (whose kind is the mark itself) or the end of the text."""

    kind: str
    text: str
    place: int

    def __str__(self):
        if self.kind == "end":
            return "the end"
        return f"the {self.kind} {self.text}" if self.kind in ("name", "label", "variable") else f"'{self.text}'"


class Application(NamedTuple):
    """An application some of whose arguments are still to be read."""

    name: Token
    arguments: List[int]


class Parser:
    """Reads one problem. What was read is in its attributes."""

    def __init__(self, text: str, first_line: int = 1):
        self.text = text
        self.first_line = first_line
        self.nodes = Nodes()
        self.all_labels = set()
        self.advance(0)
        self.left, self.left_labels = self.side("'='")
        if self.token.kind != "=":
            self.unexpected("'='")
        self.step()
        self.right, self.right_labels = self.side("the end")
        if self.token.kind == "=":
            self.wrong("there is a second '='")
        if self.token.kind != "end":
            self.unexpected("the end")

    def side(self, end):
        """A side: its terms and its labels."""
        braced = self.token.kind == "{"
        if braced:
            self.step()
            end = "'}'"
        terms = self.terms()
        labels = self.labels() if self.token.kind == "|" else []
        if braced and self.token.kind == "}":
            self.step()
        elif braced or self.token.kind not in ("=", "end"):
            further = "',', a label or " if labels else "',', '|' or " if terms else "a term, '|' or "
            self.unexpected(further + end)
        return terms, labels

    def terms(self):
        terms = []
        if self.token.kind in ("|", "=", "{", "}", "end"):
            return terms
        while True:
            if len(terms) == MAX_TERMS:
                self.wrong(f"this is one term too many: a side has at most {MAX_TERMS}")
            terms.append(self.term())
            if self.token.kind != ",":
                return terms
            self.step()

    def labels(self):
        labels = []
        self.step()
        while not labels or self.token.kind in (",", "label"):
            if self.token.kind == "," and labels:
                self.step()
            labels.append(self.label(len(labels)))
        return labels

    def label(self, labels_before):
        label = self.token
        if label.kind != "label":
            self.unexpected("a label, which begins with an upper-case letter,")
        if label.text in self.all_labels:
            self.wrong(f"the label {label.text} stands here a second time: a label stands once in a problem")
        if labels_before == MAX_LABELS:
            self.wrong(f"this is one label too many: a side has at most {MAX_LABELS}")
        self.all_labels.add(label.text)
        self.step()
        return label.text

    def term(self):
        """The node of the term that begins here. Applications that are not at their end wait on a stack."""
        waiting = []
        while True:
            node = self.begun(waiting)
            if node is not None:
                node = self.ended(node, waiting)
            if node is not None:
                return node

    def begun(self, waiting):
        """Reads a name: the node of a variable or a constant. Of an application with arguments None, and it waits."""
        name = self.token
        if name.kind not in ("name", "variable"):
            self.unexpected("a term (labels stand after '|')" if name.kind == "label" else "a term")
        if waiting and len(waiting[-1].arguments) == MAX_COUNT:
            self.wrong(f"this is one argument too many: {waiting[-1].name.text} has at most {MAX_COUNT}")
        self.step()
        parenthesis = self.token
        if parenthesis.kind != "(" and (name.kind == "variable" or alone_a_variable(name.text)):
            return self.placed(name, self.nodes.variable, name.text.lstrip("?"))
        if parenthesis.kind == "(":
            self.step()
            if name.kind == "variable" or (self.token.kind != ")" and alone_a_variable(name.text)):
                self.wrong(f"{name.text} is a variable, which has no arguments", parenthesis)
            if self.token.kind != ")":
                self.nodes.appears(name.text)
                waiting.append(Application(name, []))
                return None
            self.step()
        return self.placed(name, self.nodes.application, name.text, ())

    def ended(self, node, waiting):
        """Takes in a whole term: the node of the outermost term, or None if that has further arguments."""
        while waiting:
            name, arguments = waiting[-1]
            arguments.append(node)
            if self.token.kind not in (",", ")"):
                self.unexpected(f"',' or ')' among the arguments of {name.text}")
            further = self.token.kind == ","
            self.step()
            if further:
                return None
            waiting.pop()
            node = self.placed(name, self.nodes.application, name.text, tuple(arguments))
        return node

    def placed(self, name, place, *parts):
        """A node, or an error at its name if it passes a limit."""
        try:
            return place(*parts)
        except LimitError as error:
            self.wrong(str(error), name)

    def step(self):
        self.advance(self.token.place + len(self.token.text))

    def advance(self, place):
        """Reads the token that follows a place, past blanks."""
        match = TOKEN.match(self.text, place)
        if match and match.lastgroup == "blank":
            place = match.end()
            match = TOKEN.match(self.text, place)
        if match:
            kind = match.group() if match.lastgroup == "mark" else match.lastgroup
            self.token = Token(kind, match.group(), place)
        else:
            self.token = Token("end", "", place)
            if place < len(self.text):
                self.wrong(f"the character {self.text[place]!r} has no meaning here")

    def unexpected(self, expected):
        self.wrong(f"{expected} is expected, and here is {self.token}")

    def wrong(self, reason, token=None):
        raise ParseError(reason, self.text, (token or self.token).place, self.first_line)
