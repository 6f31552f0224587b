"""The nodes of a problem: equal terms share one node, and arguments come before what they belong to."""

import re
from typing import NamedTuple, Optional, Tuple

MAX_NODES = 256
MAX_ARGUMENTS = 512
MAX_TERMS = 8
MAX_LABELS = 4
MAX_COUNT = 8
MAX_VARIABLES = 64

TOO_MANY_NODES = f"a problem has at most {MAX_NODES} different terms in all"

NAME = re.compile(r"[a-z0-9][A-Za-z0-9_']*")
LABEL = re.compile(r"[A-Z][A-Za-z0-9_']*")


class ProblemError(ValueError):
    """What was given is no problem. The message says where it is wrong."""


class LimitError(ProblemError):
    """A limit of problem tables is passed."""


def alone_a_variable(name: str) -> bool:
    """Whether a name that stands alone is that of a variable."""
    return name[0] in "uvwxyz"


class Node(NamedTuple):
    """A variable, which has no arguments (None), or an application."""

    name: str
    number: int
    arguments: Optional[Tuple[int, ...]]

    @property
    def spelt_name(self) -> str:
        """The name as it is written, so that reading it again gives this kind of node."""
        if self.arguments is None:
            return self.name if alone_a_variable(self.name) else "?" + self.name
        return self.name + "()" if alone_a_variable(self.name) and not self.arguments else self.name


class Nodes:
    """Nodes in table order. Variables and names are numbered in order of appearance."""

    def __init__(self):
        self.nodes = []
        self.variables = {}
        self.names = {}
        self._places = {}
        self._arguments = 0

    def variable(self, name: str) -> int:
        """The node of a variable."""
        if name not in self.variables and len(self.variables) == MAX_VARIABLES:
            raise LimitError(f"{name} is one variable too many: a problem has at most {MAX_VARIABLES}")
        return self._place(Node(name, self.variables.setdefault(name, len(self.variables)), None))

    def appears(self, name: str) -> int:
        """The number of a name of applications, in the order in which names are first asked for."""
        return self.names.setdefault(name, len(self.names))

    def application(self, name: str, arguments: Tuple[int, ...]) -> int:
        """The node of an application."""
        return self._place(Node(name, self.appears(name), arguments))

    def _place(self, node):
        if node in self._places:
            return self._places[node]
        count = len(node.arguments or ())
        if len(self.nodes) == MAX_NODES:
            raise LimitError(f"{node.name} is one node too many: {TOO_MANY_NODES}")
        if self._arguments + count > MAX_ARGUMENTS:
            raise LimitError(f"{node.name} has too many arguments: a problem has at most {MAX_ARGUMENTS} in all")
        self._arguments += count
        self._places[node] = len(self.nodes)
        self.nodes.append(node)
        return self._places[node]

    def sections(self):
        """The words of the nodes section and of the arguments section."""
        nodes, arguments = [], []
        for node in self.nodes:
            if node.arguments is None:
                nodes += [0, node.number, 0, 0]
            else:
                nodes += [1, node.number, len(arguments) if node.arguments else 0, len(node.arguments)]
                arguments += node.arguments
        return nodes, arguments
