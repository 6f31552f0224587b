"""Terms spelt out, under a unifier or as they stand.

A term under a unifier can be exponentially larger than its table, so a spelling ends after some hundred characters.
"""

from typing import List, Optional, Sequence

from .nodes import Node

LIMIT = 300


def spell(nodes: Sequence[Node], term: int, words: Optional[Sequence[int]] = None, limit: Optional[int] = LIMIT) -> str:
    """The term of a node, its variables replaced in turn by what the binding words say, if these are given.

    A spelling of more than `limit` characters is cut, and ends in `…`. With limit None it is whole, however long.
    """
    pieces: List[str] = []
    length = 0
    waiting = [term]
    while waiting:
        piece = waiting.pop()
        if not isinstance(piece, str):
            node = value(nodes, piece, words)
            piece = node.spelt_name
            if node.arguments:
                piece += "("
                waiting += reversed(_rest(node.arguments))
        pieces.append(piece)
        length += len(piece)
        if limit is not None and length > limit:
            return "".join(pieces)[:limit] + "…"
    return "".join(pieces)


def value(nodes: Sequence[Node], term: int, words: Optional[Sequence[int]]) -> Node:
    """The node whose symbol, or variable, stands at the top of a term under a unifier."""
    node = nodes[term]
    if node.arguments is None and words is not None:
        return nodes[words[node.number]]
    return node


def side(terms: Sequence[str], labels: Sequence[str]) -> str:
    """A side in braces."""
    text = ", ".join(terms)
    if labels:
        text += " | " + ", ".join(labels)
    return "{" + text + "}"


def _rest(arguments):
    """What follows an application's opening parenthesis."""
    rest = []
    for argument in arguments:
        rest += [",", argument]
    return rest[1:] + [")"]
