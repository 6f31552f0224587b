#!/usr/bin/env python3
"""Writes problem tables to be timed, a file each: words of 32 bits, lowest byte first.

    python3 bench/tables.py [--growth] FOLDER

Without --growth, problems of the kinds that provers have; with it, families that grow in one respect each.
"""

import os
import struct
import sys

sys.path.insert(0, os.path.join(os.path.dirname(os.path.abspath(__file__)), "..", "bindings", "python"))
from pallihun import Problem  # noqa: E402


def many(pattern, count, first=1):
    """The pattern for each of so many numbers, as terms: f(x#) gives f(x1), f(x2), .."""
    return ", ".join(pattern.replace("#", str(number)) for number in range(first, first + count))


def tower(depth, base):
    """f(f(..(base)..))"""
    return "f(" * depth + base + ")" * depth


def doubling(size):
    """x1 = g(x0,x0), x2 = g(x1,x1), ..: the last value has 2^size leaves."""
    left = [f"x{number + 1}" for number in range(size)]
    right = [f"g(x{number},x{number})" for number in range(size)]
    return nest(left) + " = " + nest(right)


def nest(terms):
    """f(f(..f(first,second)..),last)"""
    return "f(" * (len(terms) - 1) + terms[0] + "".join(f",{term})" for term in terms[1:])


def closed(size, number):
    """A term without variables: a constant, or h(h(..(c,d1)..),d) for a size of 2 and more."""
    return "h(" * (size - 1) + f"c{number}" + "".join(f",d{k})" for k in range(1, size))


def numbered(pattern, count):
    """The pattern for each of so many numbers, nested."""
    return nest([pattern.replace("#", str(number)) for number in range(count)])


def tuples(name, pattern, count, names=4):
    """Applications to eight terms each, of so many names in turn."""
    return ", ".join(f"{name}{k % names}({many(pattern, 8, 8 * k)})" for k in range(count))


def chain(length, order=1, labels=("", ""), given="a", asked="b"):
    """f(k0,x1), f(x1,x2), .. = f(k0,k1), f(k1,k2), ..: each pair leaves the next term one partner. The last pair fails: its
    right term asks for another key than the left one is given."""
    keys = [f"k{number}" for number in range(length - 1)]
    left = ["f(k0,x1)"] + [f"f(x{number},x{number + 1})" for number in range(1, length)]
    right = [f"f({key},{following})" for key, following in zip(keys, keys[1:] + [given])] + [f"f({asked},c)"]
    return " = ".join(", ".join(terms) + label for terms, label in zip((left[::order], right), labels))


def own(count):
    """A variable among terms that all hold it: x1, x2, .., y = f1(y), f2(y), .."""
    return many("x#", count - 1) + ", y = " + many("f#(y)", count)


PROBLEMS = {
    # A rule with schematic contexts, fitted to a sequent.
    "rule-left-implication": "imp(x,y) | G, D = p, imp(p,q), imp(q,r), imp(r,s), and(p,s)",
    "rule-right-conjunction": "and(x,y) | D = or(p,q), and(p,imp(q,r)), and(imp(p,p),q), not(p), imp(or(p,q),r)",
    "rule-two-principals": "imp(x,y), or(x,z) | G, D = imp(p,q), or(p,r), imp(and(p,q),r), or(and(p,q),s), p, q",
    "rule-metavariables": "imp(x,y), x | G = imp(u,v), imp(p,u), w, p, and(u,q)",
    "rule-contexts-on-both-sides": "imp(x,y), p | G, D = imp(p,q), u, imp(u,q) | H",
    # Terms without variables.
    "ground-one-to-one": many("f(g#,g(a,h(g#)))", 7) + " = " + many("f(g#,g(a,h(g#)))", 7),
    "ground-repeated": "a, b, a, c, b, a, c, a = c, a, b, a, a, c, b, a",
    "ground-with-labels": "a, b, c, a, d | M = a, c, e | N",
    # Problems without a unifier.
    "hopeless-symbols": many("f(x#,g(y#))", 5) + ", f(a,h(a)), f(b,h(b)) = " + many("f(c#,g(d#))", 7),
    "hopeless-late": many("x#", 6) + ", f(" + many("x#", 6) + ") = " + many("c#", 6) + ", f(" + many("d", 6) + ")",
    "hopeless-occurs": many("f(x#)", 4) + " = " + many("x#", 4),
    "hopeless-chain": chain(8),
    "hopeless-own": own(8),
    # More entries than are lent for.
    "full-ground": "a, a, a, a, a, a, a, a | M, N, P = a, a, a, a, a, a, a, a | Q, R, S",
    "full-variables": many("f(x#,a)", 8) + " | M, N = " + many("f(b,y#)", 8) + " | P, Q",
    "full-labels-alone": many("c#", 8) + " = | M, N, P, Q",
    # Terms that grow exponentially, or are deep.
    "exponential": doubling(30),
    "deep": tower(120, "x") + ", y = y, " + tower(120, "a"),
    # 64 variables.
    "64-variables-bound": tuples("f", "x#", 8) + " = " + tuples("f", "c#", 8),
    "64-variables-joined": numbered("x#", 32) + " = " + numbered("y#", 32),
}


def exchanged(text):
    """The same problem with its sides exchanged."""
    left, right = text.split(" = ")
    return f"{right.strip()} = {left.strip()}"


# Each rule stands on the left and on the right: a prover may put its goal on either side.
PROBLEMS.update({f"{name}-exchanged": exchanged(text) for name, text in list(PROBLEMS.items()) if name.startswith("rule-")})


def growth():
    """Families that grow in the number of entries, of nodes, of terms and of variables."""
    for count in range(1, 9):
        yield f"entries-{4 ** count:05}", many("c#", count) + " = | M, N, P, Q"
    for depth in (7, 15, 31, 63, 126):
        yield f"nodes-deep-{2 * depth + 2:03}", f"{tower(depth, 'x')} = {tower(depth, 'a')}"
    for size in (2, 5, 10, 21, 42):
        yield f"nodes-exponential-{6 * size - 3:03}", doubling(size)
    for size in (1, 2, 4, 8):
        yield f"nodes-ground-{8 * size:03}", (
            many("f(g(c#),h(d#,g(e#)))", size) + " = " + ", ".join(f"f(g(c{k}),h(d{k},g(e{k})))" for k in range(size, 0, -1))
        )
    for size in (1, 2, 4, 8, 15):
        yield f"nodes-closed-{13 * size + 8:03}", "imp(x,y) | G, D = " + ", ".join(
            f"imp({closed(size, 2 * k)},{closed(size, 2 * k + 1)})" for k in range(6)
        )
    for size in (1, 2, 4, 8, 15):
        yield f"nodes-closed-twice-{4 * size + 5:02}", "imp(x,y), x | G = " + ", ".join(
            [f"imp({closed(size, k)},{closed(size, k)})" for k in range(3)] + [closed(size, k) for k in range(3)]
        )
    for size in (1, 4, 8, 16, 28):
        yield f"nodes-hopeless-{7 * size + 8:03}", (
            many("x#", 6) + ", f(" + many("x#", 6) + ") = "
            + ", ".join(closed(size, number) for number in range(6)) + ", f(" + many("d", 6) + ")"
        )
    for size in (4, 8, 16, 28):
        yield f"nodes-hopeless-open-{7 * size + 8:03}", (
            many("x#", 6) + ", f(" + many("x#", 6) + ") = "
            + ", ".join(closed(size, number).replace(f"c{number}", f"y{number}") for number in range(6)) + ", f(" + many("d", 6) + ")"
        )
    for count in (4, 8, 16, 32, 63):
        yield f"variables-chain-{count:02}", numbered("x#", count) + " = " + nest([f"x{k + 1}" for k in range(count)])
    for count in range(2, 8):
        yield f"terms-{count}", many("f(x#)", count) + " = " + many("f(c#)", count)
    for count in range(2, 8):
        yield f"terms-repeated-{count}", ", ".join(["a"] * count) + " = " + ", ".join(["a"] * count)
    for count in range(1, 5):
        yield f"terms-labels-{count}", many("f(x#)", count) + " | M, N = " + many("f(y#)", count) + " | P, Q"
    for count in range(2, 7):
        yield f"terms-hopeless-{count}", (
            many("x#", count) + ", f(" + many("x#", count) + ") = " + many("c#", count) + ", f(" + many("d", count) + ")"
        )
    for length in (2, 4, 6, 8):
        yield f"chain-hopeless-clash-{length}", chain(length)
        yield f"chain-hopeless-occurs-{length}", chain(length, given="k(s(w))", asked="k(w)")
        yield f"chain-hopeless-reverse-{length}", chain(length, order=-1)
        yield f"chain-hopeless-label-{length}", chain(length, labels=(" | M", ""))
        yield f"chain-hopeless-label-right-{length}", chain(length, labels=("", " | N"))
    for count in (2, 4, 6, 8):
        yield f"own-hopeless-{count}", own(count)
    for count in (1, 2, 4, 8):
        yield f"variables-{8 * count:02}", tuples("f", "x#", count, 8) + " = " + tuples("f", "c#", count, 8)


    for count in (1, 2, 4, 8):
        yield f"variables-entries-{8 * count:02}", (
            "t(" + tuples("f", "x#", count, 8) + "), " + many("c#", 4, 64) + " = t(" + tuples("f", "c#", count, 8) + ") | P, Q, R, S"
        )


def main(words):
    problems = growth() if "--growth" in words else PROBLEMS.items()
    folders = [word for word in words if not word.startswith("-")]
    if len(folders) != 1:
        sys.exit(__doc__)
    os.makedirs(folders[0], exist_ok=True)
    for name, text in problems:
        table = Problem.parse(text).table()
        with open(os.path.join(folders[0], name + ".tbl"), "wb") as file:
            file.write(struct.pack(f"<{len(table)}I", *table))


if __name__ == "__main__":
    main(sys.argv[1:])
