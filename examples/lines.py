#!/usr/bin/env python3
"""Makes the lines of a price that has its tax in it.

    python3 examples/lines.py 21 1000

The words are a CLASS of docs/FORMAT.md and a total in cents, tax and surcharge included. It prints one line where one has this total, else
two of the class: of all pairs that have it those whose bases' sum is nearest to the total over one and the rates, a half away from zero, and
of these the two that differ least. A `sale` takes them as they are printed.
"""
import re
import sys

from export import rates, totals
from read_chain import CLASSES, MOST_BASE, NO_TAX


def is_class(word):
    tax, slash, name = word.rpartition("/")
    own = re.fullmatch("0|[1-9][0-9]{0,3}", name) and int(name) <= 2500
    return (tax in ("02", "03") and (own or name in NO_TAX)) if slash else name in CLASSES


def gross(word, base):
    return totals([(word, base)])[1]


def pair(word, total, both):
    """The two bases of this sum and this total that differ least, the greater first. Taxes repeat after 10,000 cents."""
    for second in range(both // 2, max(both // 2 - 10_000, -1), -1):
        if gross(word, both - second) + gross(word, second) == total and both - second <= MOST_BASE:
            return both - second, second
    return None


def bases(word, total):
    """One base of this total, which isn't negative, else the nearest two; None where neither is there."""
    factor = 10_000 + sum(rates(word))
    near = (20_000 * total + factor) // (2 * factor)
    for base in (near - 1, near, near + 1):
        if 0 <= base <= MOST_BASE and gross(word, base) == total:
            return (base,)
    steps = (0, 1, -1, 2, -2) if near * factor <= 10_000 * total else (0, -1, 1, -2, 2)
    return next((found for step in steps if (found := pair(word, total, near + step))), None)


def lines(word, total):
    found = bases(word, abs(total))
    return found and [(word, base if total >= 0 else -base) for base in found]


def main():
    if len(sys.argv) != 3 or not is_class(sys.argv[1]) or not re.fullmatch("0|-?[1-9][0-9]{0,12}", sys.argv[2]):
        sys.exit("usage: lines.py CLASS TOTAL")
    found = lines(sys.argv[1], int(sys.argv[2]))
    if found is None:
        sys.exit("no two lines have this total")
    print(*(f"{word}:{base}" for word, base in found))


if __name__ == "__main__":
    main()
