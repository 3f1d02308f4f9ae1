"""Logs of patches of several documents, and what is to be made of them."""

import collections
import json
from collections import UserString
from decimal import Decimal
from fractions import Fraction

import mergejoin

NAMES = "abcdefgh"


class Name(str):
    """A str of a kind of its own."""


class Like:
    """What equals a number and is none by its kind, as a bool of numpy."""

    def __init__(self, number):
        self.number = number

    def __eq__(self, other):
        return self.number == (other.number if isinstance(other, Like) else other)

    def __hash__(self):
        return hash(self.number)

    def __int__(self):
        return int(self.number)

    def __float__(self):
        return float(self.number)


# Keys of all kinds: those of a row are equal.
ALIKE = [
    ["doc", Name("doc"), UserString("doc")], ["", Name(), UserString("")], ["\ud800", UserString("\ud800")], ["caf\u00e9 \U0001f600"],
    [1, 1.0, True, Decimal(1), Fraction(1), 1 + 0j, Like(True)], [0, -0.0, False, Decimal("-0"), Like(0)], [-1, Decimal("-1.0")], [-2, -2.0],
    [0.5, Decimal("0.5"), Fraction(1, 2), Like(0.5)], [2**70, float(2**70), Fraction(2**70)], [float("inf"), Decimal("inf")],
    [UserString("other")], [Like(2.5)], [None], [b"doc"], [()], [("doc", 1), (Name("doc"), True)], [("doc", None)],
    [frozenset(["doc", 1]), frozenset([1.0, "doc"])],
]


def log_of(chance, count, keys=12):
    """Gives (key, text) in any order, of keys of which a half have patches that conflict."""
    log = []
    for _ in range(count):
        number = chance.randrange(keys)
        patch = {chance.choice(NAMES): {chance.choice(NAMES): number} for _ in range(chance.randrange(1, 4))}
        if number % 2 and chance.random() < 0.3:
            patch[chance.choice(NAMES)] = None
        log.append((f"doc{number}", json.dumps(patch)))
    return log


def log_of_kinds(chance, count):
    """Gives such a log with keys of all kinds, and texts that are str or bytes."""
    log = []
    for key, text in log_of(chance, count, len(ALIKE)):
        alike = ALIKE[int(key[len("doc"):])]
        log.append((chance.choice(alike), chance.choice([text, text.encode("utf-8")])))
    return log


def texts_of(log):
    """Gives the texts of each key."""
    texts = collections.defaultdict(list)
    for key, text in log:
        texts[key].append(text)
    return texts


def wanted_of(log):
    """Gives the join of each key's texts, all at once in one process, or None if two conflict."""
    wanted = {}
    for key, given in texts_of(log).items():
        try:
            wanted[key] = mergejoin.join(given)
        except mergejoin.Conflict:
            wanted[key] = None
    return wanted


def pairs_of(log):
    """Gives the pairs of each key of which two patches conflict, in order, with all places."""
    wanted = {}
    for key, given in texts_of(log).items():
        texts = sorted({text if isinstance(text, str) else text.decode("utf-8") for text in given})
        pairs = [(texts[first], texts[second], places) for first, second, places in mergejoin.conflicts(texts)]
        if pairs:
            wanted[key] = pairs
    return wanted
