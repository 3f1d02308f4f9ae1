#!/usr/bin/env python3
"""Prints the input of `join` and `replay` for the benchmark.

    bench/list_inputs.py PATCHES patches|start

The patches are an array of that many merge patches of some 400 bytes each. What they
may change is drawn first: as many accounts as there are patches, a value or a removal
for each name. A patch takes four of the accounts, and some of the names of each: so
two patches that have a name in common agree on it, and the join grows with the list.
The start has every second account, with values of its own. The same arguments always
give the same bytes.
"""

import sys

from values import WORDS, Numbers, printed


def account(numbers):
    """An account of values of about the same size."""
    return {
        "id": 10**6 + numbers.below(10**6),
        "name": numbers.words(2),
        "mail": numbers.words(2),
        "phone": None,
        "active": numbers.chance(50),
        "visits": [numbers.below(100), None],
        "address": {"city": WORDS[numbers.below(20)], "street": numbers.words(2), "number": None},
    }


def some_names(numbers, value, count):
    """That many members of an object, in no order, and of an object in it two."""
    names = numbers.shuffled(value)[:count]
    return {
        name: some_names(numbers, value[name], 2) if isinstance(value[name], dict) else value[name]
        for name in names
    }


def patch(numbers, accounts, share):
    """A patch of that many accounts, and of as many names of each."""
    names = set()
    while len(names) < min(share, len(accounts)):
        names.add(f"user-{numbers.below(len(accounts)):04}")
    return {name: some_names(numbers, accounts[name], share) for name in sorted(names)}


class Lists:
    """What patches may change, and the start and the patches that are drawn of it."""

    def __init__(self, users, share=4):
        self.numbers, self.share = Numbers(), share
        self.accounts = {f"user-{place:04}": account(self.numbers) for place in range(users)}

    def patches(self, count):
        return [patch(self.numbers, self.accounts, self.share) for _ in range(count)]

    def start(self):
        return {name: account(self.numbers) for name in list(self.accounts)[::2]}


def main():
    count, kind = int(sys.argv[1]), sys.argv[2]
    lists = Lists(count)
    print(printed(lists.patches(count) if kind == "patches" else lists.start()))


if __name__ == "__main__":
    main()
