#!/usr/bin/env python3
"""Prints the input of `merge` for the benchmark: an array of a document and a patch.

    bench/inputs.py NAMES

The document and the patch have NAMES names each, those of all levels counted: one
half in `accounts`, objects of two levels, the other in `settings`, one large flat
object. The patch changes, removes and adds, and its names come in no order. The same
arguments always give the same bytes.
"""

import sys

from values import Numbers, account, members_of, printed, setting


def names_in(value):
    if isinstance(value, dict):
        return sum(1 + names_in(part) for part in value.values())
    if isinstance(value, list):
        return sum(names_in(part) for part in value)
    return 0


def changes(numbers, old):
    """A patch of one account, with some seven names."""
    new = account(numbers)
    patch = {name: new[name] for name in numbers.shuffled(new) if numbers.chance(60)}
    if "address" in patch:
        del patch["address"]["number"]
    if numbers.chance(30):
        patch[list(old)[numbers.below(len(old))]] = None
    patch["note"] = numbers.words(6) if numbers.chance(50) else None
    return patch


def accounts_of(numbers, names):
    """Accounts with that many names in all, and a patch of them with as many."""
    old = {f"account-{place:06}": account(numbers) for place in range(names // 12)}
    patch = {}
    for name in old:
        if numbers.chance(10):
            patch[name] = None
        elif numbers.chance(80):
            patch[name] = changes(numbers, old[name])
    missing = names - names_in(patch)
    for place in range(len(old), len(old) + missing // 12):
        patch[f"account-{place:06}"] = account(numbers)
    return old, patch


def settings_of(numbers, names):
    return members_of(numbers, names, "setting-", setting)


def merge_input(names):
    """A document and a patch of it."""
    numbers = Numbers()
    document, patch = {}, {}
    for part, make in (("settings", settings_of), ("accounts", accounts_of)):
        document[part], changed = make(numbers, names // 2)
        patch[part] = numbers.disordered(changed)
    return [document, patch]


if __name__ == "__main__":
    print(printed(merge_input(int(sys.argv[1]))))
