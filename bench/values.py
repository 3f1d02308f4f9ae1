"""What the inputs of the benchmark are made of: numbers that look random and are the
same everywhere, the values that are drawn with them, and how they are printed."""

import json

WORDS = [
    *"amber brook cedar delta ember field grove haven island jolly kettle lantern".split(),
    *"meadow north orchard pebble quartz river signal timber upland valley yarrow".split(),
    *("Zürich", "café", "東京", '"quoted"', "back\\slash", "a\ttab", "a\nline"),
]


class Numbers:
    """A small generator of numbers (Knuth's constants), the same everywhere."""

    def __init__(self):
        self.state = 7396

    def below(self, limit):
        self.state = (self.state * 6364136223846793005 + 1442695040888963407) % 2**64
        return (self.state >> 11) * limit >> 53

    def chance(self, percent):
        return self.below(100) < percent

    def words(self, count):
        return " ".join(WORDS[self.below(len(WORDS))] for _ in range(count))

    def shuffled(self, items):
        items = list(items)
        for last in range(len(items) - 1, 0, -1):
            other = self.below(last + 1)
            items[last], items[other] = items[other], items[last]
        return items

    def disordered(self, members):
        """The same object, with its names in no order."""
        return {name: members[name] for name in self.shuffled(members)}


def printed(value):
    return json.dumps(value, ensure_ascii=False, separators=(",", ":"))


def account(numbers):
    """An account: eleven names, and so twelve with its own."""
    return {
        "id": numbers.below(2**31) - 2**30,
        "name": numbers.words(3),
        "mail": f"{WORDS[numbers.below(20)]}.{numbers.below(10**6)}@example.org",
        "about": numbers.words(32),
        "active": numbers.chance(80),
        "phone": None,
        "visits": [numbers.below(10**9), None, numbers.below(10**9), numbers.words(2)],
        "address": {
            "city": WORDS[numbers.below(len(WORDS))],
            "street": numbers.words(3),
            "number": numbers.below(200),
        },
    }


def text(numbers):
    return numbers.words(6)


def setting(numbers):
    if numbers.chance(70):
        return text(numbers)
    return numbers.below(2**40) if numbers.chance(70) else numbers.chance(50)


def point(numbers):
    """A small object of three small values."""
    x, y = numbers.below(10**6), numbers.below(10**6)
    return {"x": x, "y": y, "on": numbers.chance(50)}


def moved_point(numbers):
    """A patch of a point."""
    return {**point(numbers), "on": None}


def row(numbers):
    """An array of numbers, 16 at most."""
    return [numbers.below(10**6) for _ in range(numbers.below(17))]


def members_of(numbers, count, stem, value, changed=None, touched=60):
    """An object of that many values, and a patch of as many names.

    The patch touches that many in a hundred of the object's names: it removes some of
    them and changes the others; what it lacks then, it adds.
    """
    old = {f"{stem}{place:06}": value(numbers) for place in range(count)}
    patch = {}
    for name in old:
        if numbers.chance(touched):
            patch[name] = None if numbers.chance(15) else (changed or value)(numbers)
    for place in range(count, 2 * count - len(patch)):
        patch[f"{stem}{place:06}"] = value(numbers)
    return old, patch
