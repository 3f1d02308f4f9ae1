"""The figures on patches: replicas that receive them, which conflict, how a log is joined in parts, and how a new start begins. Each
document and each line in them is what the proved program prints.
"""

import json
import pathlib
import subprocess

from drawing import CONFLICT, DASHES, HIGH, PATCH, PLAIN, SHOWN, SPACE, TESTED, WIDE, Drawing

TOP = pathlib.Path(__file__).resolve().parent.parent.parent


def answer(command, *parts):
    """Gives the program's line for an array of these texts."""
    given = f"[{','.join(parts)}]".encode()
    done = subprocess.run([TOP / "out/mergejoin", command], input=given, capture_output=True, check=False)
    return (done.stdout or done.stderr).decode().strip()


def replicas():
    """Three replicas that receive the same patches, each in an order of its own."""
    start = '{"k":0}'
    one, two, three = '{"a":{"x":1}}', '{"a":{"y":null}}', '{"k":null}'
    orders = [[one, two, three], [three, one, two], [two, three, two, one]]
    drawing = Drawing("Three replicas, their patches in three orders, and the one document that all show")
    width = WIDE * max(len(text) for text in (one, two, three)) + 4 * SPACE
    step = HIGH + 3 * SPACE
    last = 32 + step * (1 + max(len(order) for order in orders))
    for number, order in enumerate(orders):
        x = SPACE + number * (width + 3 * SPACE)
        drawing.text(x + width // 2, 20, f"replica {number + 1}", "middle", "bold")
        y = 32
        for place, text in enumerate([start, *order]):
            _, height = drawing.box(x, y, [text], PATCH if place else PLAIN, width)
            below = last if place == len(order) else y + step
            drawing.down(x + width // 2, y + height, below)
            y += step
        shown = answer("replay", start, *order)
        drawing.box(x, last, [shown], SHOWN, width)
    join = answer("join", one, two, three)
    drawing.text(SPACE, last + 2 * HIGH + SPACE + 10, f"The join of the patches: {join}")
    drawing.legend([(PLAIN, "the start"), (PATCH, "a patch that arrives"), (SHOWN, "the document that is shown")])
    return drawing.svg()


def lines_of(value, path="", depth=0):
    """Gives each line of a document as a tree, with the pointer to what is there."""
    for name, part in value.items():
        here = f"{path}/{name}"
        if isinstance(part, dict):
            yield here, "  " * depth + name
            yield from lines_of(part, here, depth + 1)
        else:
            yield here, "  " * depth + f"{name}: {json.dumps(part)}"


def tree(drawing, x, text, conflicts):
    lines = list(lines_of(json.loads(text)))
    marked = [number for number, (path, _) in enumerate(lines) if path in conflicts]
    return drawing.box(x, 40, [line for _, line in lines], PATCH, 0, marked)


def conflict():
    """Two patches that conflict, and two that are compatible with their join."""
    one, two, other = '{"a":{"x":1},"b":1}', '{"a":{"y":null},"b":2}', '{"a":{"y":null},"c":2}'
    drawing = Drawing("Two patches that conflict, and two that do not, with their join")
    refusal = answer("join", one, two)
    places = json.loads(f"[{refusal.split(' at ', 1)[1]}]")
    x = SPACE
    for text in (one, two):
        width, height = tree(drawing, x, text, places)
        x += width + SPACE
    drawing.text(SPACE, 24, "These conflict:", weight="bold")
    bottom = 40 + height + HIGH
    drawing.text(SPACE, bottom, refusal)
    x = max(x, SPACE + WIDE * len(refusal)) + 5 * SPACE
    drawing.text(x, 24, "These are compatible, and this is their join:", weight="bold")
    for text in (one, other):
        width, _ = tree(drawing, x, text, [])
        x += width + SPACE
    joined = answer("join", one, other)
    lines = [line for _, line in lines_of(json.loads(joined))]
    drawing.box(x + 2 * SPACE, 40, lines, SHOWN)
    drawing.legend([(PATCH, "a patch"), (CONFLICT, "where it conflicts with the other"), (SHOWN, "the join")])
    return drawing.svg()


def reduce():
    """A log in files, of which one is read twice, the joins of its parts, their joins in turn, and the one text."""
    one = ["file 1", '{"a":{"x":1}}', '{"b":null}']
    two = ["file 2", '{"a":{"y":2}}', '{"c":[3]}']
    three = ["file 3", '{"b":null}', '{"a":{"x":1}}']
    drawing = Drawing("A log in files, of which one is read twice, the joins of its parts, their joins in turn, and the one text")
    parts = [one, two, [f"{two[0]}, again", *two[1:]], three]
    texts = [answer("join", *part[1:]) for part in parts]
    wide = WIDE * max(map(len, texts)) + 2 * SPACE
    places = [SPACE + number * (wide + 2 * SPACE) for number in range(len(parts))]
    for x, part in zip(places, parts):
        _, height = drawing.box(x, SPACE, part, PLAIN, wide)
    above = [(x + wide // 2, SPACE + height) for x in places]
    y = SPACE + height + 3 * SPACE
    while True:
        colour, below = SHOWN if len(texts) == 1 else PATCH, []
        for number, text in enumerate(texts):
            # In the middle of those that it joins.
            joined = above[number * len(above) // len(texts):(number + 1) * len(above) // len(texts)]
            middle = sum(x for x, _ in joined) // len(joined)
            width = max(wide, WIDE * len(text) + 2 * SPACE)
            for x, bottom in joined:
                drawing.down(x, bottom, y, middle + (x - middle) // 4)
            _, height = drawing.box(middle - width // 2, y, [text], colour, width)
            below.append((middle, y + height))
        if len(texts) == 1:
            break
        above, y = below, y + height + 3 * SPACE
        texts = [answer("join", *texts[number:number + 2]) for number in range(0, len(texts), 2)]
    drawing.legend([(PLAIN, "patches, as they are read"), (PATCH, "a join, on some machine"), (SHOWN, "the join of all")])
    return drawing.svg()


# Of the new start: the middle of each replica's column, and how wide a box of it is.
LANES, COLUMN = (164, 504, 844), 308


class Sequence:
    """The replicas next to one another, from the top down as time passes."""

    def __init__(self, title, names):
        self.drawing, self.last = Drawing(title), [32] * len(names)
        for lane, name in zip(LANES, names):
            self.drawing.text(lane, 20, name, "middle", "bold")

    def state(self, number, y, lines, colour):
        """Draws what a replica has from here on, below the line from what it had."""
        if self.last[number] != 32:
            self.drawing.path(f"M{LANES[number]} {self.last[number]}V{y}")
        _, height = self.drawing.box(LANES[number] - COLUMN // 2, y, lines, colour, COLUMN)
        self.last[number] = y + height

    def send(self, sender, y, words, late=None):
        """Draws a message from one replica to the others, but to one of them only its beginning if it is late there."""
        for number, lane in enumerate(LANES):
            if number == late:
                before = LANES[number - 1 if number > sender else number + 1]
                self.drawing.path(f"M{before} {y}h{(lane - before) // 4}", more=DASHES)
            elif number != sender:
                self.drawing.across(LANES[sender], y, lane)
        is_last = sender == len(LANES) - 1
        self.drawing.text(LANES[sender] + (-SPACE if is_last else SPACE), y - 5, words, "end" if is_last else "start")

    def arrive(self, number, y, words):
        """Draws the end of a message that is late."""
        self.drawing.across(LANES[number] - COLUMN // 2, y, LANES[number], dashed=True)
        self.drawing.text(LANES[number] - SPACE, y - 5, words, "end")


def new_start():
    """Three logs of patches: two patches conflict, one replica decides, and each replica begins the new start when it knows of it."""
    start = '{"colour":"red","size":1}'
    blue, green, size = '{"colour":"blue"}', '{"colour":"green"}', '{"size":2}'
    places = answer("replay", start, blue, green).split(" at ", 1)[1]
    alone, chosen = answer("replay", start, size), answer("replay", start, blue, size)
    sequence = Sequence("How three replicas agree on a new start", ["replica 1, which decides", "replica 2", "replica 3"])
    for number in range(3):
        sequence.state(number, 32, [f"start 1: {start}"], PLAIN)
    sequence.send(0, 96, f"1.1 {blue}")
    sequence.send(1, 130, f"2.1 {green}", late=2)
    sequence.send(2, 164, f"3.1 {size}")
    for number in (0, 1):
        sequence.state(number, 184, [f"1.1 and 2.1 conflict at {places}:", f"shows {alone}"], CONFLICT)
    sequence.send(0, 266, "decision: start 1 ends with 1.1, 3.1", late=2)
    for number in (0, 1):
        sequence.state(number, 286, [f"start 2: {chosen}"], PLAIN)
    sequence.send(1, 350, f"2.2 {green}, for start 2")
    sequence.state(2, 366, ["2.2 is early, and waits"], TESTED)
    sequence.arrive(2, 430, "the decision")
    sequence.state(2, 446, [f"start 2: {chosen}"], PLAIN)
    sequence.arrive(2, 510, "2.1")
    sequence.state(2, 526, ["2.1 is late, and is dropped"], TESTED)
    for number in range(3):
        sequence.state(number, 580, [f"shows {answer('replay', chosen, green)}"], SHOWN)
    sequence.drawing.legend([(PLAIN, "a start"), (CONFLICT, "patches that conflict"), (TESTED, "a message of another start"),
                             (SHOWN, "the document in the end")])
    return sequence.drawing.svg()
