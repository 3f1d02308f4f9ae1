"""What every figure is drawn with: boxes of lines, arrows, and a legend. A figure has a ground of its own, and two sets of colours: a
browser shows the dark one to those who ask for it (`prefers-color-scheme`), also if the figure is an image of a page.
"""

from xml.sax.saxutils import escape

# Of a character, a line and the space around a text.
WIDE, HIGH, SPACE = 8, 19, 10

# Each class of shapes, with its colour on a light and on a dark page.
FILLS = {
    "ground": ("#ffffff", "#131416"),
    "plain": ("#f4f4f4", "#2a2c2f"),
    "patch": ("#dbe9fb", "#1d3a5f"),
    "shown": ("#dff3dd", "#1f4a2a"),
    "conflict": ("#fbdcd9", "#6b2622"),
    "tested": ("#fdf0cf", "#54431a"),
    "trusted": ("#e9e0f5", "#3b2c56"),
    # The programs of a plot.
    "mergejoin": ("#1f5fb4", "#6aa6f0"),
    "Rust": ("#c2571a", "#ef9459"),
    "jq": ("#3b8a3b", "#6fc46f"),
    "jsonpatch": ("#8a4b9e", "#c48ad8"),
}
DASHES = ' stroke-dasharray="5 4"'
INK, EDGE, GRID = ("#1b1b1b", "#d6d6d6"), ("#666666", "#9a9a9a"), ("#cccccc", "#3d3f42")
PLAIN, PATCH, SHOWN, CONFLICT, TESTED, TRUSTED = list(FILLS)[1:7]


def rules(number, names):
    """Gives the rules of a sheet for the light colours, 0, or the dark ones, 1, of the classes that a figure has."""
    yield f"text{{fill:{INK[number]};white-space:pre}}"
    yield f".edge{{stroke:{EDGE[number]};fill:none}}.head{{fill:{EDGE[number]}}}.box{{stroke:{EDGE[number]}}}.grid{{stroke:{GRID[number]};fill:none}}"
    for name in names:
        yield f".{name}{{fill:{FILLS[name][number]}}}"
        if name in list(FILLS)[7:]:
            yield f".line-{name}{{stroke:{FILLS[name][number]};stroke-width:2;fill:none}}"


class Drawing:
    def __init__(self, title):
        self.title, self.shapes, self.width, self.height, self.used = title, [], 0, 0, {"ground"}

    def reach(self, right, bottom):
        self.width, self.height = max(self.width, right), max(self.height, bottom)

    def text(self, x, y, words, anchor="start", weight="normal"):
        more = (f' text-anchor="{anchor}"' if anchor != "start" else "") + (f' font-weight="{weight}"' if weight != "normal" else "")
        self.shapes.append(f'<text x="{x}" y="{y}"{more}>{escape(words)}</text>')
        self.reach(x + (WIDE * len(words) if anchor == "start" else 0), y)

    def rectangle(self, x, y, width, height, *names):
        """Draws a rectangle of some classes, of which the last is its colour."""
        self.used.add(names[-1])
        corners = ' rx="4"' if "box" in names else ""
        self.shapes.append(f'<rect class="{" ".join(names)}" x="{x}" y="{y}" width="{width}" height="{height}"{corners}/>')

    def box(self, x, y, lines, colour, width=0, marked=(), height=0):
        """Draws lines in a box, those that are marked on a ground of their own, and gives its width and height."""
        width = max(width, WIDE * max(len(line) for line in lines) + 2 * SPACE)
        height = max(height, HIGH * len(lines) + SPACE)
        self.rectangle(x, y, width, height, "box", colour)
        for number, line in enumerate(lines):
            top = y + SPACE // 2 + HIGH * number
            if number in marked:
                self.rectangle(x + 1, top, width - 2, HIGH, CONFLICT)
            self.text(x + SPACE, top + 14, line)
        self.reach(x + width, y + height)
        return width, height

    def path(self, along, name="edge", more=""):
        self.shapes.append(f'<path class="{name}" d="{along}"{more}/>')

    def down(self, x, top, bottom, to=None):
        """Draws an arrow that ends with its head downwards, at another place across if one is given."""
        to = x if to is None else to
        self.path(f"M{x} {top}L{to} {bottom - 6}")
        self.path(f"M{to - 4} {bottom - 7}h8l-4 7z", "head")

    def across(self, x, y, to, dashed=False):
        """Draws an arrow to the left or to the right."""
        back = 7 if to < x else -7
        self.path(f"M{x} {y}H{to + back}", more=DASHES if dashed else "")
        self.path(f"M{to} {y}l{back} -4v8z", "head")

    def legend(self, colours):
        """Shows below the drawing what each colour means."""
        x, y = SPACE, self.height + 2 * SPACE
        for colour, words in colours:
            self.rectangle(x, y, HIGH, HIGH - 4, "legend", "box", colour)
            self.text(x + HIGH + 6, y + 12, words)
            x += HIGH + 6 + WIDE * len(words) + 3 * SPACE

    def svg(self):
        width, height = self.width + SPACE, self.height + SPACE
        style = 'font-family="monospace" font-size="13" xml:space="preserve"'
        head = f'<svg xmlns="http://www.w3.org/2000/svg" width="{width}" height="{height}" viewBox="0 0 {width} {height}" {style} role="img">'
        light, dark = ("".join(rules(number, [name for name in FILLS if name in self.used])) for number in (0, 1))
        sheet = f"<style>{light}@media (prefers-color-scheme:dark){{{dark}}}</style>"
        ground = '<rect class="ground" width="100%" height="100%"/>'
        return "\n".join([head, f"<title>{escape(self.title)}</title>", sheet, ground, *self.shapes, "</svg>", ""])
