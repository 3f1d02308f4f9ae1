"""The plot of costs, of the numbers in bench/sizes.txt."""

import math
import pathlib

from drawing import HIGH, SPACE, Drawing

TOP = pathlib.Path(__file__).resolve().parent.parent.parent

# The sides of a panel, and what is left of it and below it for the numbers and the titles of its axes.
ACROSS, DOWN, LEFT, BELOW = 236, 190, 84, 92
PROGRAMS = ("mergejoin", "Rust", "jq", "jsonpatch")


class Panel:
    """One job of the plot, on logarithmic axes: bytes of input across, instructions up."""

    def __init__(self, drawing, x, y, least, most):
        self.drawing, self.x, self.y, self.least, self.most = drawing, x, y, least, most

    def place(self, size, count):
        """Where a number of bytes and a number of instructions are."""
        across = math.log10(size / self.least[0]) / math.log10(self.most[0] / self.least[0])
        up = math.log10(count / self.least[1]) / math.log10(self.most[1] / self.least[1])
        return round(self.x + ACROSS * across, 1), round(self.y + DOWN * (1 - up), 1)

    def axes(self, title):
        """Draws a line of the grid at each power of ten, with its number, and the titles of both axes."""
        drawing, middle = self.drawing, self.x + ACROSS // 2
        drawing.text(middle, self.y - SPACE, title, "middle", "bold")
        for power, words in [(4, "10 kB"), (5, "100 kB"), (6, "1 MB")]:
            x, _ = self.place(10**power, self.least[1])
            drawing.path(f"M{x} {self.y}v{DOWN}", "grid")
            drawing.text(x, self.y + DOWN + 16, words, "middle")
        for power in range(round(math.log10(self.least[1])), round(math.log10(self.most[1])) + 1):
            _, y = self.place(self.least[0], 10**power)
            drawing.path(f"M{self.x} {y}h{ACROSS}", "grid")
            drawing.text(self.x - 6, y + 4, f"{10**power / 1e6:,g}", "end")
        drawing.text(middle, self.y + DOWN + 16 + HIGH, "input, in bytes", "middle")
        turned = f"rotate(-90 {self.x - LEFT + 24} {self.y + DOWN // 2})"
        drawing.shapes.append(f'<text x="{self.x - LEFT + 24}" y="{self.y + DOWN // 2}" text-anchor="middle" transform="{turned}">'
                              "instructions, in millions</text>")
        drawing.reach(self.x + ACROSS + 2 * SPACE, self.y + DOWN + 2 * HIGH)

    def line(self, program, points):
        """Draws the line of a program, with a mark at each point that was measured."""
        places = [self.place(*point) for point in points]
        self.drawing.path("M" + "L".join(f"{x} {y}" for x, y in places), f"line-{program}")
        for x, y in places:
            self.drawing.rectangle(f"{x - 3:.1f}", f"{y - 3:.1f}", 6, 6, program)


def cost():
    """The instructions of each job by the size of its input, next to those of other programs."""
    figures = {}
    for line in (TOP / "bench/sizes.txt").read_text("utf-8").splitlines():
        job, program, size, count = line.split(";")
        figures.setdefault(job, {}).setdefault(program, []).append((int(size), int(count)))
    drawing = Drawing("Instructions of each job, in millions, by the bytes of its input, on logarithmic axes, next to other programs")
    counts = [count for job in figures.values() for points in job.values() for _, count in points]
    least = 8_000, 10 ** math.floor(math.log10(min(counts)))
    most = 1_250_000, 10 ** math.ceil(math.log10(max(counts)))
    for number, (job, programs) in enumerate(figures.items()):
        panel = Panel(drawing, LEFT + number % 3 * (ACROSS + LEFT + 2 * SPACE), 40 + number // 3 * (DOWN + BELOW), least, most)
        panel.axes(job)
        for program, points in programs.items():
            panel.line(program, points)
    drawing.legend([(program, program) for program in PROGRAMS])
    return drawing.svg()
