"""The pictures of the pages are as docs/pictures/draw.py draws them now, from what the program prints, from crates.txt and from
the figures that bench/run keeps. Each has a ground, each colour of it in its legend, and a light and a dark colour for each, on
which its text can be read. In that of the crates no line crosses another, or a box.
"""

import re
import subprocess
import xml.etree.ElementTree as tree

import pytest
from calls import TOP

PICTURES = {path.name: path.read_text("utf-8") for path in sorted((TOP / "docs/pictures").glob("*.svg"))}
GROUND = '<rect class="ground" width="100%" height="100%"/>'
# How much lighter one of two colours has to be so that a text can be read on a ground, and a line seen (WCAG 2).
READ, SEEN = 4.5, 3


@pytest.fixture(name="drawn", scope="module")
def pictures_that_are_drawn_now(program, tmp_path_factory):
    directory = tmp_path_factory.mktemp("drawn")
    subprocess.run([TOP / "docs/pictures/draw.py", directory], check=True)
    return {path.name: path.read_text("utf-8") for path in directory.iterdir()}


def test_each_picture_is_there_and_no_other(drawn):
    assert set(drawn) == set(PICTURES)


@pytest.mark.parametrize("name", PICTURES)
def test_a_picture_is_as_it_is_drawn_now(drawn, name):
    assert drawn[name].splitlines() == PICTURES[name].splitlines()


def test_pictures_that_need_no_program_are_as_they_are_drawn_now(tmp_path):
    names = ["crates.svg", "cost.svg", "boundary.svg", "which.svg"]
    subprocess.run([TOP / "docs/pictures/draw.py", tmp_path, *names], check=True)
    assert {path.name: path.read_text("utf-8") for path in tmp_path.iterdir()} == {name: PICTURES[name] for name in names}


@pytest.mark.parametrize("name", PICTURES)
def test_a_picture_has_a_ground_and_each_colour_in_its_legend(name):
    *_, ground, shapes = PICTURES[name].split("\n", 4)
    assert ground == GROUND
    shown, explained = (set(re.findall(rf'^<rect class="(?{is_or_not}legend)(?:[\w ]+ )?(\w+)"', shapes, re.M)) for is_or_not in "!=")
    assert shown and shown == explained


def colours(name):
    """Gives the colours of the classes of a picture, on a light page and on a dark one."""
    sheet = re.search(r"<style>(.*?)@media \(prefers-color-scheme:dark\)\{(.*)\}</style>", PICTURES[name])
    for rules in sheet.groups():
        yield {kind: colour for kind, colour in re.findall(r"([\w.-]+)\{(?:stroke|fill):(#[0-9a-f]{6})", rules)}


def lighter(one, other):
    """How much lighter one of two colours is, as WCAG 2 counts it."""
    def light(colour):
        parts = (int(colour[at:at + 2], 16) / 255 for at in (1, 3, 5))
        red, green, blue = (part / 12.92 if part <= 0.04045 else ((part + 0.055) / 1.055) ** 2.4 for part in parts)
        return 0.2126 * red + 0.7152 * green + 0.0722 * blue + 0.05

    return max(light(one), light(other)) / min(light(one), light(other))


@pytest.mark.parametrize("name", PICTURES)
def test_a_picture_can_be_read_on_a_light_and_on_a_dark_page(name):
    shapes = PICTURES[name].split("</style>")[1]
    used = set(re.findall(r'<rect class="(?:[\w ]+ )?(\w+)"', shapes))
    lines = set(re.findall(r'class="(line-\w+)"', shapes))
    light, dark = colours(name)
    assert set(light) == set(dark) and light[".ground"] != dark[".ground"]
    for known in (light, dark):
        assert not [kind for kind in used - {line.removeprefix("line-") for line in lines} if lighter(known["text"], known[f".{kind}"]) < READ]
        assert not [line for line in lines | {"edge"} if lighter(known[f".{line}"], known[".ground"]) < SEEN]


def test_no_line_of_the_crates_crosses_another_or_a_box():
    shapes = list(tree.fromstring(PICTURES["crates.svg"]))
    boxes = [tuple(float(shape.get(side)) for side in ("x", "y", "width", "height")) for shape in shapes if "box" in shape.get("class", "")]
    lines = [tuple(map(float, re.fullmatch(r"M(\d+) (\d+)L(\d+) (\d+)", shape.get("d")).groups())) for shape in shapes if shape.get("class") == "edge"]
    assert len(lines) > 15 and all(x == to for x, _, to, _ in lines)
    for x, top, _, bottom in lines:
        assert not [box for box in boxes if box[0] <= x <= box[0] + box[2] and box[1] < bottom and top < box[1] + box[3]]
        assert len([other for other in lines if other[0] == x and other[1] < bottom and top < other[3]]) == 1


def test_the_bindings_are_above_the_crate_that_they_use():
    assert [name for name in ("C", "Rust", "Python", "PostgreSQL", "SQLite") if f">{name}</text>" not in PICTURES["crates.svg"]] == []
