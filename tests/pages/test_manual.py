"""The man page of the library is what docs/manual.py prints of the header: each call with its prototype, each type, and each status
with its number. The man pages of the program and of the scripts are looked at in tests/program/test_help.py.
"""

import re

import pytest
from calls import TOP

PAGE, HEADER = TOP / "docs/mergejoin.3", (TOP / "bindings/c/mergejoin.h").read_text("utf-8")


@pytest.fixture(name="shown")
def what_man_shows(needs, run):
    """The words of the page as man shows them on a wide terminal, with single spaces."""
    needs("man")
    status, out, err = run(["man", "--warnings", "-l", PAGE], setting={"MANWIDTH": "500", "LC_ALL": "C.UTF-8"})
    assert (status, err) == (0, "")
    return re.sub(r"\s+", " ", re.sub(r".\x08", "", out))


def test_the_page_is_what_is_printed_of_the_header(run):
    assert run([TOP / "docs/manual.py", "library"]) == (0, PAGE.read_text("utf-8"), "")


def test_each_call_is_shown_with_its_prototype(shown):
    declared = re.findall(r"^((?:mergejoin_reply|uint32_t|void|static inline (?:mergejoin_text|size_t|int)) mergejoin_\w+[^_\W]\([^;{]*\))", HEADER, re.M)
    declared = [re.sub(r"\s+", " ", text.removeprefix("static inline ")) for text in declared]
    declared += [re.sub(r"mergejoin_reply (\w+)\((.*)uint8_t \*out, size_t capacity, size_t limit\)", r"char *\1_new(\2size_t limit, mergejoin_reply *reply)", text)
                 for text in declared if "uint8_t *out" in text]
    assert len(declared) > 40
    assert [text for text in declared if f" {text}; " not in shown] == []


def test_each_status_is_shown_with_its_number(shown):
    statuses = re.findall(r"^  (MERGEJOIN_\w+) = (\d+)", HEADER, re.M)
    assert len(statuses) > 10
    assert [name for name, number in statuses if f" {name} ({number}) " not in shown] == []


def test_each_comment_of_a_call_is_shown(shown):
    """Word by word, without what makes a comment."""
    comments = re.findall(r"^/\*\*((?:(?!\*/).)*)\*/\n(?:static inline|void|uint32_t)", HEADER, re.M | re.S)
    assert len(comments) > 20
    for comment in comments:
        words = re.sub(r"\s+", " ", re.sub(r"^ ?\*( |$)", "", comment, flags=re.M)).replace("`", "").strip()
        assert words in shown
