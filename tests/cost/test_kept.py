"""What has to hold of the figures that are kept, and that each row which is higher than it was has a reason beside it."""

import os
import subprocess

import kept
import pytest
from calls import TOP
from kept import GONE, Row

FILE = TOP / kept.PATH
# A copy without the history says where it is.
HISTORY = os.environ.get("MERGEJOIN_HISTORY", TOP / ".git")
NOW = {"join": Row(1000, ""), "peak of join": Row(10.0, "")}


def test_each_row_that_was_raised_has_a_reason():
    text = FILE.read_text("utf-8")
    before = kept.before(TOP, text, HISTORY)
    assert before is not None, f"the file of {kept.commit_of(text)} is not in {HISTORY}: it needs the whole history"
    faults = list(kept.without_reason(kept.rows_of(text), kept.rows_of(before)))
    assert not faults, "\n".join(faults)


def test_a_file_is_written_as_it_is_read():
    text = FILE.read_text("utf-8")
    assert kept.text_of(kept.commit_of(text), kept.rows_of(text)) == text


@pytest.mark.parametrize("title,figure", [("join", 950), ("join", 1050), ("peak of join", 9.5), ("peak of join", 11.0)])
def test_a_figure_that_is_near_holds(title, figure):
    assert kept.fault_of(title, NOW[title], figure) is None
    assert kept.renewed(NOW, {**{name: row.figure for name, row in NOW.items()}, title: figure}) == NOW


@pytest.mark.parametrize("title,figure,says", [("join", 1051, "1.051"), ("join", 2000, "2.000"), ("peak of join", 11.01, "1.101")])
def test_a_loss_is_reported_with_both_figures_and_their_ratio(title, figure, says):
    fault = kept.fault_of(title, NOW[title], figure)
    assert all(word in fault for word in (f"{figure}", f"{NOW[title].figure}", says, "too much", "a reason", kept.WRITES))


@pytest.mark.parametrize("title,figure", [("join", 949), ("peak of join", 9.49)])
def test_a_gain_is_reported_with_the_command_that_keeps_it(title, figure):
    fault = kept.fault_of(title, NOW[title], figure)
    assert "gain" in fault and kept.WRITES in fault
    assert kept.renewed(NOW, {title: figure})[title] == Row(figure, "")


def test_a_figure_with_no_row_is_reported():
    assert "none is kept" in kept.fault_of("replay", None, 5)


@pytest.mark.parametrize("now,names", [
    ({"join": Row(1001, ""), "peak of join": Row(10.0, "")}, ["join"]),
    ({"join": Row(1001, "it says more"), "peak of join": Row(10.1, "")}, ["peak of join"]),
    ({"join": Row(1001, "it says more"), "peak of join": Row(9.0, "")}, []),
    ({"join": Row(GONE, "it is another"), "other": Row(5, ""), "peak of join": Row(10.0, "")}, []),
    ({"join": Row(GONE, "")}, ["join", "peak of join"]),
])
def test_what_is_raised_or_gone_needs_a_reason(now, names):
    assert [fault.split(": ")[0] for fault in kept.without_reason(now, NOW)] == names


@pytest.fixture(name="history")
def small_history(tmp_path):
    """A history in which the file was changed twice; gives what runs git there, what commits a row, and where it is."""
    def git(*words):
        who = ["-c", "user.name=a", "-c", "user.email=a@b", "-c", "commit.gpgsign=false", "-c", "tag.gpgsign=false"]
        return subprocess.run(["git", *who, *words], cwd=tmp_path, capture_output=True, text=True, check=True).stdout.strip()

    def commit(figure, since):
        file = tmp_path / kept.PATH
        file.parent.mkdir(parents=True, exist_ok=True)
        file.write_text(kept.text_of(since, {"join": Row(figure, "")}))
        git("add", ".")
        git("commit", "-qm", "x")
        return git("rev-parse", "HEAD")

    git("init", "-q")
    return git, commit, tmp_path


def compared(directory):
    """The figure that the file in a directory is compared with."""
    text = (directory / kept.PATH).read_text()
    before = kept.before(directory, text, directory / ".git")
    return before and kept.rows_of(before)["join"].figure


def test_without_a_tag_it_is_the_commit_that_the_file_names(history):
    _, commit, directory = history
    first = commit(1000, "nothing")
    commit(900, first)
    commit(800, first)
    assert compared(directory) == 1000


def test_with_tags_it_is_the_last(history):
    git, commit, directory = history
    first = commit(1000, "nothing")
    for figure in (900, 800):
        commit(figure, first)
        git("tag", f"v{figure}")
    commit(700, first)
    assert compared(directory) == 800


def test_a_commit_that_is_not_there_is_nothing(history):
    _, commit, directory = history
    commit(1000, "0" * 40)
    assert compared(directory) is None
