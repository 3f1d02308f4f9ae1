"""Each figure is what is kept, but for a twentieth, and a tenth more of memory: a loss shows, and a gain has to be kept."""

import kept
import pytest
import table
from calls import TOP, has_library
from counting import Ended, driver_in, measured, measures, of_call

TITLES = list(measures())
KEPT = kept.rows_of((TOP / kept.PATH).read_text("utf-8"))
# Two kinds of processors, for all that the C library knows.
SETTINGS = [{}, {"GLIBC_TUNABLES": "glibc.cpu.hwcaps=-AVX2,-AVX512F,-AVX512VL,-ERMS,-FSRM,-SSSE3,-SSE4_1,-SSE4_2,-BMI2"}]


@pytest.fixture(scope="session", name="built")
def what_is_built(needs):
    """Builds the library, if all is here that counts its calls."""
    needs("valgrind", "gcc")
    assert has_library(), "bin/library failed"


@pytest.fixture(scope="session", name="figures")
def figures_of_all(request, built, tmp_path_factory):
    """The figures of the titles that are chosen, which are measured at once."""
    chosen = [item.callspec.params["title"] for item in request.session.items if "figures" in item.fixturenames]
    return measured(chosen, tmp_path_factory.mktemp("cost"))


@pytest.mark.parametrize("title", TITLES)
def test_a_figure_is_what_is_kept(title, figures):
    figure = figures[title]
    assert not isinstance(figure, Ended), f"{title}: {figure}"
    fault = kept.fault_of(title, KEPT.get(title), figure)
    assert fault is None, fault


def test_each_row_that_is_kept_is_counted():
    assert [title for title, row in KEPT.items() if row.figure != kept.GONE] == TITLES


@pytest.mark.parametrize("title", ["join of 33 flat texts", "merge of 31 equal small texts", "patch that tests a long text"])
def test_the_processor_does_not_matter(title, built, tmp_path):
    row = next(row for name, *row in table.rows() if name == title)
    driver = driver_in(tmp_path)
    first, second = (of_call(*row, driver, setting) for setting in SETTINGS)
    assert first == second
