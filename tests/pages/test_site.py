"""bin/site makes the site of the pages without one warning of Sphinx, twice with the same bytes: in another copy of the repository, by
another mask, hash and time. Each link within the site leads to a file and an id, nothing is loaded from elsewhere, and each
page, call of C and name of Python is there. What is in the way is one line of error, and then nothing is made.
"""

import html.parser
import os
import pathlib
import re
import shutil
import tempfile

import calls
import pytest
from calls import TOP
from sites import lacking_for_a_site

SITE = TOP / "bin/site"
PAGES = [path.relative_to(TOP) for pattern in ("*.md", "docs/*.md", "crates/*/README.md", "bindings/*/README.md") for path in sorted(TOP.glob(pattern))]
MANUALS = sorted(path.name for path in (TOP / "docs").glob("*.[13]"))
HEADER, PACKAGE = TOP / "bindings/c/mergejoin.h", TOP / "bindings/python/src/mergejoin/__init__.py"
LEAST = 60  # links from page to page
LEFT_OUT = shutil.ignore_patterns(".git", "out", "target", "__pycache__")
# What loads, by element and attribute.
LOADS = {("script", "src"), ("link", "href"), ("img", "src"), ("iframe", "src"), ("object", "data"), ("source", "src"), ("use", "href")}


class Page(html.parser.HTMLParser):
    """The links of a page that are in its article, and others; what it loads; and its ids."""

    def __init__(self, path):
        super().__init__()
        self.path, self.within, self.inner, self.outer, self.loaded, self.ids = path, 0, [], [], [], set()
        self.feed(path.read_text("utf-8"))

    def handle_starttag(self, tag, attributes):
        given = dict(attributes)
        self.ids |= {given.get("id"), given.get("name") if tag == "a" else None}
        self.within += tag == "article"
        self.loaded += [text for name, text in attributes if (tag, name) in LOADS]
        if tag == "a" and "headerlink" not in (given.get("class") or ""):
            (self.inner if self.within else self.outer).append(given.get("href") or "")

    def handle_endtag(self, tag):
        self.within -= tag == "article"


@pytest.fixture(name="tools", scope="module")
def tools_that_make_a_site(needs):
    needs(lacking=lacking_for_a_site())


@pytest.fixture(name="site", scope="module")
def site_that_is_made(tools, tmp_path_factory):
    """A site that bin/site has made by a narrow mask, over one that was there."""
    directory = tmp_path_factory.mktemp("site")
    (directory / "one").mkdir()
    (directory / "one/.buildinfo").write_text("# bin/site made this site.\n")
    (directory / "one/older.html").write_text("older")
    ended = calls.run(f"umask 077; {SITE} one", shell=True, cwd=directory, limit=300)
    assert ended == (0, f"made {directory}/one\n", "")
    assert [path.name for path in directory.iterdir()] == ["one"]
    return directory / "one"


@pytest.fixture(name="pages", scope="module")
def pages_of_the_site(site):
    return {path: Page(path) for path in sorted(site.rglob("*.html"))}


def files_of(site):
    """Gives the bytes and the mode of each file and directory."""
    return {str(path.relative_to(site)): (path.stat().st_mode & 0o7777, path.read_bytes() if path.is_file() else None) for path in site.rglob("*")}


def test_made_elsewhere_the_site_has_the_same_bytes(site, tmp_path):
    top, temporary = tmp_path / "a copy", tmp_path / "temporary"
    shutil.copytree(TOP, top, ignore=LEFT_OUT, symlinks=True)
    temporary.mkdir()
    temporary.chmod(0o2777)
    strange = {"TZ": "Asia/Tokyo", "PYTHONHASHSEED": "7", "SOURCE_DATE_EPOCH": "1", "TMPDIR": "temporary", "CDPATH": "/", "LC_ALL": "C.UTF-8",
               "PYTHONPATH": str(tmp_path), "SPHINXOPTS": "-T"}
    (tmp_path / "sphinx.py").write_text("raise SystemExit('another')")
    (top / "bindings/python/src/mergejoin/_library.abi3.so").write_text("an extension module that was built in its place")
    ended = calls.run("umask 0; 'a copy/bin/site' 'to a place'", shell=True, setting=strange, cwd=tmp_path, limit=300)
    assert ended == (0, f"made {tmp_path}/to a place\n", "")
    one, other = files_of(site), files_of(tmp_path / "to a place")
    assert sorted(one) == sorted(other)
    assert [name for name, made in one.items() if made != other[name]] == []
    assert {mode for mode, _ in one.values()} == {0o755, 0o644}
    assert not list(temporary.iterdir())


def test_no_file_says_where_it_was_made(site):
    for path in site.rglob("*"):
        if path.is_file():
            text = path.read_bytes()
            assert not [place for place in (str(TOP), str(site.parent), "/tmp/tmp.") if place.encode() in text], path


def leads_to(page, target, pages):
    """Whether a link of a page leads to a file and an id of the site."""
    file, _, anchor = target.partition("#")
    path = pathlib.Path(os.path.normpath(page.path.parent / file)) if file else page.path
    return path.is_file() and (not anchor or path not in pages or anchor in pages[path].ids)


def test_each_link_leads_to_a_file_and_an_id(pages):
    for page in pages.values():
        for target in page.inner + page.outer:
            assert target.startswith("mailto:") or leads_to(page, target, pages), f"{page.path.name} leads to {target}"


def test_the_pages_link_to_one_another(pages):
    """The outline of the index is not counted, nor the links of a page to itself."""
    links = {(page.path, target) for page in pages.values() for target in page.inner
             if page.path.name not in ("index.html", "crates.html", "genindex.html") and not target.startswith("#")}
    assert len(links) >= LEAST


def test_each_page_is_in_the_outline(site, pages):
    named = {target.partition("#")[0] for name in ("index.html", "crates.html") for target in pages[site / name].inner}
    assert [str(page) for page in PAGES if f"{page.with_suffix('.html')}" not in named] == []
    assert [name for name in MANUALS if f"manual/{name}.html" not in named] == []


def test_nothing_is_loaded_from_elsewhere(site, pages):
    for page in pages.values():
        assert [target for target in page.loaded if re.match(r"[a-z]*:?//|/|[a-z]+:", target) and not target.startswith("data:")] == []
    for path in site.rglob("*.css"):
        found = re.findall(r"""(?:url\(|@import (?!url))["']?([^"')]+)""", path.read_text("utf-8"))
        assert [target for target in found if not target.startswith("data:") and not (path.parent / target.partition("?")[0]).is_file()] == []
    for path in site.rglob("*.js"):
        assert not re.search(r"^(import|export) |import\(|XMLHttpRequest", path.read_text("utf-8"), re.M), f"{path.name} loads more"


def test_no_page_links_to_another_host(pages):
    for page in pages.values():
        assert [target for target in page.inner + page.outer if re.match(r"(?!mailto:)[a-z]+:|//", target)] == []


def test_a_dark_ground_is_for_all_who_ask_for_one(site):
    sheet = (site / "_static/styles/furo.css").read_text("utf-8")
    assert re.search(r"@media [^{]*\(prefers-color-scheme: dark\) \{ body:not\(\[data-theme=\"light\"\]\) \{[^}]*--color-background-primary", sheet)


def test_each_call_of_c_and_each_status_is_there(site, pages):
    header = HEADER.read_text("utf-8")
    names = set(re.findall(r"^(?:mergejoin_\w+|uint32_t|void|static inline (?:mergejoin_text|size_t|int)) (mergejoin_\w+[^_\W])\(", header, re.M))
    names |= {f"{name}_new" for name in re.findall(r"^mergejoin_reply (\w+)\(", header, re.M)}
    names |= set(re.findall(r"^} (mergejoin_\w+);", header, re.M))
    assert len(names) > 40
    assert sorted(name for name in names if f"c.{name}" not in pages[site / "c-api.html"].ids) == []
    statuses = re.findall(r"^  (MERGEJOIN_\w+) = ", header, re.M)
    assert [name for name in statuses if f"c.mergejoin_status.{name}" not in pages[site / "c-api.html"].ids] == []


def test_each_name_of_the_package_for_python_is_there(site, pages):
    names = re.findall(r'"(\w+)"', re.search(r"^__all__ = \[.*?\]", PACKAGE.read_text("utf-8"), re.M | re.S)[0])
    wanted = [f"mergejoin.{name}" for name in names if name != "objects"]
    wanted += ["mergejoin.objects.join", "mergejoin.dask.join_by_key", "mergejoin.dask.conflicts_by_key", "mergejoin.sqlite.load"]
    assert len(names) > 15
    assert [name for name in wanted if name not in pages[site / "python-api.html"].ids] == []


def test_each_page_can_be_searched(site):
    index = (site / "searchindex.js").read_text("utf-8")
    for page in [*(str(page.with_suffix("")) for page in PAGES), *(f"manual/{name}" for name in MANUALS), "c-api", "python-api"]:
        assert f'"{page}"' in index


def test_the_text_of_a_page_is_there(site):
    for page in PAGES:
        heading = re.search(r"^# (.*)$", (TOP / page).read_text("utf-8"), re.M)[1]
        assert f"<h1>{heading}<" in (site / page.with_suffix(".html")).read_text("utf-8")


@pytest.mark.parametrize("words", [["a", "b"], [""], ["-x"], ["--help", "a"]], ids=repr)
def test_wrong_words_are_refused(run, words):
    assert run([SITE, *words]) == (2, "", "usage: bin/site [DIRECTORY]\n")


@pytest.mark.parametrize("word", ["--help", "-h"])
def test_help(run, word):
    status, out, err = run([SITE, word])
    assert (status, err) == (0, "") and out.startswith("Makes a site of the pages") and "out/html" in out


@pytest.mark.parametrize("word,why", [
    ("file", "{}/file is there, and is not a directory"),
    ("file/below", "{}/file is there, and is not a directory"),
    ("full", "{}/full has files that bin/site did not make"),
    ("other", "{}/other has files that bin/site did not make"),
    ("/", "the site needs a directory of its own"),
    ("a\nb", "DIRECTORY has a newline"),
], ids=repr)
def test_a_directory_is_refused(run, tmp_path, word, why):
    (tmp_path / "file").write_text("")
    for name in ("full", "other"):
        (tmp_path / name).mkdir()
        (tmp_path / name / "index.html").write_text("of another")
    (tmp_path / "other/.buildinfo").write_text("# Sphinx build info version 1\n")
    before = sorted(tmp_path.rglob("*"))
    assert run([SITE, word], cwd=tmp_path) == (2, "", f"site: {why.format(tmp_path)}\n")
    assert sorted(tmp_path.rglob("*")) == before


def test_a_directory_that_cannot_be_written_to_is_refused(run):
    """The user root can write to any, and so asks for another."""
    other = ["setpriv", "--reuid=65534", "--regid=65534", "--clear-groups"] if os.geteuid() == 0 else []
    if run([*other, SITE, "--help"])[0] != 0:
        pytest.skip("another user can't run what is here")
    place = pathlib.Path(tempfile.mkdtemp())
    place.chmod(0o555)
    assert run([*other, SITE, place / "html"]) == (2, "", f"site: {place} can't be written to, so name another directory\n")
    place.rmdir()


@pytest.mark.parametrize("tool", ["doxygen", "mandoc"])
def test_a_tool_that_is_not_there_is_named(tools, run, tmp_path, tool):
    for path in pathlib.Path("/usr/bin").iterdir():
        if path.name != tool:
            (tmp_path / path.name).symlink_to(path)
    ended = run([SITE, "to"], setting={"PATH": str(tmp_path)})
    assert ended == (2, "", f"site: the command {tool} is not on the PATH: Debian's {tool} has it\n")


@pytest.mark.parametrize("page,line,why", [
    ("docs/COST.md", "[nowhere](NOWHERE.md)", "site: docs/COST.md links to NOWHERE.md, which is not a file of the repository"),
    ("docs/COST.md", "[nowhere](PERF.md#nowhere)", "docs/COST.md"),
    ("docs/NEW.md", "# New", "docs/NEW.md: WARNING: document isn't included in any toctree"),
], ids=repr)
def test_a_page_that_is_wrong_is_named(tools, run, tmp_path, page, line, why):
    top = tmp_path / "copy"
    shutil.copytree(TOP, top, ignore=LEFT_OUT, symlinks=True)
    with (top / page).open("a") as file:
        file.write(f"\n{line}\n")
    status, out, err = run([top / "bin/site", "to"], limit=300)
    assert (status, out) == (1, "") and why in err and err.splitlines()[-1].startswith("mergejoin: the site was not made, since ")
    assert not (tmp_path / "to").exists()
