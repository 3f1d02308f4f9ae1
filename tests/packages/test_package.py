"""bin/package makes the packages twice, by other masks, times and directories, and they have the same bytes. Each .deb and the
.tar.gz are unpacked into fresh roots, where what was installed is run with nothing of the repository on the PATH. With the library
of each a program in C is linked by what pkg-config and CMake find of it, and run. The wheel is installed in a virtual environment,
where its functions are called, the extension for PostgreSQL is run in a server of its own, that for SQLite is loaded from both, and
lintian looks at each .deb.
"""

import gzip
import os
import pathlib
import re
import shutil
import typing

import calls
import pytest
from calls import PROGRAM, TOP
from installed import INSTALLED, copies
from making import CRATE, DEBS, EXTENSION, LIMIT, MADE, NEEDS, PACKAGE, PLACE, PYTHON, SHORT, SQLITE, TAR, is_made
from package import WHEEL, environment, lacks
from released import VERSION
from server import config, lacking, running
from sites import lacking_for_a_site
from sqlite_extension import NAME as MODULE
from sqlite_extension import connected
from sqlite_extension import lacking as lacking_sqlite

SHARED = TOP / "out/lib/libmergejoin.so.2"
TREE = f"mergejoin-{VERSION}"  # in the .tar.gz
# The library, and where its files and the link to it are below the prefix of the .tar.gz.
LIBRARY = {"include/mergejoin.h": "bindings/c/mergejoin.h", "share/man/man3/mergejoin.3": "docs/mergejoin.3", **{f"lib/{name}": f"out/lib/{name}" for name in (
    "libmergejoin.a", "libmergejoin.so.2", "pkgconfig/mergejoin.pc", "cmake/mergejoin/mergejoin-config.cmake",
    "cmake/mergejoin/mergejoin-config-version.cmake")}}
LINKED = {"lib/libmergejoin.so": "libmergejoin.so.2"}
CALLS = """import mergejoin
print(mergejoin.__file__.split("/env/")[1].split("/site-packages/")[1])
print(mergejoin.replay('{"title": "Notes"}', ['{"author": "Ada"}', '{"title": null}']))"""
# Debian's directory of the libraries of this machine, below /usr.
FOLDER = "lib/x86_64-linux-gnu"


def test_the_packages_are_made_and_the_sums_are_theirs(packed, run):
    one, ended = packed
    is_made(ended, one)
    assert run(["sha256sum", "-c", "SHA256SUMS"], cwd=one) == (0, "".join(f"{name}: OK\n" for name in MADE[:-1]), "")


def commit_of(top):
    """The commit of a tree that is a repository itself."""
    asked = ["git", "-C", top, "rev-parse", "--show-toplevel", "HEAD"]
    named = calls.run(asked)[1].split() if shutil.which("git") else []
    return named[1] if named[:1] == [str(top)] else "unknown"


def test_the_sums_name_the_commit_and_the_toolchain(one, run):
    first, second = (one / "SHA256SUMS").read_text().splitlines()[:2]
    commit = commit_of(TOP)
    assert first.removesuffix(", with changes") == f"# commit {commit}"
    assert second == f"# toolchain {run(['rt', 'version'])[1].strip()}"


@pytest.fixture(name="again", scope="module")
def directory_of_packages_that_are_made_again(one, tmp_path_factory):
    """Made by another mask, in another place and time, in a directory with a space, with one for temporary files whose group all within
    gets, and signed if that can be done. Nothing else is left.
    """
    workspace, key = tmp_path_factory.mktemp("workspace"), one.parent / "key"
    workspace.chmod(0o2755)
    setting = {"TZ": "Asia/Tokyo", "TMPDIR": str(workspace), "SOURCE_DATE_EPOCH": "1", "CDPATH": "/"}
    signs = shutil.which("ssh-keygen") and calls.run(["ssh-keygen", "-q", "-t", "ed25519", "-N", "", "-f", key]) == (0, "", "")
    ended = calls.run(f"umask 0; {PACKAGE} {'--sign key' if signs else ''} 'a b'", shell=True, setting=setting, cwd=one.parent, limit=LIMIT)
    is_made(ended, one.parent / "a b", *["SHA256SUMS.sig"] * bool(signs))
    assert not list(workspace.iterdir())
    return one.parent / "a b"


def test_made_again_the_packages_have_the_same_bytes(one, again):
    assert [name for name in MADE if (one / name).read_bytes() != (again / name).read_bytes()] == []


def test_the_sums_are_signed(needs, again, run):
    needs("ssh-keygen")
    (again.parent / "signers").write_text("project " + (again.parent / "key.pub").read_text())
    words = ["ssh-keygen", "-Y", "verify", "-f", "signers", "-I", "project", "-n", "file", "-s", again / "SHA256SUMS.sig"]
    sums = (again / "SHA256SUMS").read_bytes()
    assert run(words, sums, cwd=again.parent)[0] == 0
    assert run(words, sums.replace(b"1", b"2"), cwd=again.parent)[0] != 0


def unpack(package, root):
    """Unpacks a .deb or the .tar.gz into a directory."""
    words = ["dpkg-deb", "-x", package, root] if package.suffix == ".deb" else ["tar", "-C", root, "-xzf", package]
    assert calls.run(words) == (0, "", "")


def pages():
    """Gives each page and figure, and the licence, to which pages lead."""
    where = ("*.md", "LICENSE", "docs/*.md", "docs/*/*.svg", "crates/*/README.md", "bindings/*/README.md")
    return [str(path.relative_to(TOP)) for pattern in where for path in TOP.glob(pattern)]


def files_of_debs():
    """Gives the files of each .deb that are in the sources and in the library."""
    placed = {name.replace("lib/", f"{FOLDER}/"): data for name, data in {**copies(LIBRARY), **LINKED}.items()}
    asked, found = f"{FOLDER}/pkgconfig/mergejoin.pc", f"{FOLDER}/cmake/mergejoin/mergejoin-config.cmake"
    placed[asked] = placed[asked].replace(b"${pcfiledir}/../..", b"/usr").replace(b"${prefix}/lib", b"${prefix}/" + FOLDER.encode())
    placed[found] = placed[found].replace(b"/../include", b"/../../include")
    program = {name.replace("site-functions", "vendor-completions"): source for name, source in INSTALLED.items() if source != "LICENSE"}
    files = {"mergejoin": copies(program),
             "mergejoin-doc": copies({f"share/doc/mergejoin-doc/{page}": page for page in pages()}),
             "libmergejoin2": {f"{FOLDER}/libmergejoin.so.2": placed.pop(f"{FOLDER}/libmergejoin.so.2")},
             "libmergejoin-dev": {**placed, **copies({"share/doc/libmergejoin-dev/FROM-C.md": "docs/FROM-C.md"})}}
    if SQLITE:
        files[SQLITE] = copies({f"share/doc/{SQLITE}/SQLITE.md": "docs/SQLITE.md",
                                f"share/doc/{SQLITE}/examples/replica.py": "bindings/sqlite/replica.py"})
    if EXTENSION:
        sources, page = TOP / "bindings/postgresql", {f"share/doc/{EXTENSION}/POSTGRESQL.md": "docs/POSTGRESQL.md"}
        parts = {"mergejoin.control": sources / "mergejoin.control", f"mergejoin--{SHORT}.sql": sources / "sql/mergejoin.sql"}
        files[EXTENSION] = copies({f"{PLACE}/{name}": path for name, path in parts.items()} | page)
    return files


def others_of(name):
    """Gives the files of a .deb that are made for Debian alone, or built of the extension's sources."""
    yield from (f"share/doc/{name}/changelog.gz", f"share/doc/{name}/copyright")
    if name in ("mergejoin", "libmergejoin2", SQLITE) or name == "mergejoin-doc" and not lacking_for_a_site():
        yield f"share/lintian/overrides/{name}"
    if name == SQLITE:
        yield f"{FOLDER}/{MODULE}"
    if name == EXTENSION:
        yield config("pkglibdir").removeprefix("/usr/") + "/mergejoin.so"
        yield from (f"{PLACE}/mergejoin--{old}--{SHORT}.sql" for old in ("0.2", "0.3"))


def has_files(below, wanted, others):
    """What is below a directory is the bytes that are wanted, links to what is wanted, and these other files."""
    seen = {}
    for path in below.rglob("*"):
        name = str(path.relative_to(below))
        if path.is_symlink():
            seen[name] = os.readlink(path)
        elif path.is_file():
            is_manual = re.search(r"\.[13]\.gz$", name)
            seen[name.removesuffix(".gz") if is_manual else name] = gzip.decompress(path.read_bytes()) if is_manual else path.read_bytes()
    assert set(seen) - set(wanted) == set(others)
    assert [name for name in wanted if seen.get(name) != wanted[name]] == []


def test_the_program_wants_no_python(one, run):
    assert run(["dpkg-deb", "-f", one / DEBS["mergejoin"], "Recommends"]) == (0, "python3\n", "")


def test_the_links_of_all_pages_lead_to_pages(one, tmp_path):
    """But those into the sources."""
    unpack(one / DEBS["mergejoin-doc"], tmp_path)
    for page in tmp_path.rglob("*.md"):
        for target in re.findall(r"\]\(([^)#:]+\.(?:md|svg))[#)]", page.read_text("utf-8")):
            assert (page.parent / target).exists(), f"{page.name} leads to {target}"


@pytest.fixture(name="site", scope="module")
def files_of_the_site(tmp_path_factory):
    """The files of the site that bin/site makes, if what makes it is there, by their places in the package."""
    html = tmp_path_factory.mktemp("site") / "html"
    if not lacking_for_a_site():
        assert calls.run([TOP / "bin/site", html], limit=LIMIT) == (0, f"made {html}\n", "")
    return {f"share/doc/mergejoin-doc/html/{path.relative_to(html)}": path.read_bytes() for path in html.rglob("*") if path.is_file()}


def test_the_site_is_packed(needs, one, tmp_path):
    """With the licences of what it has of others."""
    needs(lacking=lacking_for_a_site())
    unpack(one / DEBS["mergejoin-doc"], tmp_path)
    place = tmp_path / "usr/share/doc/mergejoin-doc"
    assert "<title>mergejoin" in (place / "html/index.html").read_text("utf-8")
    assert {"Apache-2.0", "BSD-2-clause", "Expat"} <= set(re.findall(r"^License: (\S+)$", (place / "copyright").read_text("utf-8"), re.M))


@pytest.mark.parametrize("name", NEEDS)
def test_a_deb_has_its_part_and_says_what_it_needs(one, run, site, tmp_path, name):
    assert run(["dpkg-deb", "-f", one / DEBS[name], "Depends"]) == (0, f"{NEEDS[name]}\n", "")
    unpack(one / DEBS[name], tmp_path)
    has_files(tmp_path / "usr", files_of_debs()[name] | (site if name == "mergejoin-doc" else {}), others_of(name))


def test_the_tar_has_all_of_it(one, tmp_path):
    unpack(one / TAR, tmp_path)
    pages = {"share/doc/mergejoin/FROM-C.md": "docs/FROM-C.md"}
    has_files(tmp_path / TREE, {**copies({**INSTALLED, **LIBRARY, **pages}), **LINKED}, ())


class Unpacked(typing.NamedTuple):
    below: pathlib.Path  # what is installed
    libraries: pathlib.Path
    setting: dict  # for pkg-config


@pytest.fixture(name="unpacked", scope="module", params=["deb", "tar"])
def root_with_what_is_installed(request, one, tmp_path_factory):
    """A root in which all .deb are unpacked, or the .tar.gz."""
    root = tmp_path_factory.mktemp("root")
    for package in DEBS.values() if request.param == "deb" else [TAR]:
        unpack(one / package, root)
    if request.param == "tar":
        return Unpacked(root / TREE, root / TREE / "lib", {})
    return Unpacked(root / "usr", root / "usr" / FOLDER, {"PKG_CONFIG_SYSROOT_DIR": str(root)})


def test_the_program_and_its_scripts_run(unpacked, run, tmp_path):
    setting = {"PATH": f"{unpacked.below}/bin:/usr/bin:/bin"}
    for file, text in (("first", '{"n":{"m":1}}'), ("second", '{"n":{"m":2}}')):
        (tmp_path / file).write_text(text)
    assert run("mergejoin-feed first second | mergejoin merge", shell=True, setting=setting) == (0, '{"n":{"m":2}}\n', "")
    line = "mergejoin-feed first second | mergejoin join 2>line; mergejoin-locate join first second <line"
    assert run(line, shell=True, setting=setting) == (0, 'first: at "/n/m" it has 1\nsecond: at "/n/m" it has 2\n', "")


@pytest.mark.parametrize("page,words", [("mergejoin.1", "JSON Merge Patch"), ("mergejoin.3", "mergejoin_reply mergejoin_join(")])
def test_a_man_page_is_shown(needs, unpacked, run, page, words):
    needs("man")
    line = f"man -l {next(unpacked.below.glob(f'share/man/*/{page}*'))} | grep -c '{words}'"
    assert run(line, shell=True, setting={"MANWIDTH": "200"}) == (0, "1\n", "")


@pytest.fixture(name="shown")
def what_the_page_shows(tmp_path):
    """The output that docs/FROM-C.md shows of its program in C, which becomes replica.c."""
    page = (TOP / "docs/FROM-C.md").read_text("utf-8")
    source, shown = (re.search(rf"^```{kind}\n(.*?)^```$", page, re.M | re.S)[1] for kind in ("c", "text"))
    (tmp_path / "replica.c").write_text(source, "utf-8")
    return shown


@pytest.mark.parametrize("kind", ["shared", "static"])
def test_a_program_is_linked_as_pkg_config_says(needs, unpacked, run, shown, kind):
    needs("cc", "pkg-config")
    below, libraries, setting = unpacked
    setting = {"PKG_CONFIG_PATH": "", "PKG_CONFIG_LIBDIR": f"{libraries}/pkgconfig", **setting}
    asked = run(["pkg-config", "--cflags", "--libs", "mergejoin"], setting=setting)[1].split()
    assert [os.path.normpath(word[2:]) for word in asked if word[:2] in ("-I", "-L")] == [f"{below}/include", str(libraries)]
    words = asked if kind == "shared" else [f"-I{below}/include", f"{libraries}/libmergejoin.a"]
    assert run(["cc", "replica.c", *words, "-o", kind]) == (0, "", "")
    assert run(f"./{kind}", shell=True, setting={"LD_LIBRARY_PATH": str(libraries) if kind == "shared" else ""}) == (0, shown, "")


def test_a_program_is_linked_with_both_targets_of_cmake(needs, unpacked, run, shown, tmp_path):
    needs("cc", "cmake")
    shutil.copy2(TOP / "tests/library/CMakeLists.txt", tmp_path)
    for words in (["-S", ".", "-B", "build", f"-Dmergejoin_DIR={unpacked.libraries}/cmake/mergejoin"], ["--build", "build"]):
        status, out, err = run(["cmake", *words])
        assert (status, err) == (0, ""), out
    for kind in ("mergejoin", "static"):
        assert run([tmp_path / f"build/replica-{kind}"]) == (0, shown, "")


def test_the_program_runs_with_the_c_library_alone(one, run, tmp_path):
    unpack(one / DEBS["mergejoin"], tmp_path)
    for library in re.findall(r"(/\S+) \(0x", run(["ldd", PROGRAM])[1]):
        (tmp_path / library[1:]).parent.mkdir(parents=True, exist_ok=True)
        shutil.copy(library, tmp_path / library[1:])
    enter = ["chroot"] if os.geteuid() == 0 else ["unshare", "--map-root-user", "chroot"]
    if run([*enter[:-1], "true"])[0] != 0:
        pytest.skip("this user can't make a place where there is nothing but the C library")
    assert run([*enter, tmp_path, "/usr/bin/mergejoin", "merge"], '[{"a":1},{"a":null,"b":2}]') == (0, '{"b":2}\n', "")


@pytest.mark.parametrize("name", [*PYTHON[1:], *filter(None, [CRATE])])
def test_the_sources_of_a_binding_have_their_licence_and_version(one, tmp_path, name):
    """So each is complete without the repository."""
    assert calls.run(["tar", "-C", tmp_path, "-xzf", one / name]) == (0, "", "")
    below = tmp_path / TREE
    assert (below / "LICENSE").read_bytes() == (TOP / "LICENSE").read_bytes()
    of_version, line = ("Cargo.toml", f'version = "{VERSION}"') if name == CRATE else ("PKG-INFO", f"Version: {VERSION}")
    assert line in (below / of_version).read_text("utf-8").splitlines()


def test_the_wheel_runs_in_an_environment_of_its_own(needs, one, run, tmp_path):
    needs(lacking=lacks())
    words = [environment(tmp_path, one / WHEEL), "-I", "-B", "-c", CALLS]
    assert run(words, setting={"PATH": "/usr/bin:/bin"}) == (0, 'mergejoin/__init__.py\n{"author":"Ada"}\n', "")


def test_the_extension_runs_in_a_server_into_whose_directory_it_is_unpacked(needs, one):
    needs("pg_virtualenv", lacking=lacking())
    with running() as server:
        unpack(one / DEBS[EXTENSION], server.root)
        given = "CREATE EXTENSION mergejoin;\nSELECT mergejoin_agg(patch) FROM (VALUES ('1'::json), ('1')) AS log (patch);\n"
        assert server.ask(given) == "1\n"


JOINED = "SELECT mergejoin_agg(column1) FROM (VALUES ('{\"a\":1}'), ('{\"b\":null}'))"


def test_the_extension_for_sqlite_is_loaded_from_its_package(needs, one, tmp_path):
    needs(lacking=lacking_sqlite())
    unpack(one / DEBS[SQLITE], tmp_path)
    assert connected(tmp_path / "usr" / FOLDER / MODULE).execute(JOINED).fetchall() == [('{"a":1,"b":null}',)]


def test_the_wheel_has_the_extension_for_sqlite(needs, one, run, tmp_path):
    needs(lacking=lacks() or lacking_sqlite())
    python = environment(tmp_path, one / WHEEL)
    program = f"import sqlite3, mergejoin.sqlite as it\nc = sqlite3.connect('')\nit.load(c)\nprint(it.path(), *c.execute({JOINED!r}).fetchone())"
    status, out, err = run([python, "-I", "-B", "-c", program], setting={"PATH": "/usr/bin:/bin"})
    assert (status, err) == (0, "") and out.startswith(f"{tmp_path}/env/") and out.endswith(f'/mergejoin/lib/{MODULE} {{"a":1,"b":null}}\n')


def test_lintian_finds_no_error(needs, one, run):
    needs("lintian")
    assert run(["lintian", "--allow-root", "--fail-on", "error", *DEBS.values()], cwd=one, limit=600) == (0, "", "")


@pytest.mark.parametrize("path,enough", [(PROGRAM, 34), (SHARED, 14)], ids=["program", "library"])
def test_the_c_library_that_a_package_needs_is_enough(program, library, path, enough):
    assert max(int(minor) for minor in re.findall(rb"GLIBC_2\.([0-9]+)", path.read_bytes())) <= enough


def test_the_bytes_do_not_depend_on_the_environment(one, top, run, tmp_path):
    """Nor on the directory. The commit of a repository around the sources is none of theirs, and a link at a name is not followed."""
    (tmp_path / "first.sh").write_text("umask 077\ngzip() { command gzip -1; }\n")
    strange = {"TAR_OPTIONS": "--owner=7 --mode=a+w", "GZIP": "-1", "DPKG_DEB_COMPRESSOR_TYPE": "gzip", "DPKG_DEB_COMPRESSOR_LEVEL": "1",
               "COPT": "-O0", "PROFILE": "-DMORE", "CFLAGS": "-O0 -g", "MAKEFLAGS": "-B", "BASH_ENV": str(tmp_path / "first.sh"),
               "GIT_DIR": str(TOP / ".git"), "GIT_WORK_TREE": str(top)}
    if shutil.which("git"):
        made = "git init -q . && git -c user.name=a -c user.email=a@b commit -q --allow-empty -m one"
        assert run(made, shell=True) == (0, "", "")
    (tmp_path / "other").write_text("other")
    (tmp_path / "packed").mkdir()
    (tmp_path / "packed/SHA256SUMS.sig").write_text("of other sums")
    (tmp_path / "packed/SHA256SUMS.new").symlink_to(tmp_path / "other")
    is_made(run([top / "bin/package", "packed"], setting=strange, limit=LIMIT), tmp_path / "packed")
    assert [name for name in MADE[:-1] if (one / name).read_bytes() != (tmp_path / "packed" / name).read_bytes()] == []
    assert (tmp_path / "packed/SHA256SUMS").read_text().startswith("# commit unknown\n")
    assert (tmp_path / "other").read_text() == "other" and not (tmp_path / "packed/SHA256SUMS.sig").exists()


def test_a_library_that_was_replaced_is_not_packed(top, run, tmp_path):
    """A byte is added to it after bin/library has made it."""
    (top / "bin/library").write_text(f"#!/bin/sh\nprintf x >>'{top}/out/lib/libmergejoin.so.2'\n")
    says = f"package: the library in {top}/out is not what was built there: its checksums differ\n"
    assert run([top / "bin/package", "packed"]) == (125, "", says)
    assert not (tmp_path / "packed").exists()


@pytest.mark.parametrize("words", [["a", "b"], [""], ["-x"], ["--sign"], ["--sign", PACKAGE, "a", "b"], ["--sign", PACKAGE, "-x"]], ids=repr)
def test_wrong_words_are_refused(run, words):
    assert run([PACKAGE, *words]) == (2, "", "usage: bin/package [--sign KEY] [FOLDER]\n")


@pytest.mark.parametrize("key", ["nowhere", "."])
def test_a_key_that_is_not_there_is_refused(needs, run, key):
    needs("dpkg-deb")
    assert run([PACKAGE, "--sign", key, "packed"]) == (2, "", f"package: {key} is no file of a key\n")


@pytest.mark.parametrize("word,way", [("file", "file"), ("file/below", "file")])
def test_a_directory_that_cannot_be_made_is_refused(needs, run, tmp_path, word, way):
    needs("dpkg-deb")
    (tmp_path / "file").touch()
    assert run([PACKAGE, word]) == (2, "", f"package: {tmp_path}/{way} is there, and is not a directory\n")


@pytest.mark.parametrize("word", ["--help", "-h"])
def test_help(run, word):
    status, out, err = run([PACKAGE, word])
    assert (status, err) == (0, "") and out.startswith("Makes packages")
