"""The header as C99, C11, C17 and C++17 with all warnings of two compilers, and its helpers called (header.c); the names that it
declares and the libraries export; and each program of docs/FROM-C.md prints what the page
shows below it.
"""

import re

import pytest

from driving import HEADER, HERE, LIBRARIES, SHARED, STATIC, TOP, WARNINGS, run

OF_C = ["-Wstrict-prototypes", "-Wmissing-prototypes", "-Wredundant-decls", "-Wdeclaration-after-statement", "-Wc++-compat", "-Wcast-qual"]
OF_CXX = ["-Wold-style-cast", "-Wzero-as-null-pointer-constant"]
# All that clang has, but for padding, which the types of the user have too, and for what C++98 had not: the check is of C++17.
ALL = ["-Weverything", "-Wno-padded", "-Wold-style-cast", "-Wno-c++98-compat-pedantic"]
STANDARDS = [[compiler, f"-std={standard}", *more, *OF_C] for standard in ("c99", "c11", "c17")
             for compiler, more in (("gcc", ["-O0"]), ("gcc", ["-O2", "-flto"]), ("clang", ALL))]
STANDARDS += [["g++", "-std=c++17", *OF_CXX, "-Wuseless-cast", "-x", "c++"], ["clang++", "-std=c++17", *OF_CXX, *ALL, "-x", "c++"]]
EXAMPLES = re.findall(r"^```c\n(.*?)^```$.*?^```text\n(.*?)^```$", (TOP / "docs/FROM-C.md").read_text("utf-8"), re.M | re.S)


@pytest.mark.parametrize("library_of", ["static", "pkg-config"])
@pytest.mark.parametrize("standard", STANDARDS, ids=lambda words: " ".join(words[:3]))
def test_the_header_alone(needs, directory, standard, library_of):
    needs(standard[0], "pkg-config")
    words = [f"-I{HEADER.parent}", STATIC]
    if library_of == "pkg-config":
        words = run(["pkg-config", "--cflags", "--libs", "mergejoin"], {"PKG_CONFIG_PATH": str(LIBRARIES / "pkgconfig")}).split()
    run([*standard, *WARNINGS, HERE / "header.c", "-x", "none", *words, "-o", directory / "header"])
    run([directory / "header"], {"LD_LIBRARY_PATH": str(LIBRARIES)})


def declared():
    return sorted(re.findall(r"^(?:mergejoin_reply|uint32_t|void) (mergejoin_\w+)\(", HEADER.read_text("utf-8"), re.M))


def test_the_crate_exports_what_the_header_declares(directory):
    sources = "".join(path.read_text("utf-8") for path in (TOP / "crates/mp_c/src").glob("*.rt"))
    assert sorted(re.findall(r'extern "C" fn (\w+)', sources)) == declared()


@pytest.mark.parametrize("words", [["-D", SHARED], ["-g", STATIC]], ids=["shared", "static"])
def test_a_library_exports_what_the_header_declares(needs, directory, words):
    needs("nm")
    exported = sorted(re.findall(r"^[0-9a-f]+ \w (\S+)$", run(["nm", "--defined-only", *words]), re.M))
    assert exported == declared(), exported


def test_the_c_library_alone_is_needed(needs, directory):
    needs("readelf")
    linked = re.findall(r"\((NEEDED|SONAME)\).*\[(.*)\]", run(["readelf", "-dW", SHARED]))
    assert linked == [("NEEDED", "libc.so.6"), ("SONAME", SHARED.name)]


@pytest.mark.parametrize("source,shown", EXAMPLES, ids=[shown.split("\n")[0] for _, shown in EXAMPLES])
def test_a_program_of_the_page_prints_what_it_shows(directory, source, shown):
    (directory / "replica.c").write_text(source, "utf-8")
    run(["cc", *WARNINGS, f"-I{HEADER.parent}", directory / "replica.c", STATIC, "-o", directory / "replica"])
    assert run([directory / "replica"]) == shown
