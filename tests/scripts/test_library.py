"""bin/library in a copy with a toolchain that proves nothing, in which mp_c is an archive of functions that do nothing: builds that are made,
that fail, and whose sources are changed meanwhile; and what is linked. tests/library has the library itself.
"""

import re
import shutil

import pytest
from calls import TOP, run
from copies import CRATES

BUILT = [*CRATES[:5], "mp_c"]
CHANGED = "mergejoin: the sources changed meanwhile, and the archive is of what they were: run bin/library again\n"
TOOLS = ("gcc", "ld", "objcopy", "ar", "readelf")


@pytest.fixture(name="linkable")
def copy_with_an_archive(needs, copy):
    """A copy with what the library is linked of, next to the crates: the header, and of the toolchain an empty heap and a C library."""
    needs(*TOOLS)
    for name in ("c", "toolchain/lib"):
        (copy.kit / name).mkdir(parents=True)
    (copy.kit / "c/liblibc_c.a").write_text("!<arch>\n")
    (copy.kit / "toolchain/lib/libc.so.6").symlink_to(run(["gcc", "-print-file-name=libc.so.6"])[1].strip())
    header = (TOP / "bindings/c/mergejoin.h").read_text("utf-8")
    names = re.findall(r"^(?:mergejoin_reply|uint32_t|void) (mergejoin_\w+)\(", header, re.M)
    copy.write(copy.kit / "stubs.c", "".join(f"void {name}(void) {{}}\n" for name in names))
    assert run("gcc -c -fPIC stubs.c && ar rcs libmp_c.a stubs.o", shell=True, cwd=copy.kit)[0] == 0
    shutil.copytree(TOP / "bindings/c", copy.top / "bindings/c")
    shutil.copy(TOP / "CHANGELOG.md", copy.top)
    copy.write("crates/mp_c/src/lib.rt", "//! One.\n")
    return copy


def test_a_library_is_made_once(linkable):
    """With HANDLES, of which the copy of the sources has to have what it has."""
    linkable.write("HANDLES", "Handles allowed: none.\n")
    assert linkable.run(["bin/library"])[0] == 0
    assert linkable.asked() == BUILT
    assert linkable.run(["bin/library"]) == (0, "", "")
    assert linkable.asked() == []


def test_what_rt_keeps_is_lent_to_a_build_and_given_back(linkable):
    """Also by one that fails."""
    assert linkable.run(["bin/library"], {"FAILS": "1"})[0] == 125
    assert linkable.proofs("mp_tree") == 1
    assert linkable.run(["bin/library"])[0] == 0
    assert [linkable.proofs(crate) for crate in BUILT] == [2, 2, 1, 1, 1, 1]


def test_an_edit_during_a_build_is_not_in_it(linkable):
    """And no library is made of what the sources were."""
    source = linkable.top / "crates/mp_tree/src/lib.rt"
    status, out, err = linkable.run(["bin/library"], {"EDITS": str(source)})
    assert (status, out) == (125, "") and err.endswith(CHANGED)
    assert not (linkable.top / "out/lib").exists()
    source.write_text("//! One.\n")
    linkable.asked()
    assert linkable.run(["bin/library"]) == (0, "", "") and linkable.asked() == []


def test_no_address_that_is_written_at_the_start_can_be_written_to_later(linkable):
    """Each name is bound when the library is loaded, and what that writes is read-only then."""
    assert linkable.run(["bin/library"])[0] == 0
    shared = linkable.top / "out/lib/libmergejoin.so.2"
    assert re.search(r"\bBIND_NOW\b", run(["readelf", "-d", shared])[1])
    assert re.search(r"\bGNU_RELRO\b", run(["readelf", "-Wl", shared])[1])


@pytest.mark.parametrize("name", ["libmergejoin.so", "libmergejoin.so.2", "libmergejoin.a"])
def test_a_part_that_is_another_is_made_anew(linkable, name):
    assert linkable.run(["bin/library"])[0] == 0
    part = linkable.top / "out/lib" / name
    was = part.read_bytes()
    part.unlink()
    part.write_bytes(b"another")
    assert linkable.run(["bin/library"])[0] == 0
    assert part.read_bytes() == was
