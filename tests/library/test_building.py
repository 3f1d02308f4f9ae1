"""bin/library: its help, its usage, and that it leaves no link, at which rt would stop; it links no other archive than the one that was
built, and nothing again that is there, for which it needs neither the toolchain nor a directory that it can write to. If it is ended while
it puts files in place, all of them are put.
"""

import shutil
import signal
import subprocess
import time

import pytest

from driving import LIBRARIES, TOP


def test_it_reports_its_help(run):
    status, out, _ = run([TOP / "bin/library", "--help"])
    assert status == 0 and out.startswith("Builds the library")


def test_it_knows_no_words(run):
    status, _, err = run([TOP / "bin/library", "all"])
    assert status == 2 and "usage" in err


def test_it_leaves_no_link(library):
    assert [str(path) for path in LIBRARIES.rglob("*") if path.is_symlink()] == []


@pytest.fixture(name="made")
def what_a_copy_makes(library, run, monkeypatch, tmp_path):
    """Gives what bin/library ends with in a copy of the sources, where the toolchain proves nothing, and the archive that it leaves."""
    for name in ("bin", "bindings/c", "crates"):
        shutil.copytree(TOP / name, tmp_path / "copy" / name, ignore=shutil.ignore_patterns("out"))
    (tmp_path / "copy/out").mkdir()
    for name in ("crates.txt", "HANDLES", "CHANGELOG.md", "out/libmp_c.a", "out/libmp_c.sum"):
        shutil.copy2(TOP / name, tmp_path / "copy" / name)
    (tmp_path / "rt").write_text(f'#!/bin/sh\ncase $1 in lib | run) exit 1 ;; esac\nexec {shutil.which("rt")} "$@"\n')
    (tmp_path / "rt").chmod(0o755)
    monkeypatch.setenv("PATH", str(tmp_path), prepend=":")
    monkeypatch.setenv("TMPDIR", str(tmp_path))

    def made():
        (status, _, err), archive = run([tmp_path / "copy/bin/library"], limit=600), tmp_path / "copy/out/lib/libmergejoin.a"
        return status, "libmp_c.a is not what was built there" in err, archive.read_bytes()

    return made


def test_an_archive_of_other_bytes_is_not_linked(made, tmp_path):
    status, is_reported, linked = made()
    assert (status, is_reported) == (0, False)
    archive = tmp_path / "copy/out/libmp_c.a"
    archive.write_bytes(archive.read_bytes().replace(b"no patches", b"no patchez"))
    status, is_reported, left = made()
    assert (status, is_reported, left == linked) == (125, True, True)
    assert list(tmp_path.glob("mergejoin-build-*")) == []


def kept(directory):
    """When each file and directory was last written to or replaced."""
    return {path: (path.stat().st_ino, path.stat().st_ctime_ns) for path in (directory, *directory.rglob("*"))}


def test_a_library_that_is_made_needs_no_toolchain_and_is_not_written_to(made, tmp_path, run):
    """Its directory may be one that can't be written to. If one part is another, all is made anew."""
    assert made()[0] == 0
    out, words = tmp_path / "copy/out", f"{tmp_path}/copy/bin/library"
    before = kept(out)
    if run(["unshare", "-m", "true"])[0] == 0:
        words = f"unshare -m sh -c 'mount -o bind,ro {out} {out} && {words}'"
    assert run(words, shell=True, setting={"PATH": "/usr/sbin:/usr/bin:/sbin:/bin"}) == (0, "", "")
    assert kept(out) == before
    (out / "include/mergejoin.h").write_text("another")
    assert made()[0] == 0 and (out / "include/mergejoin.h").read_bytes() == (tmp_path / "copy/bindings/c/mergejoin.h").read_bytes()


@pytest.mark.parametrize("how", [signal.SIGINT, signal.SIGTERM])
def test_if_it_is_ended_while_files_are_put_all_are(made, tmp_path, run, how):
    """By an mv that takes its time."""
    assert made()[0] == 0
    out, header = tmp_path / "copy/out", tmp_path / "copy/bindings/c/mergejoin.h"
    header.write_text(header.read_text("utf-8") + "/* more */\n", "utf-8")
    (tmp_path / "mv").write_text('#!/bin/sh\n: >"$0.ran"\nsleep 0.2\nexec /bin/mv "$@"\n')
    (tmp_path / "mv").chmod(0o755)
    with subprocess.Popen([tmp_path / "copy/bin/library"], stdout=subprocess.DEVNULL, stderr=subprocess.DEVNULL) as process:
        while process.poll() is None and not (tmp_path / "mv.ran").exists():
            time.sleep(0.01)
        process.send_signal(how)
    assert process.returncode != 0 and list(out.glob("library.*/")) == []
    before = kept(out)
    assert run([tmp_path / "copy/bin/library"]) == (0, "", "") and kept(out) == before
    assert (out / "include/mergejoin.h").read_bytes() == header.read_bytes()


def test_what_is_made_of_another_header_or_version_is_made_anew(made, tmp_path):
    assert made()[0] == 0
    for name, more in (("bindings/c/mergejoin.h", "/* more */\n"), ("CHANGELOG.md", None)):
        path, was = tmp_path / "copy" / name, (tmp_path / "copy/out/library.of").read_text()
        text = path.read_text("utf-8")
        path.write_text(text + more if more else text.replace("## 0.", "## 9.", 1), "utf-8")
        assert made()[0] == 0 and (tmp_path / "copy/out/library.of").read_text() != was
    assert "Version: 9." in (tmp_path / "copy/out/lib/pkgconfig/mergejoin.pc").read_text()
