"""The library as its users have it: threads that share a replica, many patches on a long document, what the helpers cost, what C++
has for nothing, and what CMake and pkg-config find.
"""

import itertools
import re
import shutil

import pytest

import calls
import driving
from counting import instructions
from driving import CONFLICT, HERE, LIBRARIES, MEMCHECK, RESULT, TOP, call, call_of, replies, run
from released import NUMBERS, VERSION

# The instructions of the whole program for each patch of 40 bytes on a document of 0.8 MB.
MOST_INSTRUCTIONS, LONG, MANY = 45_000, 800_000, 10_000
# How much more a rewriting by the helper may cost, and the bytes that a short result may keep.
MOST_MORE, MOST_KEPT = 1.05, 10_000


@pytest.fixture(name="threads", scope="session")
def threads_program(directory):
    """threads.c with the example of the header in it."""
    head = driving.HEADER.read_text("utf-8").split("#ifndef")[0]
    example = re.search(r"^ \*   static mergejoin_replica replica;\n(?: \*.*\n)*? \*   \}\n", head, re.M)[0]
    (directory / "example.h").write_text(re.sub(r"^ \*(?:   )?", "", example, flags=re.M), "utf-8")
    return driving.compiled(directory, HERE / "threads.c", "-pthread", "-g")


@pytest.mark.parametrize("under", [[], MEMCHECK, ["valgrind", "-q", "--tool=helgrind", "--error-exitcode=9"]], ids=["alone", "memcheck", "helgrind"])
def test_four_threads_share_a_replica_by_the_example_of_the_header(threads, valgrind, under):
    wanted = {f"k{number:03}": {"of": number % 4} for number in range(800)}
    assert run([*under, threads]) == 2 * (driving.written(wanted) + "\n")


def test_helgrind_sees_a_thread_without_the_lock(directory, valgrind):
    """The same without the lock: so what the test above does not see is not there."""
    (directory / "unlocked").mkdir(exist_ok=True)
    example = (directory / "example.h").read_text("utf-8")
    (directory / "unlocked/example.h").write_text(re.sub(r".*pthread_mutex.*\n", "", example), "utf-8")
    program = driving.compiled(directory / "unlocked", HERE / "threads.c", "-pthread", "-g")
    words = ["valgrind", "-q", "--tool=helgrind", "--error-exitcode=9", program]
    assert "Possible data race" in calls.run(words, limit=300)[2]


def receiving(size, count):
    """Gives a start of so many bytes, and so many patches, of 40 bytes each."""
    members = ",".join(f'"member{number:07}":"{number:021}"' for number in range(size // 40))
    return f"{{{members}}}".encode(), [f'{{"service{number:07}":"{number:019}"}}'.encode() for number in range(count)]


def one_by_one(size, count):
    """The script by which a replica receives these patches, and shows its document."""
    start, patches = receiving(size, count)
    received = [call("receive", 0, patch) for patch in patches]
    return ["capacity 0", call("start", 0, start), *received, "capacity 2000000", call("document")]


@pytest.mark.parametrize("size,count", [(0, 0), (0, 100), (8_000, 100), (LONG, MANY)])
def test_patches_one_by_one_make_what_one_replay_makes(driver, size, count):
    start, patches = receiving(size, count)
    (*taken, live, replayed), _ = replies([driver], [*one_by_one(size, count), call_of("replay", [start, *patches])])
    assert {it.status for it in taken} == {RESULT}
    assert live.said() == replayed.said() and live.status == RESULT and live.text.count("service") == count


def test_many_patches_leave_nothing(driver, valgrind):
    (*_, live, _), (heap,) = replies([*MEMCHECK, driver], [*one_by_one(LONG, MANY), call("free"), "heap"])
    assert live.text.count("service") == MANY and not heap.blocks


def instructions_of(words, lines):
    return instructions(words, None, given=driving.script_of(lines).encode())


def test_a_patch_costs_little_on_a_long_document(driver, valgrind):
    none, all_of_them = (instructions_of([driver], one_by_one(LONG, count)) for count in (0, MANY))
    assert (all_of_them - none) / MANY <= MOST_INSTRUCTIONS


# Documents and patches: one that changes all of a document, one that adds to it, one that removes, and one that is small.
MEMBERS = {f"member{number:04}": {"text": f"a text {number}", "list": [number, None]} for number in range(500)}
REWRITINGS = {
    "changes all": (MEMBERS, {name: {"text": "other"} for name in MEMBERS}),
    "adds": (MEMBERS, {f"other{number:04}": {"x": number} for number in range(500)}),
    "removes": (MEMBERS, dict.fromkeys(MEMBERS)),
    "replaces": ({}, {"a": MEMBERS}),
    "changes short members": ({f"{number:x}": 1 for number in range(2000)}, {f"{number:x}": 2 for number in range(2000)}),
    "small": ({"a": 1}, {"a": None, "b": {"c": "d"}}),
    "empties": (MEMBERS, 5),
}


@pytest.mark.parametrize("title", REWRITINGS)
def test_a_rewriting_by_the_helper_is_not_made_twice(driver, valgrind, title):
    line = call_of("rewrite", REWRITINGS[title])
    (plain,), (new,) = (replies([driver, way], ["capacity 1000000", line])[0] for way in ("buffer", "new"))
    assert plain.said() == new.said() and plain.status == RESULT and plain.length > 0
    none = instructions_of([driver], ["capacity 0", line.replace("rewrite_of", "drop")])
    plainly, by_helper = (instructions_of([driver, way], [f"capacity {plain.length}", line]) for way in ("buffer", "new"))
    assert (by_helper - none) / (plainly - none) <= MOST_MORE


# An export and what it takes besides a document of 1 MB, of which its result is short.
SHORT = [("get", b"/b"), ("merge", 7), ("replay", 7), ("patch", [{"op": "replace", "path": "", "value": 7}]), ("rewrite", {}), ("join", 7)]


@pytest.mark.parametrize("export,more", SHORT)
def test_a_short_result_keeps_little(driver, export, more):
    (reply,), _ = replies([driver, "new"], [call_of(export, [{"a": "0" * (1 << 20), "b": 5}, more])])
    assert reply.status == (CONFLICT if export == "join" else RESULT)
    assert reply.length <= 40 and 0 < reply.block <= MOST_KEPT


# Many patches, of which a handle holds much for each of their bytes.
NESTED = ['{"":' * depth + "{}" + "}" * depth for depth in (0, 1, 120)]
HELD = {"apart": [f'{{"{number}":{it}}}' for number in range(200) for it in NESTED], "conflicting": [f'{{"a":{number}}}' for number in range(600)],
        "short": ["0"] * 600, "short and conflicting": [str(number % 10) for number in range(600)], "conflicting objects": [f'{{"a":{{"b":{number},"c":{{}}}}}}' for number in range(300)]}


@pytest.mark.parametrize("title", HELD)
def test_a_handle_holds_what_the_header_says(driver, title):
    words = re.sub(r"\s+\*\s+", " ", driving.HEADER.read_text("utf-8"))
    most, = map(int, re.findall(r"of its patches, and up to (\d+) for many small objects", words))
    for_a_pair, = map(int, re.findall(r"at most (\d+) bytes for each two patches that conflict", words))
    texts = [it.encode() for it in HELD[title]]
    pairs = sum(one != other for one, other in itertools.combinations(texts, 2)) if "conflicting" in title else 0
    of_log = [call("log_receive", 0, it, numbers=[0, 0, number]) for number, it in enumerate(texts)]
    of_replica = [call("receive", 0, it) for it in texts]
    for start, lines, besides in ((call("start", 0, b"0"), of_replica, 0), (call("log_start", 0, b"0"), of_log, for_a_pair * pairs)):
        _, (before, after) = replies([driver], [start, "heap", *lines, "heap"])
        assert after.held - before.held <= most * sum(map(len, texts)) + besides


# How header.c is compiled, which gives null: with a length of 0, and as what C++ has for nothing.
COMPILERS = ("gcc -std=c11", "clang -std=c11", "g++ -std=c++17 -x c++", "clang++ -std=c++17 -x c++")
GIVE_NULL = [f"{compiler} {level}" for compiler in COMPILERS for level in ("-O0", "-O2")] + ["g++ -std=c++17 -x c++ -O2 -flto"]


@pytest.mark.parametrize("compiler", GIVE_NULL)
def test_no_export_is_given_null(needs, directory, valgrind, compiler):
    """no_null.c stands between."""
    needs(compiler.split()[0])
    exports = re.findall(r"^mergejoin_reply (\w+)\(", driving.HEADER.read_text("utf-8"), re.M)
    between = directory / "no_null.o"
    run(["gcc", "-std=gnu11", *driving.WARNINGS, f"-I{driving.HEADER.parent}", "-c", HERE / "no_null.c", "-o", between])
    assert len(exports) == run(["nm", between]).count(" T __wrap_") == 23
    wrapped = f"-Wl,{','.join(f'--wrap={name}' for name in exports)}"
    program = driving.compiled(directory, HERE / "header.c", between, wrapped, compiler=compiler.split())
    run([*MEMCHECK, program])
    assert "__wrap_mergejoin_join" in run(["nm", program])


@pytest.fixture(name="installed", scope="session")
def fresh_directory(directory):
    """What bin/library makes, in a directory that is elsewhere."""
    for name in ("lib", "include"):
        shutil.copytree(TOP / "out" / name, directory / "a prefix" / name)
    return directory / "a prefix"


def project(directory, installed, version):
    """A project for CMake of header.c, and how its configuration ends for a version of the package."""
    directory.mkdir(exist_ok=True)
    shutil.copy2(HERE / "header.c", directory / "replica.c")
    shutil.copy2(HERE / "CMakeLists.txt", directory)
    words = ["cmake", "--log-level=ERROR", "-S", directory, "-B", directory / "build", f"-DCMAKE_PREFIX_PATH={installed}", f"-DWANTED={version}"]
    return calls.run(words, limit=300)


def test_cmake_finds_the_library_wherever_it_is(needs, directory, installed):
    needs("cmake")
    status, _, err = project(directory / "found", installed, f"{FIRST}.{SECOND}")
    assert status == 0, err
    run(["cmake", "--build", directory / "found/build"])
    for kind in ("mergejoin", "static"):
        run([directory / f"found/build/replica-{kind}"])
    needed = run(["readelf", "-d", directory / "found/build/replica-mergejoin"])
    assert "[libmergejoin.so.2]" in needed


FIRST, SECOND, THIRD = map(int, NUMBERS)


@pytest.mark.parametrize("version,is_found", [
    (VERSION, True), (f"{FIRST}.{SECOND}", True), (f"{FIRST}.{SECOND + 1}", False), (f"{FIRST}.{SECOND}.{THIRD + 1}", False),
    (f"{FIRST + 1}.0", False), (f"{FIRST}.{SECOND - 1}", FIRST > 0),
])
def test_cmake_finds_a_version_that_serves(needs, directory, installed, version, is_found):
    needs("cmake")
    status, _, err = project(directory / f"version {version}", installed, version)
    assert (status == 0) == is_found, err
    assert is_found or VERSION in err


@pytest.mark.parametrize("static", [False, True])
def test_pkg_config_finds_the_library_wherever_it_is(needs, directory, installed, static):
    needs("pkg-config")
    shutil.copytree(installed, directory / "prefix", dirs_exist_ok=True)  # no space, at which words are split
    setting = {"PKG_CONFIG_LIBDIR": str(directory / "prefix/lib/pkgconfig")}
    words = run(["pkg-config", "--cflags", "--libs", "mergejoin"], setting).split()
    words += ["-Wl,-Bstatic", "-lmergejoin", "-Wl,-Bdynamic"] if static else []
    run(["gcc", HERE / "header.c", *words, "-o", directory / "by-pkg-config"])
    run([directory / "by-pkg-config"], {"LD_LIBRARY_PATH": str(directory / "prefix/lib")})


def test_the_version_is_the_same_everywhere(directory):
    source = directory / "version.c"
    source.write_text('#include <mergejoin.h>\n#include <stdio.h>\nint main(void) {\n  printf("%d %d %d %d %u %s\\n", MERGEJOIN_VERSION_MAJOR, '
                      "MERGEJOIN_VERSION_MINOR, MERGEJOIN_VERSION_PATCH, MERGEJOIN_VERSION, (unsigned)mergejoin_version(), MERGEJOIN_VERSION_STRING);\n}\n")
    number = FIRST * 1_000_000 + SECOND * 1000 + THIRD
    assert run([driving.compiled(directory, source)]) == f"{FIRST} {SECOND} {THIRD} {number} {number} {VERSION}\n"
    assert f"\nVersion: {VERSION}\n" in (LIBRARIES / "pkgconfig/mergejoin.pc").read_text("utf-8")
    assert f"set(PACKAGE_VERSION {VERSION})\n" in (LIBRARIES / "cmake/mergejoin/mergejoin-config-version.cmake").read_text("utf-8")


@pytest.mark.parametrize("language", ["c", "c++"])
def test_the_header_leaves_no_macro_but_the_flag_and_those_of_its_version(directory, language):
    defined = run(["gcc", "-x", language, "-dM", "-E", driving.HEADER])
    parts = ("", "_MAJOR", "_MINOR", "_PATCH", "_STRING")
    assert set(re.findall(r"^#define (\w*mergejoin\w*)", defined, re.M | re.I)) == {"MERGEJOIN_H", "MERGEJOIN_MORE", *(f"MERGEJOIN_VERSION{part}" for part in parts)}
