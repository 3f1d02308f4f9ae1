#!/usr/bin/env python3
"""Lays out what the site is made of in a directory, which is empty: each page, figure and file to which a page links, at the path
that it has in the repository; the page of the calls of C, by the groups of the header; a page of each man page; and what
docs/site has.

    docs/site/stage.py DIRECTORY

bin/site runs it, and then doxygen and Sphinx.
"""

import pathlib
import re
import shutil
import subprocess
import sys
import textwrap

HERE = pathlib.Path(__file__).resolve().parent
TOP = HERE.parent.parent
sys.path.insert(0, str(TOP / "docs"))

from header import HEADER, Header  # noqa: E402

PAGES = ("*.md", "docs/*.md", "crates/*/README.md", "bindings/*/README.md")
LINK = re.compile(r"\]\((?!mailto:)([^)#\s]+)")
C_API = """\
# C API

What `mergejoin.h` says of the library for C. `man 3 mergejoin` shows the same.

{overview}

## Types

{types}

## Statuses

{statuses}

{flags}

## Calls

{general}

{calls}

## Calls with a buffer of their own

{helpers}

{owned}

## The version of the header

{version}
"""
MANUAL = """\
# {title}

```{{raw}} html
:file: {file}
```
"""


def copy(path, stage):
    """Copies a file of the repository to the place that it has there."""
    to = stage / path.relative_to(TOP)
    to.parent.mkdir(parents=True, exist_ok=True)
    shutil.copyfile(path, to)


def copy_pages(stage):
    """Copies each page, and each file to which one links. Those of docs/site are to be at the top."""
    pages = {page: page.parent for pattern in PAGES for page in sorted(TOP.glob(pattern))}
    files = set(pages)
    for page, place in {**pages, **{page: TOP for page in sorted(HERE.glob("*.md"))}}.items():
        prose = re.sub(r"^```.*?^```$|`[^`\n]*`", "", page.read_text("utf-8"), flags=re.M | re.S)
        for target in LINK.findall(prose):
            path = (place / target).resolve()
            if not path.is_file() or TOP not in path.parents:
                sys.exit(f"site: {page.relative_to(TOP)} links to {target}, which is not a file of the repository")
            files.add(path)
    for path in sorted(files):
        copy(path, stage)


def linked(text):
    """Spells a text for Markdown: the names of the header in it are links."""
    return re.sub(r"`?\b((?:mergejoin|MERGEJOIN)_\w*\w)\b`?", r"{c:struct}`\1`", text)


def shown(parts):
    """Gives parts of the header's comments as Markdown."""
    for part in parts:
        if part.kind == "code":
            yield f"```c\n{textwrap.dedent(part.text)}\n```"
        else:
            yield f"- **{part.head}** {linked(part.text)}" if part.head else linked(part.text)


def directive(kind, name, *options):
    return "\n".join([f"```{{doxygen{kind}}} {name}", *options, "```"])


def type_of(name, hidden):
    """Gives the directive of a type, with its members if its users have to know them."""
    return directive("struct", name, *[] if hidden else (":members:", ":undoc-members:"))


def defined(pattern):
    """Gives the directives of the numbers and texts that the header defines by names like that."""
    return "\n\n".join(directive("define", name) for name in re.findall(rf"^#define ({pattern}) ", HEADER.read_text("utf-8"), re.M))


def c_api():
    """Gives the page of the calls of C."""
    header, blank = Header(), "\n\n"
    calls = (blank.join([f"### {title}", *(directive("function", call.name) for call in those)])
             for title, those in header.groups().items())
    types = [found for known in header.types.values() for found in re.findall(r"struct (\w+) \{\n(  void [*]held;)?", known[-1].text)]
    return C_API.format(
        overview=blank.join(shown(header.overview)), general=blank.join(shown(header.general)),
        types=blank.join([*shown(header.types["mergejoin_replica"][:-1]), *(type_of(*found) for found in types)]),
        statuses=directive("enum", "mergejoin_status"), calls=blank.join(calls), helpers=blank.join(shown(header.helpers)),
        owned=blank.join(directive("function", call.name) for call in header.owned),
        flags=defined("MERGEJOIN_MORE"), version=defined(r"MERGEJOIN_VERSION\w*"))


def link_manual(html, names):
    """Links the man pages that one names to their own."""
    return re.sub(r"<b>([\w-]+)</b>\((\d)\)", lambda found: f'<a href="{found[1]}.{found[2]}.html">{found[0]}</a>'
                  if f"{found[1]}.{found[2]}" in names else found[0], html)


def make_manuals(stage):
    """Makes a page of each man page."""
    (stage / "manual").mkdir()
    paths = sorted((TOP / "docs").glob("*.[13]"))
    for path in paths:
        made = subprocess.run(["mandoc", "-Thtml", "-Ofragment", path], capture_output=True, text=True, check=True).stdout
        body = re.sub(r'<table class="(head|foot)">.*?</table>', "", made, flags=re.S)
        (stage / f"manual/{path.name}.html").write_text(link_manual(body, [one.name for one in paths]), "utf-8")
        title = f"{path.stem}({path.suffix[1:]})"
        (stage / f"manual/{path.name}.md").write_text(MANUAL.format(title=title, file=f"{path.name}.html"), "utf-8")


def main():
    stage = pathlib.Path(sys.argv[1])
    copy_pages(stage)
    make_manuals(stage)
    (stage / "c-api.md").write_text(c_api(), "utf-8")
    shutil.copytree(TOP / "bindings/python/src/mergejoin", stage / "python/mergejoin", ignore=shutil.ignore_patterns("__pycache__", "*.so", "lib"))
    for path in sorted(HERE.iterdir()):
        if path.is_dir() and path.name != "__pycache__":
            shutil.copytree(path, stage / path.name)
        elif path.suffix == ".md" or path.name == "conf.py":
            shutil.copyfile(path, stage / path.name)
    # (the table of the calls is of the compiler alone: the page has what it makes)
    made = "".join(f"static inline {call.prototype};\n" for call in Header().owned)
    plain = re.sub(r"^#pragma GCC diagnostic push.*?^#pragma GCC diagnostic pop$", made, HEADER.read_text("utf-8"), flags=re.M | re.S)
    # (doxygen links the names of statuses that are marked)
    marked = re.sub(r"/\*\*.*?\*/", lambda comment: re.sub(r"(?<=[ (])(MERGEJOIN_[A-Z_]+[A-Z])\b", r"#\1", comment[0]), plain, flags=re.S)
    (stage / "mergejoin.h").write_text(marked, "utf-8")


main()
