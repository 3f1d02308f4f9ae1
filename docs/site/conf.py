"""How Sphinx makes the site of the pages. bin/site copies what it is made of into one directory, where this file is next to
README.md, and the pages, the figures and what is cited of the sources have the paths that they have in the repository. In
addition there are manual/ with the man pages, python/ with the package for Python, and xml/ with what doxygen says of the header.

Nothing of the site depends on the machine, on the time or on what is installed next to what Sphinx needs: the extension
module of the package is never imported, and no address of another host is loaded.
"""

import pathlib
import re
import shutil
import sys

from pygments import lexers, token
from pygments.util import ClassNotFound

HERE = pathlib.Path(__file__).resolve().parent
sys.path.insert(0, str(HERE / "python"))

project = "mergejoin"
author = "The mergejoin project"
version = release = re.findall(r"^## ([0-9.]+) \(", (HERE / "CHANGELOG.md").read_text("utf-8"), re.M)[0]
language = "en"
extensions = ["myst_parser", "breathe", "sphinx.ext.autodoc"]
exclude_patterns = ["static", "templates", "python", "xml"]

html_theme = "furo"
html_title = f"mergejoin {release}"
html_static_path, templates_path = ["static"], ["templates"]
html_css_files = ["site.css"]
html_js_files = [("scripts/gumshoe-patched.js", {"priority": 190})]
html_copy_source = html_show_sourcelink = html_show_copyright = html_show_sphinx = False
html_domain_indices = False
html_permalinks_icon = "#"
# The colours of code on a light and on a dark ground.
pygments_style, pygments_dark_style = "tango", "monokai"

# The headings have the anchors that GitHub gives them.
myst_heading_anchors = 6
breathe_projects, breathe_default_project = {"mergejoin": "xml"}, "mergejoin"
breathe_domain_by_extension = {"h": "c"}

autodoc_mock_imports = ["mergejoin._library", "cloudpickle", "dask"]
autodoc_member_order = "bysource"
autodoc_typehints_format = "short"
python_use_unqualified_type_names = True
add_module_names = False

# Types of C and of Python's own library have no page here.
nitpick_ignore_regex = [("c:identifier", "(size_t|u?int[0-9]+_t)"), ("py:(class|data|obj|exc)", "(?!mergejoin).*")]

NORMALIZE = "/javascript/normalize.css/normalize.css"  # below /usr/share
BLOCK, CODE = "\n\n", re.compile(r"^ {4}", re.M)


def spelled(text, names):
    """Spells a paragraph of a docstring for reStructuredText: no character of it is markup, and the package's names are links."""
    text = re.sub(r"([*`\\|_])", r"\\\1", text)
    return re.sub(r"\b(?:mergejoin\.)?(" + "|".join(names) + r")\b(?!\\)", r":py:obj:`\1 <mergejoin.\1>`", text)


def spell_docstring(app, what, name, thing, options, lines):
    """Spells a docstring, whose examples and indented code stay as they are."""
    import mergejoin

    # (a sentence may begin with "Patches" and mean patches)
    names = [name for name in mergejoin.__all__ if name[0].isupper() and name != "Patches"]
    made = []
    for block in "\n".join(lines).split(BLOCK):
        if block.startswith(">>>"):
            made.append(block)
        elif CODE.match(block):
            made.append(f".. code-block:: python{BLOCK}{block}")
        else:
            made.append(spelled(block, names))
    lines[:] = BLOCK.join(made).splitlines()


def leave_out_scripts(app, page, template, context, doctree):
    """The pages need neither jQuery nor Underscore."""
    if "script_files" in context:
        context["script_files"] = [file for file in context["script_files"] if not re.search("jquery|underscore|compat", str(file))]


def mend_theme(app, error):
    """Debian's theme is for a server: its script is a module, which no browser loads of a file, and it takes one sheet from the root.
    And what compiled its sheet has lost that a dark ground is for all who ask the browser for one. Another theme is left as it is.
    """
    if error:
        return
    static = pathlib.Path(app.outdir) / "_static"
    script, sheet = static / "scripts/furo.js", static / "styles/furo.css"
    script.write_text(script.read_text("utf-8").replace('import Gumshoe from "./gumshoe-patched.js";\n', ""), "utf-8")
    css = sheet.read_text("utf-8")
    if NORMALIZE in css:
        css = css.replace(f"url({NORMALIZE})", "url(normalize.css)")
        shutil.copyfile(f"/usr/share{NORMALIZE}", static / "styles/normalize.css")
    if "(prefers-color-scheme" not in css:
        colours = re.findall(r'^ *body\[data-theme="dark"\] (\{.*?\})', css, re.M | re.S)[0]
        css += f'@media screen and (prefers-color-scheme: dark) {{ body:not([data-theme="light"]) {colours} }}\n'
    sheet.write_text(css, "utf-8")
    for path in [*static.glob("*jquery*"), *static.glob("*underscore*"), *static.glob("*compat*")]:
        path.unlink()


def lexer_of(name):
    """Gives a lexer of a language that takes what it does not know as text: Rattle has clauses that Rust has not, psql and a shell that
    is shown have lines of their own, and some languages of the pages are known to nobody else.
    """
    try:
        known = lexers.find_lexer_class_by_name(name)
    except ClassNotFound:
        return lexers.TextLexer

    def tokens(self, *given, **more):
        for place, kind, text in known.get_tokens_unprocessed(self, *given, **more):
            yield place, token.Text if kind is token.Error else kind, text

    return type(known.__name__, (known,), {"get_tokens_unprocessed": tokens})


def setup(app):
    pages = (page.read_text("utf-8") for page in sorted(HERE.rglob("*.md")))
    for name in sorted({name for page in pages for name in re.findall(r"^```(\w+)$", page, re.M)}):
        app.add_lexer(name, lexer_of(name))
    app.connect("autodoc-process-docstring", spell_docstring)
    app.connect("html-page-context", leave_out_scripts)
    app.connect("build-finished", mend_theme)
