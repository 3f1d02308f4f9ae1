"""The version, and each place that has it, as tools/version has them."""

import runpy

from calls import TOP

_TOOL = runpy.run_path(str(TOP / "tools/version"))
NUMBERS = _TOOL["head"]((TOP / "CHANGELOG.md").read_text("utf-8")).groups()
VERSION = ".".join(NUMBERS)
# Of each place its file, a pattern, and what that is to find.
PLACES = {name: (file, pattern, _TOOL["FORMS"][form](NUMBERS)) for name, (file, pattern, form) in _TOOL["PLACES"].items()}
