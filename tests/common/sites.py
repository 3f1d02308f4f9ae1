"""What bin/site needs of the distribution, and whether it is there."""

import importlib.util
import shutil


def lacking_for_a_site():
    """Says what is not installed of what makes a site, or gives nothing."""
    missing = [tool for tool in ("doxygen", "mandoc") if not shutil.which(tool)]
    missing += [module for module in ("sphinx", "myst_parser", "breathe", "furo") if not importlib.util.find_spec(module)]
    return f"not installed: {', '.join(missing)}" if missing else None
