"""What bin/install puts below a prefix, in the order in which it reports it, and what each file is a copy of."""

from calls import TOP

PAGES = ("mergejoin", "mergejoin-feed", "mergejoin-conflicts", "mergejoin-locate")
INSTALLED = {
    "bin/mergejoin": "out/mergejoin",
    "bin/mergejoin-feed": "bin/feed",
    "bin/mergejoin-conflicts": "bin/conflicts",
    "bin/mergejoin-locate": "bin/locate",
    "share/zsh/site-functions/_mergejoin": "bin/completion.zsh",
    **{where.format(page): source.format(page) for page in PAGES for where, source in (
        ("share/man/man1/{}.1", "docs/{}.1"),
        ("share/bash-completion/completions/{}", "bin/completion.bash"),
        ("share/fish/vendor_completions.d/{}.fish", "bin/completion.fish"))},
    **{f"share/doc/mergejoin/{file}": file for file in ("README.md", "LICENSE")},
    **{f"share/doc/mergejoin/{page}.md": f"docs/{page}.md" for page in ("REFUSALS", "BEHAVIOUR", "REPLICAS")},
}


def copies(sources):
    """Gives the bytes of each file, by what it is a copy of."""
    return {name: (TOP / source).read_bytes() for name, source in sources.items()}
