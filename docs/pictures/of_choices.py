"""The figures that help to choose: which interface is for whom, and what of it is proved, tested and trusted."""

from drawing import HIGH, PATCH, PLAIN, SHOWN, SPACE, TESTED, TRUSTED, WIDE, Drawing

# Each question, and the answers that end it.
QUESTIONS = (
    (["Are the patches rows", "of a database?"], [["the extension", "for PostgreSQL"], ["the extension", "for SQLite"]]),
    (["Are they too many", "for one machine?"], [["joins by Dask,", "from Python"]]),
    (["Does a program of yours", "keep the document?"], [["the library", "for C and C++"], ["the package", "for Python"], ["the crate", "for Rust"],
                                                         ["the crates,", "from Rattle"]]),
)
LAST = ["the command", "mergejoin"]
ASKED, ANSWER = 26 * WIDE, 16 * WIDE


def which():
    """Which interface to use, question by question."""
    drawing, y = Drawing("Which interface to use"), SPACE
    for asked, answers in QUESTIONS:
        _, height = drawing.box(SPACE, y, asked, PLAIN, ASKED)
        end, middle = SPACE + ASKED, y + height // 2
        drawing.text(end + SPACE, middle - 5, "yes")
        x = end + 6 * SPACE
        drawing.across(end, middle, x)
        for lines in answers:
            drawing.box(x, y, lines, PATCH, ANSWER)
            x += ANSWER + SPACE
        below = y + height + 4 * SPACE
        drawing.down(SPACE + ASKED // 2, y + height, below)
        drawing.text(SPACE + ASKED // 2 + SPACE, y + height + 2 * SPACE, "no")
        y = below
    drawing.box(SPACE, y, LAST, PATCH, ASKED)
    drawing.legend([(PLAIN, "a question"), (PATCH, "an interface")])
    return drawing.svg()


# What an answer depends on, by what is known of it.
LAYERS = (
    ("neither proved nor tested", PLAIN, [["that patches reach", "each replica"], ["how long", "it takes"]]),
    ("tested", TESTED, [["that memory is there,", "and calls succeed"], ["the stack of the", "deepest documents"], ["main: its streams", "and statuses"], ["texts of help", "and of errors"],
                        ["mergejoin.h:", "inline functions"], ["Python, Rust,", "PostgreSQL, SQLite"], ["the scripts", "of bin/"]]),
    ("proved, unless memory runs out", SHOWN, [["mp_cli: from the bytes that are read", "to the bytes that are written"],
                                               ["mp_c: each call of C"], ["mp_replica, mp_texts, mp_merge,", "mp_patch, mp_pointer, mp_tree"]]),
    ("trusted", TRUSTED, [["the definitions", "of specs/"], ["the Rattle", "toolchain"], ["its standard library", "and ported crates"],
                          ["clang"], ["the C library and", "the operating system"]]),
)


def boundary():
    """What of an answer is proved, what is tested, and what is trusted."""
    drawing, y = Drawing("What is proved, what is tested and what is trusted"), SPACE
    wide = max(sum(width_of(lines) + SPACE for lines in boxes) for _, _, boxes in LAYERS)
    for title, colour, boxes in LAYERS:
        drawing.text(SPACE, y + 14, title, weight="bold")
        y += HIGH + 4
        # (all boxes of a layer grow alike, so that each layer is as wide as the widest)
        more, x = (wide - sum(width_of(lines) + SPACE for lines in boxes)) // len(boxes), SPACE
        for lines in boxes:
            width, height = drawing.box(x, y, lines, colour, width_of(lines) + more, height=2 * HIGH + SPACE)
            x += width + SPACE
        y += height + 2 * SPACE
    drawing.legend([(colour, title.split(",")[0]) for title, colour, _ in LAYERS])
    return drawing.svg()


def width_of(lines):
    return WIDE * max(map(len, lines)) + 2 * SPACE
