"""The crate for Rust answers each test vector, and each row that the library is held to from C, with the text, or with an error that
shows the line of the program.
"""

from rows import ROWS, line_of, vector_rows

PROGRAM = """\
use mergejoin::{get, join, merge, patch, replay, rewrite};

fn answer(export: &str, texts: &[&[u8]]) -> String {
    let answer = match export {
        "join" => join(texts),
        "replay" => replay(texts[0], &texts[1..]),
        "merge" => merge(texts[0], &texts[1..]),
        "rewrite" => rewrite(texts[0], texts[1]),
        "patch" => patch(texts[0], texts[1]),
        _ => get(texts[0], std::str::from_utf8(texts[1]).unwrap()),
    };
    answer.unwrap_or_else(|why| why.to_string())
}

#[test]
fn each_row_is_answered() {
    for (export, texts, wanted) in ROWS {
        assert_eq!(answer(export, texts).as_bytes(), *wanted, "{export} {texts:?}");
    }
}

const ROWS: &[(&str, &[&[u8]], &[u8])] = &[
"""


def is_given(export, texts):
    """Whether the crate takes such texts: a pointer is a str, which is always UTF-8."""
    return export != "get" or texts[1].decode("utf-8", "replace").encode() == texts[1]


def literal(data):
    return 'b"' + "".join(f"\\x{byte:02x}" for byte in data) + '"'


def test_each_vector_is_answered(crate, cargo):
    rows = [row for row in [*vector_rows(), *ROWS] if is_given(row[0], row[-1])]
    assert len(rows) >= 210 and {row[1] for row in rows} == set(range(9))
    lines = [f'("{export}", &[{", ".join(map(literal, texts))}], {literal(line_of(*reply).encode())}),\n' for export, *reply, texts in rows]
    (crate / "tests/vectors.rs").write_text(PROGRAM + "".join(lines) + "];\n", "utf-8")
    try:
        assert "1 passed" in cargo("test", "--test", "vectors")
    finally:
        (crate / "tests/vectors.rs").unlink()
