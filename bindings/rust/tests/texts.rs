//! The six functions: what they take, their results, and each error.

use mergejoin::{
    get, join, merge, patch, replay, rewrite, within, DocumentCause, Error, FormCause,
    PointerCause, RefusedCause,
};

fn text(it: &str) -> String {
    it.to_owned()
}

#[test]
fn each_function_has_a_result() {
    assert_eq!(join(["[1]", " [1]"]), Ok(text("[1]")));
    assert_eq!(
        replay(r#"{"k":0}"#, [r#"{"a":1}"#, r#"{"k":null}"#]),
        Ok(text(r#"{"a":1}"#))
    );
    assert_eq!(merge("1", ["2", "3"]), Ok(text("3")));
    assert_eq!(rewrite("5", "5"), Ok(text("[]")));
    let edit = r#"[{"op":"remove","path":"/0"}]"#;
    assert_eq!(patch("[1]", edit), Ok(text("[]")));
    assert_eq!(get("5", ""), Ok(text("5")));
}

#[test]
fn texts_are_of_each_kind() {
    let owned = vec![text("[1]"), text("[1]")];
    let bytes: &[&[u8]] = &[b"[1]", b"[1]"];
    let vectors = [b"[1]".to_vec(), b"[1]".to_vec()];
    for joined in [
        join(&owned),
        join(owned.iter().rev()),
        join(owned.clone()),
        join(owned.iter().map(String::as_bytes)),
        join(bytes),
        join(&vectors),
        join(vectors),
        join(std::iter::repeat("[1]").take(3)),
    ] {
        assert_eq!(joined, Ok(text("[1]")));
    }
    assert_eq!(replay(*b"1", &owned[..0]), Ok(text("1")));
    assert_eq!(merge(vec![b'1'], owned), Ok(text("[1]")));
    assert_eq!(get(b"[1]", text("/0")), Ok(text("1")));
}

#[test]
fn a_conflict_has_all_its_places() {
    let names = [
        "\\b\\f\\n\\r\\t\\u0001\\u001f",
        "\\\",",
        "\\\\",
        "a/b",
        "é",
        "\u{1f600}",
    ];
    let with = |value| {
        format!(
            "{{{}}}",
            names.map(|name| format!("\"{name}\":{value}")).join(",")
        )
    };
    let places = [
        "/\u{8}\u{c}\n\r\t\u{1}\u{1f}",
        "/\",",
        "/\\",
        "/a~1b",
        "/é",
        "/\u{1f600}",
    ];
    let line = r#"conflict: patches 0 and 2 at "/\b\f\n\r\t\u0001\u001f", "/\",", "/\\", "/a~1b", "/é", "/😀""#;
    let wanted = Error::Conflict {
        patches: Some((0, 2)),
        places: places.map(text).to_vec(),
        total: 6,
        more: false,
        line: text(line),
    };
    let given = [with(1), text(r#"{"other":1}"#), with(2)];
    assert_eq!(wanted.to_string(), line);
    assert_eq!(join(&given), Err(wanted.clone()));
    assert_eq!(replay("5", given), Err(wanted));
}

#[test]
fn each_error_is_reported() {
    let none: [&str; 0] = [];
    assert_eq!(join(none), Err(Error::NoPatches));
    assert_eq!(get("1", "/a"), Err(Error::Missing));
    let unread = |cause, place, line: &str| Error::Document { cause, place, line: text(line) };
    let of_patch = |cause, place, line: &str| Error::Patch { number: 1, cause, place, line: text(line) };
    let line = r#"document: number not whole at "/a~1b/1""#;
    let error = unread(DocumentCause::NotWhole, Some(text("/a~1b/1")), line);
    assert_eq!(error.to_string(), line);
    assert_eq!(merge(r#"{"a/b":[1,1.5]}"#, ["["]), Err(error));
    let error = of_patch(DocumentCause::NotJson, None, "patch 1: not JSON");
    assert_eq!(merge("1", ["1", ""]), Err(error.clone()));
    let not_utf8: [&[u8]; 2] = [b"1", b"\"\xff\""];
    assert_eq!(merge("1", not_utf8), Err(error));
    let error = of_patch(DocumentCause::NotWhole, Some(text("")), r#"patch 1: number not whole at """#);
    assert_eq!(merge("1", ["1", "0.5"]), Err(error));
    let pointer = |offset, cause, line: &str| Err(Error::Pointer { offset, cause, line: text(line) });
    assert_eq!(get("1", "/~2"), pointer(1, PointerCause::BadTilde, "pointer: bad tilde at 1"));
    assert_eq!(get("1", "a"), pointer(0, PointerCause::NoSlash, "pointer: no slash"));
    let (deep, place) = ("[".repeat(127) + &"]".repeat(127), "/0".repeat(126));
    let line = format!("document: too deep at \"{place}\"");
    assert_eq!(rewrite(deep, "1"), Err(unread(DocumentCause::TooDeep, Some(place), &line)));
}

#[test]
fn a_limit_bounds_what_is_made() {
    // A document that is copied into itself, over and over: each copy doubles it.
    let copy = r#"{"op":"copy","from":"","path":"/a/-"}"#;
    for document in [r#"{"a":["0123456789"]}"#, r#"{"a":[{"":{"":0}}]}"#] {
        let copies = format!("[{}]", vec![copy; 60].join(","));
        let patched = within(64_000_000).patch(document, copies);
        assert!(matches!(patched, Err(Error::TooLarge { number: 10..=30 })), "{patched:?}");
    }
    // Patches that conflict at more places than the limit allows.
    let with = |value: u8| {
        let names: Vec<String> = (0..1000).map(|name| format!(r#""n{name}":{value}"#)).collect();
        format!("{{{}}}", names.join(","))
    };
    match within(1000).join([with(1), with(2)]) {
        Err(Error::Conflict { places, total, line, .. }) => {
            assert_eq!(total, 1000);
            assert!(line.ends_with(r#""/n102", "/n103" and 993 more"#));
            assert_eq!(places, ["/n0", "/n1", "/n10", "/n100", "/n101", "/n102", "/n103"]);
        }
        answer => panic!("{answer:?}"),
    }
    let rewritten = within(300).rewrite(r#"{"a":1}"#, r#"{"a":null}"#);
    assert_eq!(rewritten, Err(Error::TooLarge { number: 0 }), "of its one place the test fits alone");
}

/// Why the second of two operations is refused.
fn refusal(document: &str, operation: &str) -> Option<RefusedCause> {
    let edits = format!(r#"[{{"op":"copy","from":"","path":""}},{operation}]"#);
    match patch(document, edits) {
        Err(Error::Refused { operation: 1, cause, line }) if line == format!("operation 1: {cause}") => Some(cause),
        _ => None,
    }
}

#[test]
fn each_cause_of_a_refusal_is_reported() {
    let deep = "[".repeat(126) + &"]".repeat(126);
    let moved = r#"{"op":"move","from":"","path":"/a"}"#;
    assert_eq!(refusal("{}", moved), Some(RefusedCause::IntoItself));
    let removed = r#"{"op":"remove","path":""}"#;
    assert_eq!(refusal("{}", removed), Some(RefusedCause::RemoveOfRoot));
    let removed = r#"{"op":"remove","path":"/a"}"#;
    assert_eq!(refusal("{}", removed), Some(RefusedCause::Missing));
    let added = r#"{"op":"add","path":"/a/b","value":1}"#;
    assert_eq!(refusal("{}", added), Some(RefusedCause::NoPlace));
    let copied = r#"{"op":"copy","from":"","path":"/0"}"#;
    assert_eq!(refusal(&deep, copied), Some(RefusedCause::TooDeep));
    let tested = r#"{"op":"test","path":"","value":2}"#;
    assert_eq!(refusal("1", tested), Some(RefusedCause::TestFailed));
}

#[test]
fn each_cause_of_a_form_is_reported() {
    for (edit, cause) in [
        ("1", FormCause::NotAnObject),
        ("{}", FormCause::NoOp),
        (r#"{"op":"edit"}"#, FormCause::UnknownOp),
        (r#"{"op":"add"}"#, FormCause::NoPath),
        (r#"{"op":"copy","path":""}"#, FormCause::NoFrom),
        (
            r#"{"op":"add","path":"a","value":1}"#,
            FormCause::BadPointer,
        ),
        (r#"{"op":"add","path":""}"#, FormCause::NoValue),
    ] {
        let edits = format!(r#"[{{"op":"test","path":"","value":1}},{edit}]"#);
        let line = format!("operation 1: {cause}");
        assert_eq!(patch("1", edits), Err(Error::Form { operation: 1, cause, line }));
    }
    let (operation, cause, line) = (0, FormCause::NotAnArray, text("not an array"));
    assert_eq!(patch("1", "{}"), Err(Error::Form { operation, cause, line }));
}

#[test]
fn an_error_shows_the_line_of_the_program() {
    let shown = |answer: Result<String, Error>| answer.unwrap_err().to_string();
    let two = [
        r#"{"a":{"\"\n\u0001":1}}"#,
        r#"{"a":{"\"\n\u0001":2},"b":3}"#,
    ];
    assert_eq!(
        shown(join(two)),
        r#"conflict: patches 0 and 1 at "/a/\"\n\u0001""#
    );
    let more = [r#"{"a":1,"b":1}"#, r#"{"a":2,"b":2}"#];
    assert_eq!(
        shown(join(more)),
        r#"conflict: patches 0 and 1 at "/a", "/b""#
    );
    assert_eq!(shown(join([""; 0])), "no patches");
    assert_eq!(shown(patch("1", "[{}]")), "operation 0: no op");
    assert_eq!(shown(patch("1", "{}")), "not an array");
    assert_eq!(shown(get("1", "x")), "pointer: no slash");
    assert_eq!(shown(get("1", "/~2")), "pointer: bad tilde at 1");
    assert_eq!(shown(get("1", "/a")), "missing");
    assert_eq!(shown(merge("1", ["["])), "patch 0: not JSON");
    assert_eq!(shown(merge("", ["["])), "document: not JSON");
    let edit = r#"[{"op":"test","path":"","value":2}]"#;
    assert_eq!(shown(patch("1", edit)), "operation 0: test failed");
}

#[test]
fn causes_and_errors_are_errors() {
    let boxed: Box<dyn std::error::Error + Send + Sync> = Box::new(PointerCause::BadTilde);
    assert_eq!(format!("{boxed:>10}"), " bad tilde");
    let boxed: Box<dyn std::error::Error + Send + Sync> = join([""; 0]).unwrap_err().into();
    assert!(boxed.source().is_none());
}

#[test]
fn a_long_answer_is_asked_for_again() {
    for length in (0..150).chain([5000]) {
        let document = format!(r#"{{"a":"{}"}}"#, "x".repeat(length));
        let copy = r#"[{"op":"copy","from":"/a","path":"/b"}]"#;
        let copied = patch(&document, copy).unwrap();
        assert_eq!(copied.len(), 15 + 2 * length);
    }
}

#[test]
fn a_limit_is_of_the_result() {
    let (document, add, merged) = (r#"{"a":1}"#, r#"{"b":2}"#, r#"{"a":1,"b":2}"#);
    let call = |limit| {
        let within = within(limit);
        [
            within.join([document, add]),
            within.replay(document, [add]),
            within.merge(document, [add]),
            within.get(merged, ""),
        ]
    };
    assert_eq!(call(merged.len()), [(); 4].map(|()| Ok(text(merged))));
    assert_eq!(
        call(merged.len() - 1),
        [(); 4].map(|()| Err(Error::TooLarge { number: 0 }))
    );
    assert_eq!(within(0).get(document, "/b"), Err(Error::Missing));
    assert!(within(0).join([document, "1"]).is_err());
}

#[test]
fn a_limit_is_of_what_operations_make_and_take() {
    let (document, add, merged) = (r#"{"a":1}"#, r#"{"b":2}"#, r#"{"a":1,"b":2}"#);
    let edits = r#"[{"op":"add","path":"/b","value":2}]"#;
    // An object weighs 1000 bytes, a name of one byte 129, a number 40, and the pointer of such a name 138.
    let patched = |limit| within(limit).patch(document, edits);
    assert_eq!(patched(1338).as_deref(), Ok(merged));
    assert_eq!(patched(1337), Err(Error::TooLarge { number: 0 }));
    let rewritten = |limit| within(limit).rewrite(document, add);
    assert_eq!(rewritten(178).as_deref(), Ok(edits));
    assert_eq!(rewritten(177), Err(Error::TooLarge { number: 0 }));
}

#[test]
fn what_is_not_needed_is_given_back() {
    let long = format!(r#"{{"a":"{}","b":5}}"#, "x".repeat(100_000));
    for part in [get(&long, "/b").unwrap(), rewrite(&long, "{}").unwrap()] {
        assert!(part.capacity() < 1000, "{}", part.capacity());
    }
}
