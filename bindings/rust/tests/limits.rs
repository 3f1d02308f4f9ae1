//! What short texts ask for ends within a limit, in bounded memory. One test after another: what is resident is the process's.

use mergejoin::{within, Error};
use std::{fmt::Write, fs};

const LIMIT: usize = 64 << 20;

/// The most that may be resident, in kB: the text of an error may have twice the limit, and the library takes as much besides.
const MOST: usize = 350_000;

/// The most that this process had resident at once, in kB.
fn most_resident() -> usize {
    let status = fs::read_to_string("/proc/self/status").unwrap();
    let line = status
        .lines()
        .find(|line| line.starts_with("VmHWM:"))
        .unwrap();
    line.split_whitespace().nth(1).unwrap().parse().unwrap()
}

/// An object of one name that is `~` again and again, with an object in it of so many names, each with that value.
fn nested(length: usize, names: usize, value: u8) -> String {
    let mut members = String::new();
    for name in 0..names {
        write!(members, r#","{name}":{value}"#).unwrap();
    }
    format!(r#"{{"{}":{{{}}}}}"#, "~".repeat(length), &members[1..])
}

#[test]
fn a_conflict_with_no_place_shows_how_many_there_are() {
    let two = [r#"{"a":1,"b":1}"#, r#"{"a":2,"b":2}"#];
    let shown = |limit, patches: [&str; 2]| within(limit).join(patches).unwrap_err().to_string();
    assert_eq!(shown(0, two), "conflict: patches 0 and 1 at 2 places");
    assert_eq!(shown(0, ["1", "2"]), "conflict: patches 0 and 1 at 1 place");
}

#[test]
fn short_texts_take_no_more_than_the_limit_allows() {
    // A document that is copied into itself: each copy doubles it.
    let copies = vec![r#"{"op":"copy","from":"","path":"/a/-"}"#; 60].join(",");
    for value in [r#""0123456789""#, r#"{"":{"":0}}"#] {
        let document = format!(r#"{{"a":[{value}]}}"#);
        let patched = within(LIMIT).patch(document, format!("[{copies}]"));
        assert!(matches!(patched, Err(Error::TooLarge { number: 10..=30 })), "{patched:?}");
        assert!(most_resident() < MOST);
    }
    // A long name above many places at which two patches conflict.
    match within(LIMIT).join([nested(60_000, 12_000, 0), nested(60_000, 12_000, 1)]) {
        Err(Error::Conflict { places, total, .. }) => {
            assert_eq!(total, 12_000);
            assert!((100..12_000).contains(&places.len()));
        }
        answer => panic!("{answer:?}"),
    }
    assert!(most_resident() < MOST);
}
