//! What stays in memory: replicas, patches without a start, and patch logs.

use mergejoin::{
    join, replay, Added, Arrival, ConflictingPair, DecideError, DocumentCause, Error, Identity,
    PatchLog, Patches, PointerCause, Received, Replica,
};
use std::time::{Duration, Instant};

const ADA: &str = r#"{"author":"Ada"}"#;
const BOB: &str = r#"{"author":"Bob"}"#;
const UNTITLED: &str = r#"{"title":null}"#;
const START: &str = r#"{"title":"Notes"}"#;
const TOO_LARGE: Error = Error::TooLarge { number: 0 };

/// How many of the places `/n0` to `/n19999` patches hold of a conflict at all of them, in their order, and the last of these.
const HELD: usize = 458;
const LAST_HELD: &str = "/n10408";

fn conflict(place: &str) -> Error {
    Error::Conflict {
        patches: None,
        places: vec![place.to_owned()],
        total: 1,
        more: false,
        line: format!("conflict: two patches at \"{place}\""),
    }
}

// Of a kept form there is no place.
fn unread(cause: DocumentCause) -> Error {
    Error::Document { cause, place: None, line: format!("document: {cause}") }
}

/// The least time, of five, of 500 more patches.
fn of_more(patches: &mut Patches) -> Duration {
    let times = (0..5).map(|_| {
        let begun = Instant::now();
        for _ in 0..500 {
            patches.add(r#"{"a":1}"#).unwrap();
        }
        begun.elapsed()
    });
    times.min().unwrap()
}

#[test]
fn a_conflict_at_many_places_makes_no_later_patch_dearer() {
    let wide = |value: u8| {
        let members: Vec<_> = (0..20_000)
            .map(|name| format!(r#""n{name}":{value}"#))
            .collect();
        format!("{{{}}}", members.join(","))
    };
    let (mut plain, mut conflicting) = (Patches::new(), Patches::new());
    assert_eq!(plain.add(wide(1)), Ok(Added::Joined));
    assert_eq!(conflicting.add(wide(1)), Ok(Added::Joined));
    assert_eq!(conflicting.add(wide(2)), Ok(Added::Conflict));
    let time = of_more(&mut plain);
    assert!(of_more(&mut conflicting) < 10 * time + Duration::from_millis(5));
    match conflicting.text() {
        Err(Error::Conflict { places, total, more, .. }) => {
            assert_eq!((places.len(), total, more), (HELD, HELD, true));
            assert_eq!(places[HELD - 1], LAST_HELD);
        }
        answer => panic!("{answer:?}"),
    }
}

#[test]
fn patches_say_if_there_are_more_places_than_they_hold() {
    for (kept, shown) in [
        (r#"!["/a"]"#, r#"conflict: two patches at "/a""#),
        (r#"!+["/a"]"#, r#"conflict: two patches at "/a" and more"#),
        (r#"!+["/a","/b"]"#, r#"conflict: two patches at "/a", "/b" and more"#),
        ("!+[]", "conflict: two patches"),
    ] {
        let mut patches = Patches::from_kept(kept).unwrap();
        let error = patches.add(ADA).and(patches.text()).unwrap_err();
        let wanted = kept.starts_with("!+");
        assert!(matches!(error, Error::Conflict { more, .. } if more == wanted));
        assert_eq!(error.to_string(), shown);
        assert_eq!(patches.kept().as_deref(), Ok(kept));
    }
    let unread = Patches::from_kept("![]").err();
    assert_eq!(unread, Some(Error::NotKept));
}

fn is_not_json<T>(answer: Result<T, Error>) -> bool {
    let (number, cause, place, line) = (0, DocumentCause::NotJson, None, "patch 0: not JSON".to_owned());
    answer.err() == Some(Error::Patch { number, cause, place, line })
}

/// Members enough that no first buffer has their join, or their places.
fn members(value: u32) -> String {
    let members: Vec<_> = (0..500).map(|it| format!(r#""{it:03}":{value}"#)).collect();
    format!("{{{}}}", members.join(","))
}

#[test]
fn a_replica_shows_what_it_received() {
    let mut replica = Replica::new(START).unwrap();
    assert_eq!(replica.document().as_deref(), Ok(START));
    assert_eq!(replica.joined(), Err(Error::NoPatches));
    for patch in [UNTITLED, ADA, UNTITLED, ADA] {
        assert_eq!(replica.receive(patch), Ok(Received::Taken));
    }
    assert_eq!(replica.document(), replay(START, [ADA, UNTITLED]));
    assert_eq!(replica.joined(), join([ADA, UNTITLED]));
    assert_eq!(replica.get("/author").as_deref(), Ok("\"Ada\""));
    assert_eq!(replica.get("").as_deref(), Ok(ADA));
}

#[test]
fn each_error_of_a_replica_is_reported() {
    let (cause, place) = (DocumentCause::TooDeep, "/0".repeat(126));
    let line = format!("document: too deep at \"{place}\"");
    let deep = "[".repeat(127) + &"]".repeat(127);
    assert_eq!(Replica::new(deep).err(), Some(Error::Document { cause, place: Some(place), line }));

    let mut replica = Replica::new(START).unwrap();
    replica.receive(ADA).unwrap();
    assert!(is_not_json(replica.receive("{")));
    assert_eq!(replica.receive(BOB), Err(conflict("/author")));
    let (offset, cause, line) = (0, PointerCause::NoSlash, "pointer: no slash".to_owned());
    assert_eq!(replica.get("x"), Err(Error::Pointer { offset, cause, line }));
    assert_eq!(replica.get("/x"), Err(Error::Missing));
    assert_eq!(replica.document(), replay(START, [ADA]), "it is as it was");
    assert_eq!(replica.joined(), join([ADA]), "it is as it was");
}

#[test]
fn texts_are_longer_than_a_first_buffer() {
    let (one, other) = (members(1), members(2));
    let mut replica = Replica::new("{}").unwrap();
    replica.receive(format!(r#"{{"all":{one}}}"#)).unwrap();
    assert_eq!(replica.get("/all").as_deref(), Ok(one.as_str()));
    match replica.receive(format!(r#"{{"all":{other}}}"#)) {
        Err(Error::Conflict { patches, places, .. }) => {
            assert_eq!((patches, places.len()), (None, 500));
            assert_eq!(places[499], "/all/499");
        }
        received => panic!("{received:?}"),
    }
    assert_eq!(
        replica.document(),
        replay("{}", [format!(r#"{{"all":{one}}}"#)])
    );
}

#[test]
fn a_place_is_longer_than_a_first_buffer() {
    for name in ["n".repeat(1000), format!("{}\u{e9}", "n".repeat(43))] {
        let patch = format!(r#"{{"{name}":1.5}}"#);
        let (number, cause, place) = (0, DocumentCause::NotWhole, Some(format!("/{name}")));
        let line = format!("patch 0: number not whole at \"/{name}\"");
        let error = Error::Patch { number, cause, place, line };
        let mut patches = Patches::new();
        patches.add(ADA).unwrap();
        assert_eq!(patches.add(&patch).err().as_ref(), Some(&error));
        assert_eq!(patches.text().as_deref(), Ok(ADA), "it is as it was");
        let mut replica = Replica::new(START).unwrap();
        assert_eq!(replica.receive(&patch).err().as_ref(), Some(&error));
        let (epoch, identity) = (0, Identity { sender: 1, number: 1 });
        let mut log = PatchLog::new(epoch, START).unwrap();
        assert_eq!(log.receive(epoch, identity, &patch).err().as_ref(), Some(&error));
    }
}

#[test]
fn patches_are_joined_in_groups() {
    let (mut one, mut other) = (Patches::new(), Patches::default());
    assert_eq!(one.text(), Err(Error::NoPatches));
    assert_eq!(one.add(ADA), Ok(Added::Joined));
    assert_eq!(one.add(ADA), Ok(Added::Joined));
    assert_eq!(other.add(UNTITLED), Ok(Added::Joined));
    assert_eq!(one.combine(&mut other), Ok(Added::Joined));
    assert_eq!(one.combine(&mut other), Ok(Added::Joined), "of none");
    assert_eq!(one.text(), join([ADA, UNTITLED]));
    assert_eq!(other.text(), Err(Error::NoPatches));
}

#[test]
fn a_conflict_takes_all_further_patches() {
    let mut patches = Patches::new();
    patches.add(members(1)).unwrap();
    assert_eq!(patches.add(members(2)), Ok(Added::Conflict)); // at 500 places of a weight of 140
    assert_eq!(patches.add(ADA), Ok(Added::Conflict));
    assert!(is_not_json(patches.add("")));
    let places = |answer| match answer {
        Err(Error::Conflict { patches, places, .. }) => (patches, places.len()),
        answer => panic!("{answer:?}"),
    };
    assert_eq!(places(patches.text()), (None, 468));

    let mut other = Patches::new();
    other.add(BOB).unwrap();
    assert_eq!(other.combine(&mut patches), Ok(Added::Conflict));
    assert_eq!(places(other.text()), (None, 468));
    assert_eq!(patches.text(), Err(Error::NoPatches));
}

#[test]
fn two_groups_conflict() {
    let (mut one, mut other) = (Patches::new(), Patches::new());
    one.add(ADA).unwrap();
    other.add(BOB).unwrap();
    assert_eq!(one.combine(&mut other), Ok(Added::Conflict));
    assert_eq!(one.text(), Err(conflict("/author")));
    let shown = r#"conflict: two patches at "/author""#;
    assert_eq!(conflict("/author").to_string(), shown);
}

#[test]
fn a_kept_form_is_taken_back() {
    let mut patches = Patches::new();
    for (patch, kept) in [
        (None, ""),
        (Some(ADA), ADA),
        (Some(BOB), r#"!["/author"]"#),
        (Some(START), r#"!["/author"]"#),
    ] {
        if let Some(patch) = patch {
            patches.add(patch).unwrap();
        }
        assert_eq!(patches.kept().as_deref(), Ok(kept));
        let mut again = Patches::from_kept(kept).unwrap();
        assert_eq!(again.kept().as_deref(), Ok(kept));
        assert_eq!(again.text(), patches.text());
    }
    let long = members(1);
    let mut again = Patches::from_kept(&long).unwrap();
    assert_eq!(again.text(), Ok(long));
}

#[test]
fn each_error_of_a_kept_form_is_reported() {
    for (kept, why) in [
        ("{", unread(DocumentCause::NotJson)),
        ("1.5", unread(DocumentCause::NotWhole)),
        ("!", unread(DocumentCause::NotJson)),
        ("!{}", Error::NotKept),
        ("![]", Error::NotKept),
        (r#"!["a"]"#, Error::NotKept),
    ] {
        assert_eq!(Patches::from_kept(kept).err(), Some(why), "{kept}");
    }
    assert_eq!(Error::NotKept.to_string(), "not kept patches");
}

const ONE: Identity = Identity { sender: 1, number: 1 };
const TWO: Identity = Identity { sender: 2, number: 1 };
const LAST: Identity = Identity { sender: u64::MAX, number: u64::MAX };

/// The pair of these identities, which conflict at the author, or of which no place is given.
fn pair(first: Identity, second: Identity, has_place: bool) -> ConflictingPair {
    let places = has_place.then(|| "/author".to_owned()).into_iter().collect();
    ConflictingPair { first, second, places }
}

/// A log of the start of number 7, which has patches of Ada and of Bob, that conflict, and one that conflicts with neither.
fn log_of_three() -> PatchLog {
    let mut log = PatchLog::new(7, START).unwrap();
    for (identity, patch) in [(LAST, UNTITLED), (TWO, BOB), (ONE, ADA)] {
        assert_eq!(log.receive(7, identity, patch), Ok(Arrival::Stored));
    }
    log
}

#[test]
fn a_patch_log_shows_what_conflicts_with_no_other() {
    let mut log = log_of_three();
    for (epoch, arrival) in [(7, Arrival::Repeat), (6, Arrival::Late), (u64::MAX, Arrival::Early)] {
        assert_eq!(log.receive(epoch, ONE, UNTITLED), Ok(arrival));
    }
    assert_eq!(log.document(), replay(START, [UNTITLED]));
    assert_eq!(log.conflicts(), Ok(vec![pair(ONE, TWO, true)]));
}

#[test]
fn a_patch_log_counts_its_patches_and_gives_the_first_conflicts() {
    let mut log = log_of_three();
    assert_eq!(log.count(), Ok(3));
    let (whole, without) = (vec![pair(ONE, TWO, true)], vec![pair(ONE, TWO, false)]);
    // A pair weighs 64, and its place 143.
    for (limit, pairs) in [(207, &whole), (206, &without), (64, &without), (63, &vec![]), (2, &vec![])] {
        log.set_limit(limit);
        let more = limit < 207;
        assert_eq!(log.first_conflicts(), Ok((pairs.clone(), more)), "{limit}");
        let all = if more { Err(TOO_LARGE) } else { Ok(whole.clone()) };
        assert_eq!(log.conflicts(), all, "{limit}");
    }
    log.set_limit(1);
    assert_eq!(log.first_conflicts(), Err(TOO_LARGE));
    assert_eq!(log.count(), Ok(3), "a number is not bounded");
    log.decide(&[ONE]).unwrap();
    assert_eq!(log.count(), Ok(0));
}

#[test]
fn a_patch_log_gives_the_conflicts_of_one_identity() {
    let mut log = log_of_three();
    let zero = Identity { sender: 0, number: u64::MAX };
    log.receive(7, zero, r#"{"author":null,"title":5}"#).unwrap();
    let [with_one, with_two, both] = [(zero, ONE), (zero, TWO), (ONE, TWO)].map(|(first, second)| pair(first, second, true));
    assert_eq!(log.conflicts_of(ONE), Ok((vec![with_one.clone(), both.clone()], false)));
    assert_eq!(log.conflicts_of(TWO), Ok((vec![with_two, both.clone()], false)));
    assert_eq!(log.conflicts_of(Identity { sender: 9, number: 9 }), Ok((vec![], false)));
    // A pair weighs 64, and its place 143.
    for (limit, pairs) in [(414, vec![with_one.clone(), both]), (270, vec![with_one]), (63, vec![])] {
        log.set_limit(limit);
        assert_eq!(log.conflicts_of(ONE), Ok((pairs, limit < 414)), "{limit}");
    }
    log.set_limit(1);
    assert_eq!(log.conflicts_of(ONE), Err(TOO_LARGE));
}

#[test]
fn a_decision_begins_the_next_start() {
    let mut log = log_of_three();
    assert_eq!(log.decide(&[LAST, TWO, LAST]), Ok(()));
    assert_eq!(log.document(), replay(START, [BOB, UNTITLED]));
    assert_eq!(log.conflicts(), Ok(vec![]));
    assert_eq!(log.receive(7, ONE, ADA), Ok(Arrival::Late));
    assert_eq!(log.receive(8, ONE, ADA), Ok(Arrival::Stored));
    assert_eq!(log.decide(&[]), Ok(()));
    assert_eq!(log.document(), replay(START, [BOB, UNTITLED]));
}

#[test]
fn each_error_of_a_patch_log_is_reported() {
    let cause = DocumentCause::NotWhole;
    let place = Some("/a".to_owned());
    let line = |which| format!(r#"{which}: number not whole at "/a""#);
    let unread = Error::Document { cause, place: place.clone(), line: line("document") };
    assert_eq!(PatchLog::new(7, r#"{"a":1.5}"#).err(), Some(unread));
    let mut log = log_of_three();
    for epoch in [6, 7, 8] {
        assert!(is_not_json(log.receive(epoch, ONE, "[")));
        let unread = Error::Patch { number: 0, cause, place: place.clone(), line: line("patch 0") };
        assert_eq!(log.receive(epoch, ONE, r#"{"a":1.5}"#), Err(unread));
    }
    let none = Identity { sender: 1, number: 2 };
    let missing = DecideError::NotReceived(none);
    assert_eq!(log.decide(&[ONE, TWO, none]), Err(missing.clone()));
    assert_eq!((missing.to_string().as_str(), none.to_string().as_str()), ("missing", "1:2"));
    for (chosen, line) in [
        ([ONE, LAST, TWO], r#"conflict: patches 0 and 2 at "/author""#),
        ([TWO, TWO, ONE], r#"conflict: patches 2 and 0 at "/author""#),
    ] {
        let (places, total) = (vec!["/author".to_owned()], 1);
        let conflict = DecideError::Conflict { first: ONE, second: TWO, places, total, line: line.to_owned() };
        assert_eq!(conflict.to_string(), line);
        assert_eq!(log.decide(&chosen), Err(conflict));
    }
    assert_eq!(log.document(), replay(START, [UNTITLED]), "it is as it was");

    let mut last = PatchLog::new(u64::MAX, START).unwrap();
    assert_eq!(last.decide(&[ONE]), Err(DecideError::LastEpoch));
    assert_eq!(DecideError::LastEpoch.to_string(), "no number is left for a start");
    assert_eq!(last.document().as_deref(), Ok(START));
}

#[test]
fn texts_of_a_patch_log_are_longer_than_a_first_buffer() {
    let (one, other) = (members(1), members(2));
    let mut log = PatchLog::new(0, "{}").unwrap();
    log.receive(0, ONE, &one).unwrap();
    assert_eq!(log.document().as_ref(), Ok(&one));
    log.receive(0, TWO, other).unwrap();
    assert_eq!(log.conflicts().unwrap()[0].places[498..], ["/498", "/499"]);
    let places = |answer| match answer {
        Err(DecideError::Conflict { places, total, .. }) => (places.len(), total),
        answer => panic!("{answer:?}"),
    };
    assert_eq!(places(log.decide(&[ONE, TWO])), (500, 500));
    log.set_limit(2 * 140); // what each of these places weighs
    assert_eq!(places(log.decide(&[ONE, TWO])), (2, 500));
    let shown = log.decide(&[ONE, TWO]).unwrap_err().to_string();
    assert_eq!(shown, r#"conflict: patches 0 and 1 at "/000", "/001" and 498 more"#);
    assert_eq!(log.conflicts(), Err(TOO_LARGE));
    log.set_limit(1);
    assert_eq!(log.document(), Err(TOO_LARGE));
    assert_eq!(log.receive(0, LAST, "{}"), Ok(Arrival::Stored), "a limit is of what is read");
}

#[test]
fn a_limit_is_of_what_is_read() {
    let mut replica = Replica::new(START).unwrap();
    replica.receive(ADA).unwrap();
    replica.set_limit(START.len());
    assert_eq!(replica.document(), Err(TOO_LARGE));
    assert_eq!(replica.joined().as_deref(), Ok(ADA));
    assert_eq!(replica.receive(UNTITLED), Ok(Received::Taken));
    assert_eq!(replica.document().as_deref(), Ok(ADA));
    replica.set_limit(4);
    assert_eq!(replica.get("/author"), Err(TOO_LARGE));

    let mut patches = Patches::from_kept(ADA).unwrap();
    patches.set_limit(ADA.len() - 1);
    assert_eq!(patches.text(), Err(TOO_LARGE));
    assert_eq!(patches.kept(), Err(TOO_LARGE));
    patches.set_limit(ADA.len());
    assert_eq!(patches.text().as_deref(), Ok(ADA));
}

#[test]
fn threads_take_them_along() {
    let mut replica = Replica::new(START).unwrap();
    let mut patches = Patches::new();
    replica.receive(ADA).unwrap();
    patches.add(ADA).unwrap();
    let mut log = log_of_three();
    let other = std::thread::spawn(move || {
        replica.receive(UNTITLED).unwrap();
        patches.add(UNTITLED).unwrap();
        log.decide(&[ONE]).unwrap();
        (replica, patches, log)
    });
    let (mut replica, mut patches, mut log) = other.join().unwrap();
    assert_eq!(log.document(), replay(START, [ADA]));
    assert_eq!(replica.document(), replay(START, [ADA, UNTITLED]));
    assert_eq!(patches.text(), join([ADA, UNTITLED]));
}

#[test]
fn what_is_held_is_not_shown() {
    assert_eq!(
        format!("{:?}", Replica::new("1").unwrap()),
        "Replica { .. }"
    );
    assert_eq!(format!("{:?}", Patches::new()), "Patches { .. }");
    assert_eq!(format!("{:?}", log_of_three()), "PatchLog { .. }");
}
