//! The recorded calls that `crates/cases` replays: each answer is still the oracle's, or document 01's.

#![cfg(oracle)]

use std::collections::BTreeSet;

use compare::image::Image;
use compare::recorded::asked::{told, Asked};
use compare::recorded::file::File;
use compare::recorded::read::{decode, of_cases, Recorded};

fn recorded() -> Vec<Recorded> {
    of_cases().expect("a whole file")
}

#[test]
fn every_answer_is_the_oracles() {
    let counts = |image: &Image, r: &Recorded| match &r.question.asked {
        Asked::Desk(d) => d.counts(image, r.question.room) == Some(d.after),
        _ => true,
    };
    let differ = |r: &Recorded| {
        let image = Image::of(r.image.clone());
        told(&image, &r.question).is_some_and(|t| !r.tells(&t)) || !counts(&image, r)
    };
    let wrong: Vec<String> = recorded().iter().filter(|r| differ(r)).map(|r| r.question.to_string()).collect();
    assert_eq!(wrong, Vec::<String>::new());
}

#[test]
fn every_export_and_refusal_is_there() {
    let seen: BTreeSet<(&str, u8)> = recorded().iter().map(|r| (r.question.asked.name(), r.answer.0)).collect();
    let latest = ["open", "lookup", "read", "entry", "xattr", "link", "extent", "list", "replaced"];
    let others = ["checkpoints", "open_at", "lookup_at", "read_at", "list_at", "wrong_words", "measure", "measure_at"];
    let marks = ["mark", "mark_at", "marked", "marked_at"];
    for name in latest.into_iter().chain(others).chain(marks).chain(["desk"]) {
        let known: &[u8] = match name {
            "desk" => &[0, 1, 2, 3, 4, 5, 6, 9, 10, 11, 13, 14],
            "checkpoints" => &[0, 1, 2, 3, 6, 8, 11],
            "open_at" => &[0, 1, 2, 3, 6, 8, 11, 13],
            "lookup_at" => &[0, 2, 4, 6, 13],
            "read_at" => &[0, 4, 13],
            "list_at" => &[0, 2, 6, 13],
            "wrong_words" => &[0, 6],
            "measure" => &[0, 1, 2, 3, 4, 6, 8, 10, 11, 14],
            "measure_at" => &[0, 4, 6, 13],
            "mark" => &[0, 1, 2, 3, 4, 6, 8, 11, 12],
            "mark_at" => &[0, 4, 6, 13],
            "marked" => &[0, 1, 2, 3, 6, 8, 11, 12],
            "marked_at" => &[0, 1, 6, 13],
            "open" => &[0, 1, 2, 3, 4, 6, 8, 11, 12],
            "lookup" => &[0, 1, 2, 3, 4, 5, 6, 8, 9, 11, 12],
            "read" => &[0, 1, 2, 3, 4, 8],
            "list" => &[0, 1, 2, 3, 4, 6, 8, 10, 11, 12],
            "replaced" => &[0, 1, 2, 3, 4, 6, 8, 11, 12],
            _ => &[0, 1, 2, 3, 4, 6, 8],
        };
        let missing: Vec<&u8> = known.iter().filter(|n| !seen.contains(&(name, **n))).collect();
        assert!(missing.is_empty(), "{name}: {missing:?}");
    }
}

/// Of bookmarks here already, and of all else by the replay.
#[cfg(feature = "calls")]
#[test]
fn the_port_answers_of_bookmarks_as_is_recorded() {
    use compare::calls::call::Call::{Mark, Marked};
    use compare::calls::check::pattern;
    use compare::calls::port_of;
    use compare::port::calls::Which;

    let agrees = |r: &Recorded| {
        let (checkpoint, asked) = match &r.question.asked {
            Asked::At(xid, asked) => (Some(*xid), &**asked),
            asked => (None, asked),
        };
        let Asked::Call(call @ (Mark { .. } | Marked { .. })) = asked else { return true };
        let mut out = pattern(r.question.room);
        let which = Which { checkpoint, volume: r.question.volume };
        r.holds(port_of(&r.image, which, call, &mut out), &out)
    };
    let wrong: Vec<String> = recorded().iter().filter(|r| !agrees(r)).map(|r| r.question.to_string()).collect();
    assert_eq!(wrong, Vec::<String>::new());
}

#[test]
fn what_is_cut_is_refused() {
    let mut file = File::default();
    file.title("one");
    file.image(&[0, 0, 7, 7]);
    let bytes = file.finish();
    assert!(decode(&bytes).is_ok_and(|r| r.is_empty()));
    assert!((0..bytes.len()).all(|n| decode(&bytes[..n]).is_err()));
}
