//! The recorded calls of desks, which `crates/cases` replays: each is still what the oracle answers and what the account
//! counts, and slips are found by them.

use std::collections::BTreeSet;

use compare::calls::check::pattern;
use compare::desks::request::{Request, NAMES, NO_CALL};
use compare::image::Image;
use compare::recorded::asked::{told, Asked, Question, Told};
use compare::recorded::at_desk::AtDesk;
use compare::recorded::file::File;
use compare::recorded::read::{decode, Recorded};
use compare::recorded::stated;

use crate::stand::{Slip, Stand, ALL};

fn records() -> Vec<Recorded> {
    let mut file = File::default();
    if let Err(wrong) = stated::write(stated::of_desks(), &mut file) {
        panic!("{wrong}");
    }
    decode(&file.finish()).expect("a whole file")
}

fn at_desk(r: &Recorded) -> &AtDesk {
    match &r.question.asked {
        Asked::Desk(d) => d,
        other => panic!("{other} is not by a desk"),
    }
}

/// A call by itself, as the oracle answers it or the papers do.
fn by_oracle(r: &Request, image: &[u8], out: &mut [u8]) -> i64 {
    let d = AtDesk { desk: 0, request: r.clone(), from: 0, after: [0; 8] };
    let q = Question { volume: r.volume, asked: Asked::Desk(Box::new(d)), room: out.len() };
    match told(&Image::of(image.to_vec()), &q).expect("an answer") {
        Told::Bytes(bytes) => {
            out[..bytes.len()].copy_from_slice(&bytes);
            q.asked.count(bytes.len()) as i64
        }
        Told::Refused(n) => {
            out.iter_mut().filter(|_| q.asked.is_list()).for_each(|b| *b = 0);
            -(n as i64)
        }
    }
}

/// The answer to each record's call.
type Answers = Vec<(i64, Vec<u8>)>;

fn answers(records: &[Recorded]) -> Answers {
    let answer = |r: &Recorded| {
        let mut out = pattern(r.question.room);
        let result = by_oracle(&at_desk(r).request, &r.image, &mut out);
        (result, out)
    };
    records.iter().map(answer).collect()
}

/// How many records a dock with a slip differs from.
fn differ(records: &[Recorded], answers: &Answers, slip: Slip) -> usize {
    let agrees = |stand: &Stand, r: &Recorded| {
        let (d, mut out) = (at_desk(r), pattern(r.question.room));
        let mut counts = [d.from; 8];
        let result = stand.desk(&mut counts, d.desk, &d.request, &r.image, &mut out);
        r.holds(result, &out) && counts == d.after
    };
    let known = |r: &Request, image: &[u8], out: &mut [u8]| {
        let same = |of: &Recorded| at_desk(of).request == *r && **of.image == *image && of.question.room == out.len();
        match records.iter().position(same) {
            Some(i) => {
                out.copy_from_slice(&answers[i].1);
                answers[i].0
            }
            None => by_oracle(r, image, out),
        }
    };
    let stand = Stand::with(slip, &known);
    records.iter().filter(|r| !agrees(&stand, r)).count()
}

#[test]
fn what_is_stated_is_counted() {
    let records = records();
    assert!((60..=120).contains(&records.len()), "{} records", records.len());
    let wrong: Vec<String> = records
        .iter()
        .filter(|r| at_desk(r).counts(&Image::of(r.image.clone()), r.question.room) != Some(at_desk(r).after))
        .map(|r| r.question.to_string())
        .collect();
    assert_eq!(wrong, Vec::<String>::new());
}

#[test]
fn every_call_and_refusal_is_there() {
    let seen: BTreeSet<(&str, u8)> = records().iter().map(|r| (at_desk(r).request.name(), r.answer.0)).collect();
    let missing: Vec<&str> = NAMES.into_iter().filter(|name| !seen.contains(&(name, 0))).collect();
    assert_eq!(missing, Vec::<&str>::new());
    let refusals: BTreeSet<u8> = seen.iter().map(|(_, n)| *n).filter(|n| *n > 0).collect();
    assert_eq!(refusals.into_iter().collect::<Vec<_>>(), [1, 2, 3, 4, 5, 6, 9, 10, 11, 13, 14]);
    assert!(seen.contains(&(NO_CALL, 4)));
}

#[test]
fn every_slip_is_found() {
    crate::silence_overflows();
    let records = records();
    let answers = answers(&records);
    assert_eq!(differ(&records, &answers, Slip::None), 0);
    let missed: Vec<&Slip> = ALL.iter().filter(|s| differ(&records, &answers, **s) == 0).collect();
    assert_eq!(missed, [&Slip::None; 0]);
}

#[cfg(feature = "calls")]
#[test]
fn the_port_counts_as_is_recorded() {
    let desk = compare::desks::port::PORTS.desk;
    let agrees = |r: &Recorded| {
        let (d, mut out) = (at_desk(r), pattern(r.question.room));
        let mut counts = [d.from; 8];
        let result = desk(&mut counts, d.desk, &d.request, &r.image, &mut out);
        r.holds(result, &out) && counts == d.after
    };
    let wrong: Vec<String> = records().iter().filter(|r| !agrees(r)).map(|r| r.question.to_string()).collect();
    assert_eq!(wrong, Vec::<String>::new());
}
