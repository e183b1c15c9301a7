//! Mistakes and slips that the recorded calls of `crates/cases` find.

use compare::calls::call::Call;
use compare::calls::check::pattern;
use compare::recorded::asked::Asked;
use compare::recorded::read::{of_cases, Recorded};

use crate::stand::list::{self, Slip};
use crate::stand::mistake::{self, Mistake};
use crate::stand::{answer, Last};
use crate::stand::{marks, measure};

/// How many calls a stand-in answers otherwise.
fn differ(records: &[Recorded], m: Mistake, slip: Slip) -> usize {
    crate::silence_overflows();
    let last = Last::default();
    let agrees = |r: &&Recorded| {
        let (q, mut out) = (&r.question, pattern(r.question.room));
        let got = match &q.asked {
            Asked::Open | Asked::Checkpoints | Asked::At(..) | Asked::WrongWords(_) | Asked::Desk(_) => return true,
            Asked::Call(Call::Mark { .. } | Call::Marked { .. }) => return true,
            Asked::Call(call) => answer(&last, &r.image, q.volume, call, &mut out, m),
            Asked::List => list::answer(&r.image, q.volume, &mut out, slip),
            Asked::Measure => return true,
        };
        r.holds(got, &out)
    };
    records.iter().filter(|r| !agrees(r)).count()
}

#[test]
fn every_mistake_is_found() {
    let records = of_cases().expect("a whole file");
    assert_eq!(differ(&records, Mistake::None, Slip::None), 0);
    let missed: Vec<Mistake> =
        mistake::RECORDED.into_iter().filter(|&m| differ(&records, m, Slip::None) == 0).collect();
    assert_eq!(missed, []);
    let missed: Vec<Slip> = list::ALL.into_iter().filter(|&s| differ(&records, Mistake::None, s) == 0).collect();
    assert_eq!(missed, []);
}

/// Whether a stand-in measures as is recorded.
fn measures(records: &[Recorded], slip: measure::Slip) -> bool {
    crate::silence_overflows();
    let agrees = |r: &Recorded| {
        let mut out = pattern(r.question.room);
        let got = measure::answer(&r.image, r.question.volume, &mut out, slip);
        r.holds(got, &out)
    };
    records.iter().filter(|r| r.question.asked == Asked::Measure).all(agrees)
}

#[test]
fn every_slip_in_measures_is_found() {
    let records = of_cases().expect("a whole file");
    assert!(measures(&records, measure::Slip::None));
    let missed: Vec<measure::Slip> = measure::ALL.into_iter().filter(|&s| measures(&records, s)).collect();
    assert_eq!(missed, []);
}

/// Whether a stand-in marks records, and finds what is marked, as is recorded.
fn holds(records: &[Recorded], slip: marks::Slip) -> bool {
    crate::silence_overflows();
    let last = Last::default();
    let agrees = |r: &Recorded| {
        let (q, mut out) = (&r.question, pattern(r.question.room));
        let Asked::Call(call @ (Call::Mark { .. } | Call::Marked { .. })) = &q.asked else { return true };
        r.holds(marks::answer(&last, &r.image, q.volume, call, &mut out, slip), &out)
    };
    records.iter().all(agrees)
}

#[test]
fn every_slip_in_marks_is_found() {
    let records = of_cases().expect("a whole file");
    assert!(holds(&records, marks::Slip::None));
    let missed: Vec<&marks::Slip> = marks::ALL.iter().filter(|s| holds(&records, **s)).collect();
    assert_eq!(missed, [&marks::Slip::None; 0]);
}
