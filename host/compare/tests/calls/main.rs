//! The calls on volumes written down from document 01 agree with the oracle on every stick, and each
//! mistake that a port might make in them is found. Opening is the oracle's here: the tests of opening have it.

#![cfg(oracle)]

mod directories;
mod lines;
mod listing;
mod marks;
mod measure;
mod numbers;
mod recorded;
mod stand;
mod streams;
mod totals;
mod vast;

use compare::calls::run::Run;
use stand::mistake::{Mistake, RECORDED, UNRECORDED};

const ENOUGH: u64 = 900;

/// The oracle's overflows are caught and counted; their messages need not be printed.
pub fn silence_overflows() {
    let usual = std::panic::take_hook();
    std::panic::set_hook(Box::new(move |info| {
        if !info.to_string().ends_with("with overflow") {
            usual(info);
        }
    }));
}

fn run(m: Mistake, count: u64) -> Run {
    silence_overflows();
    let last = stand::Last::default();
    Run::over(5, count, Some(&|image, volume, call, out| stand::answer(&last, image, volume, call, out, m)))
}

#[test]
fn no_mistake_none_found() {
    let run = run(Mistake::None, ENOUGH);
    let f = run.failure.map(|f| (f.stick, f.damage, f.mismatch.call, f.mismatch.expected, f.mismatch.got));
    assert_eq!(f, None);
    assert_eq!([run.tally.missing(), run.met.missing()].concat(), Vec::<String>::new());
}

fn missed(part: usize) -> Vec<Mistake> {
    let all = RECORDED.into_iter().chain(UNRECORDED);
    all.skip(part).step_by(2).filter(|&m| run(m, ENOUGH).failure.is_none()).collect()
}

#[test]
fn every_other_mistake_is_found() {
    assert_eq!(missed(0), []);
}

#[test]
fn the_other_mistakes_are_found() {
    assert_eq!(missed(1), []);
}
