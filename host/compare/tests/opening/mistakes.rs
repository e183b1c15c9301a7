//! Mistakes in opening.

use compare::calls::check::pattern;
use compare::opening::run::Run;
use compare::recorded::asked::Asked;
use compare::recorded::read::{of_cases, Recorded};

use crate::stand::{apfs_open, Mistake, ALL};

const ENOUGH: u64 = 1500;

fn run(m: Mistake, count: u64) -> Run {
    Run::over(3, count, Some(&move |image: &[u8], out: &mut [u8]| apfs_open(image, out, m)))
}

#[test]
fn no_mistake_none_found() {
    let run = run(Mistake::None, ENOUGH);
    let f = run.failure.map(|f| (f.seed, f.damage, f.mismatch));
    assert_eq!(f, None);
}

#[test]
fn every_mistake_is_found() {
    let missed: Vec<Mistake> = ALL.into_iter().filter(|&m| run(m, ENOUGH).failure.is_none()).collect();
    assert_eq!(missed, []);
}

#[test]
fn every_mistake_is_found_by_the_recorded_calls() {
    let mut records = of_cases().expect("a whole file");
    records.retain(|r| r.question.asked == Asked::Open);
    let agrees = |r: &Recorded, m: Mistake| {
        let mut out = pattern(r.question.room);
        r.holds(apfs_open(&r.image, &mut out, m), &out)
    };
    let all_agree = |m: Mistake| records.iter().all(|r| agrees(r, m));
    assert!(all_agree(Mistake::None));
    let missed: Vec<Mistake> = ALL.into_iter().filter(|&m| all_agree(m)).collect();
    assert_eq!(missed, []);
}
