//! Sticks as the oracle reads them.

#![cfg(oracle)]

use std::sync::Arc;

use compare::checkpoints::spoiled::image_at;
use compare::image::Image;
use compare::opening::answer::{self, Answer};
use compare::opening::run::Run;
use compare::walk::{walk, Reach};
use sticks::plan::Save;
use sticks::{Plan, Stick};

const STICKS: u64 = 600;

#[test]
fn whole_sticks_hold_what_was_planned() {
    let mut reach = Reach::default();
    for seed in 0..STICKS {
        let stick = Stick::from_seed(seed);
        if stick.plan.opens() {
            walk(&stick, &mut reach).unwrap_or_else(|e| panic!("stick {seed}: {e}"));
        }
    }
    println!("{reach:?}");
    let kinds = [reach.volumes, reach.refused, reach.files, reach.entries, reach.attributes, reach.streams];
    assert!(kinds.iter().all(|&n| n > 10) && reach.reads > 1000 && reach.paths > 1000, "{reach:?}");
    assert!((0..5).all(|l| reach.levels[&l] > 5), "{reach:?}");
    assert!(reach.levels.range(12..).count() > 3 && reach.levels.contains_key(&32), "{reach:?}");
}

#[test]
fn sticks_of_given_contents_hold_them() {
    let mut reach = Reach::default();
    for plan in (0..STICKS / 4).map(Plan::draw) {
        let regular = plan.volumes.iter().filter(|v| v.is_regular());
        let proper = regular.map(|v| Plan::proper(&v.contents, plan.seed));
        let patched = plan.opens().then(|| plan.patched());
        for stick in proper.chain([plan.relaid(plan.seed)]).chain(patched).map(sticks::make) {
            // Where a broken checkpoint names a place too far for the oracle, it can't tell.
            if answer::open(&Arc::new(stick.image.clone())) != Answer::Overflow {
                walk(&stick, &mut reach).unwrap_or_else(|e| panic!("stick {}: {e}", plan.seed));
            }
        }
    }
    assert!(reach.volumes > STICKS / 4, "{reach:?}");
}

/// A save's stick as the oracle is to read it; none where another checkpoint may be taken, or a volume was made later.
fn as_of(stick: &Stick, save: &Save) -> Option<Stick> {
    let other = stick.plan.ring.checkpoints.iter().any(|c| c.xid == save.xid && !c.current);
    if other || save.volumes.len() < stick.plan.volumes.len() {
        return None;
    }
    let part = image_at(&Image::of(stick.image.clone()), save.xid, 1).part.expect("a checkpoint");
    let plan = Plan { volumes: save.volumes.clone(), xid: save.xid, ..stick.plan.clone() };
    (answer::open(&part) != Answer::Overflow).then(|| Stick {
        plan,
        image: part.to_vec(),
        block_count: stick.block_count,
    })
}

#[test]
fn saved_sticks_hold_what_was_planned_at_each_number() {
    let (mut reach, mut saves) = (Reach::default(), 0);
    for plan in (0..STICKS / 4).map(|seed| Plan::draw(seed).saved()).filter(Plan::opens) {
        let stick = sticks::make(plan);
        for then in stick.plan.saves.iter().filter_map(|save| as_of(&stick, save)) {
            walk(&then, &mut reach).unwrap_or_else(|e| panic!("stick {} at {}: {e}", then.plan.seed, then.plan.xid));
            saves += 1;
        }
    }
    assert!(saves > STICKS / 8 && reach.volumes > STICKS / 8, "{saves} saves, {reach:?}");
}

#[test]
fn the_sample_holds_what_was_planned() {
    let mut reach = Reach::default();
    walk(&sticks::make(Plan::sample()), &mut reach).expect("the sample");
    assert_eq!((reach.volumes, reach.refused, reach.files), (1, 0, 7), "{reach:?}");
}

#[test]
fn odd_sticks_are_refused() {
    for seed in 0..STICKS {
        let plan = Plan::draw(seed);
        if !plan.opens() {
            let odd = plan.odd;
            let a = answer::open(&Arc::new(sticks::make(plan).image));
            assert!(matches!(a, Answer::Refused(_)), "stick {seed}, {odd:?}: {a}");
        }
    }
}

#[test]
fn every_class_is_reached() {
    let run = Run::over(1, 400, None);
    assert!(run.whole.missing().is_empty(), "{}", run.whole);
    assert!(run.damaged.missing().is_empty(), "{}", run.damaged);
    assert!(run.failure.is_none());
}

#[test]
fn sums_are_the_oracles() {
    let image = Stick::from_seed(11).image;
    for b in image.chunks_exact(4096).take(60) {
        assert_eq!(sticks::sums::checksum(b), oracle::checksum::compute(b));
    }
    for name in ["", "a", "Notes.txt", "READ ME"] {
        for insensitive in [false, true] {
            let want = oracle::name_hash::name_hash(name, insensitive);
            assert_eq!(sticks::sums::name_hash(name.as_bytes(), insensitive), want);
        }
    }
}
