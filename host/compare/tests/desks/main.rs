//! Request 06: counts of nodes by the Rust's own lookups and scans, without its cache, agree with the account on every
//! stick, and each slip that a port might make in them is found.

#![cfg(oracle)]

mod recorded;
mod stand;

use std::hash::{DefaultHasher, Hash, Hasher};

use std::path::Path;
use std::sync::Arc;

use compare::calls::directory::Rule;
use compare::desks::account::Account;
use compare::desks::by_oracle::{distinct, reads};
use compare::desks::request::{Request, LIST, LOOKUP, OPEN};
use compare::desks::run::{vast, Run};
use compare::desks::{add, Plain, Ports};
use compare::recorded::stated::stick::empty;
use stand::{Slip, Stand, ALL};

/// Sticks on which both counts agree, and sticks that every slip is found by.
const AGREED: u64 = 30;
const ENOUGH: u64 = 8;

/// The oracle's overflows are caught and counted; their messages need not be printed.
fn silence_overflows() {
    let usual = std::panic::take_hook();
    std::panic::set_hook(Box::new(move |info| {
        if !info.to_string().ends_with("with overflow") {
            usual(info);
        }
    }));
}

/// Some answer, by all that the call looks at.
fn any_answer(r: &Request, image: &[u8], out: &mut [u8]) -> i64 {
    let mut hasher = DefaultHasher::new();
    (r.what, r.checkpoint(), r.volume, r.a, r.b, r.c, &r.path, image.len()).hash(&mut hasher);
    let bytes = hasher.finish().to_le_bytes();
    let Some(start) = out.get_mut(..bytes.len()) else { return -6 };
    start.copy_from_slice(&bytes);
    bytes.len() as i64
}

fn run(slip: Slip, plain: Plain, count: u64) -> Run {
    silence_overflows();
    let stand = Stand::with(slip, plain);
    let desk =
        |counts: &mut _, desk: u64, r: &Request, image: &[u8], out: &mut [u8]| stand.desk(counts, desk, r, image, out);
    Run::over(5, count, Some(Ports { desk: &desk, plain }))
}

fn failure(run: &Run) -> Option<(u64, String, String)> {
    let f = run.failure.as_ref()?;
    let asked = f.mismatch.drawn.as_ref().map_or(String::new(), |d| format!("{}, {} bytes", d.request, d.room));
    Some((f.stick, asked, f.mismatch.words.clone()))
}

#[test]
fn no_slip_none_found() {
    let run = run(Slip::None, &any_answer, AGREED);
    assert_eq!(failure(&run), None);
    assert!(run.tally.calls() > 20_000 && run.tally.blocks > 20_000, "{}", run.tally);
}

#[test]
fn every_slip_is_found() {
    let missed: Vec<&Slip> = ALL.iter().filter(|s| failure(&run(**s, &any_answer, ENOUGH)).is_none()).collect();
    assert_eq!(missed, [&Slip::None; 0]);
}

#[test]
fn a_failure_is_told_with_a_smaller_image() {
    silence_overflows();
    let folder = Path::new(env!("CARGO_TARGET_TMPDIR"));
    let stand = Stand::with(Slip::TreeRootNotLoaded, &any_answer);
    let desk =
        |counts: &mut _, desk: u64, r: &Request, image: &[u8], out: &mut [u8]| stand.desk(counts, desk, r, image, out);
    let ports = Some(Ports { desk: &desk, plain: &any_answer });
    let run = Run::over(5, 0, ports);
    let f = run.failure.as_ref().expect("a failure");
    let file = folder.join(format!("desks-{}-{}.img", f.seed, f.stick));
    assert!(run.report_failure(ports, folder));
    let small = std::fs::read(&file).expect("an image");
    assert!(small.len() <= f.image.len() && small != **f.image);
    std::fs::remove_file(file).expect("no more image");
}

/// The container's map, the volume's and its tree are a node each.
#[test]
fn the_smallest_volume_is_counted_by_hand() {
    let part = Arc::new(empty());
    let mut account = Account::of(&part, Rule::Kind);
    for (what, nodes, blocks) in [(OPEN, 1, 1), (LOOKUP, 6, 3), (LIST, 9, 3)] {
        let path = account.path(&Request::of(what), 1000).expect("few forms");
        assert_eq!((path.len(), distinct(&path)), (nodes, blocks), "{what}");
    }
    let lookup = account.path(&Request::of(LOOKUP), 0).expect("few forms");
    let [container, volume, tree] = [lookup[0], lookup[2], lookup[4]];
    assert_eq!(lookup, [container, container, volume, volume, tree, tree]);
    assert_eq!([OPEN, LOOKUP].map(|what| reads(&part, &Request::of(what))), [Some(1), Some(3)]);
}

#[test]
fn an_image_over_the_bound_is_told_from_one_at_it() {
    let right = |_: &Request, image: &[u8], _: &mut [u8]| if image.len() > 1 << 34 { -7 } else { -11 };
    let of = |plain: Plain, nodes: u64| {
        let desk = |counts: &mut _, desk: u64, r: &Request, image: &[u8], out: &mut [u8]| {
            add(counts, desk, nodes);
            plain(r, image, out)
        };
        vast(Ports { desk: &desk, plain })
    };
    let Some(agreed) = of(&right, 0).expect("no slip") else { return };
    assert!(agreed > 20);
    assert!(of(&right, 1).is_err());
    assert!(of(&|_, _, _| -11, 0).is_err());
}

#[test]
fn a_count_goes_up_to_the_end_and_stays() {
    let mut counts = [0, u64::MAX - 2, u64::MAX, 0, 0, 0, 0, 5];
    for (desk, nodes) in [(0, 3), (1, 2), (2, 1), (7, u64::MAX), (8, 4), (u64::MAX, 4)] {
        add(&mut counts, desk, nodes);
    }
    assert_eq!(counts, [3, u64::MAX, u64::MAX, 0, 0, 0, 0, u64::MAX]);
}
