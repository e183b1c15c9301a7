//! Request 10: bookmarks written down from document 02 agree with the walk and the account on every stick, and each slip
//! that a port might make in them is found.

use std::path::Path;

use compare::calls::call::Call;
use compare::image::Image;
use compare::marks::handed::record;
use compare::marks::records::Records;
use compare::marks::run::Run;
use compare::marks::{Mark, Part, NONE};
use compare::opening::answer::opened;
use sticks::make;
use sticks::plan::places;

use crate::stand::marks::{answer, Slip, ALL};
use crate::stand::Last;

const ENOUGH: u64 = 100;

fn run(slip: Slip) -> Run {
    crate::silence_overflows();
    let last = Last::default();
    let port = |image: &[u8], volume: u64, call: &Call, out: &mut [u8]| answer(&last, image, volume, call, out, slip);
    Run::over(5, ENOUGH, Some(&port))
}

#[test]
fn no_slip_none_found() {
    let run = run(Slip::None);
    let f = run.failure.map(|f| (f.stick, f.damage, f.mismatch.call, f.mismatch.expected, f.mismatch.got));
    assert_eq!(f, None);
    assert_eq!(run.tally.missing(), Vec::<String>::new());
}

#[test]
fn every_slip_is_found() {
    let missed: Vec<&Slip> = ALL.iter().filter(|s| run(**s).failure.is_none()).collect();
    assert_eq!(missed, [&Slip::None; 0]);
}

#[test]
fn a_failure_is_told_with_a_smaller_image() {
    let folder = Path::new(env!("CARGO_TARGET_TMPDIR"));
    // An image that is made smaller has the address of the one before.
    let port = |image: &[u8], volume: u64, call: &Call, out: &mut [u8]| {
        answer(&Last::default(), image, volume, call, out, Slip::ValueShownFirst)
    };
    let run = Run::over(5, ENOUGH, Some(&port));
    let f = run.failure.as_ref().expect("a failure");
    let file = folder.join(format!("marks-{}-{}-{}.img", f.seed, f.stick, f.damage));
    assert!(run.report_failure(Some(&port), folder));
    let small = std::fs::read(&file).expect("an image");
    assert!(small.len() <= f.image.len() && small != **f.image);
    std::fs::remove_file(file).expect("no more image");
}

#[test]
fn a_mark_has_its_fields_in_the_requests_order() {
    let mark = Mark { block: 0x0102_0304_0506_0708, key: Part::new(1, 2), value: Part::new(0x10000, 0) };
    let bytes = [8, 7, 6, 5, 4, 3, 2, 1, 1, 0, 0, 0, 2, 0, 0, 0, 0, 0, 1, 0, 0, 0, 0, 0];
    assert_eq!(mark.bytes(), bytes);
    assert_eq!(Mark { value: NONE, ..mark }.bytes()[16..], [0xff; 8]);
}

/// Two blocks of 4 bytes, and half of one.
#[test]
fn the_account_takes_what_fits() {
    let image: Vec<u8> = (0..10).collect();
    let of = |block: u64, key: (u32, u32), value: Part| {
        let mark = Mark { block, key: Part::new(key.0, key.1), value };
        record(&image, 4, &mark.bytes()).map(|r| r.line())
    };
    assert_eq!(of(1, (0, 2), Part::new(2, 2)), Ok("(record x0405 x0607)\n".into()));
    assert_eq!(of(0, (4, 0), NONE), Ok("(record x -)\n".into()));
    assert_eq!(of(0, (0, 4), Part::new(4, 0)), Ok("(record x00010203 x)\n".into()));
    for (block, key, value) in [
        (2, (0, 0), NONE),
        ((1 << 62) - 1, (0, 0), NONE),
        (1 << 62, (0, 0), NONE),
        (u64::MAX, (0, 0), NONE),
        (0, (5, 0), NONE),
        (0, (u32::MAX, 1), NONE),
        (0, (0, 0), Part::new(1, 4)),
        (0, (0, 0), Part::new(u32::MAX, 0)),
        (0, (0, 0), Part::new(0, u32::MAX)),
    ] {
        assert_eq!(of(block, key, value), Err(1), "{block} {key:?} {value:?}");
    }
    assert!([0, 23, 25].into_iter().all(|n| record(&image, 4, &vec![0; n]).is_err_and(|n| n == 1)));
}

#[test]
fn an_empty_value_lies_at_the_end_of_blocks_of_each_size() {
    for size in [4096, 8192, 16384, 32768, 65536] {
        let image = Image::of(make(places::plan(size)).image);
        let (part, c) = opened(&image).expect("a container");
        let v = c.volume(0).expect("a volume");
        let of = |id: u64, kind: u64| Records::of(&part, &c, &v, (id, kind as u8)).list;
        for id in places::EMPTY_IDS {
            assert_eq!(of(id, places::EMPTY)[0].0.value, Part::new(size as u32, 0));
        }
        assert_eq!(of(places::BETWEEN.0, places::BETWEEN.1).len(), 2);
    }
}
