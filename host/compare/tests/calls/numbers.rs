//! The two accounts of names' numbers agree: by the plan of a stick, and by the bytes that stand in its image.

use compare::calls::directory::{Directories, Rule};
use compare::calls::expected::{self, Answer, Kind};
use compare::calls::replaced::{count, planned, SEEN};
use compare::image::Image;
use compare::opening::answer;
use sticks::{make, Plan, Stick};

const STICKS: u64 = 200;

/// What was seen of each name of a stick.
fn compared(stick: &Stick) -> Vec<Kind> {
    let Some((part, c)) = answer::opened(&Image::of(stick.image.clone())) else { return Vec::new() };
    let mut seen = Vec::new();
    for (i, v) in stick.plan.volumes.iter().enumerate().filter(|(_, v)| v.is_regular()) {
        let opened = c.volume(i).expect("a volume");
        let dirs = Directories::of(&opened, Rule::Kind);
        seen.extend(planned(&v.contents).into_iter().map(|(call, want)| {
            let got = expected::of_volume(&part, &c, &dirs, &call);
            assert_eq!((got.answer, got.kind), (want.answer, want.kind), "stick {}: {call}", stick.plan.seed);
            want.kind
        }));
    }
    seen
}

#[test]
fn the_plan_says_what_stands_in_the_image() {
    crate::silence_overflows();
    let plans = (0..STICKS).map(Plan::draw).filter(Plan::opens);
    let all = plans.flat_map(|p| [p.patched(), p.at_edges(), p]);
    let seen: Vec<Kind> = all.flat_map(|p| compared(&make(p))).collect();
    let missing: Vec<&&str> = SEEN.as_flattened().iter().filter(|k| !seen.contains(&Kind::Answered(k))).collect();
    assert!(missing.is_empty() && seen.len() > 10_000, "{missing:?} of {}", seen.len());
}

#[test]
fn parts_are_counted_up_to_a_zero_byte() {
    let names: [(&[u8], u64); 7] = [
        (b"", 0),
        (b"\xef\xbf\xbd", 0),
        (b"\xff", 1),
        (b"\xe2\x82\xff", 2),
        (b"\xe0\x80\x80", 3),
        (b"\xf0\x9f\x92", 1),
        (b"\xff\0\xff", 1),
    ];
    for (name, n) in names {
        assert_eq!(count(name), n, "{name:?}");
    }
}

/// What names of no kind get is known without a volume's contents.
#[test]
fn other_kinds_are_not_there() {
    let stick = make(Plan::sample());
    let image = Image::of(stick.image);
    for kind in [5, 256, 1 << 32, u64::MAX] {
        let call = compare::calls::call::Call::Replaced { kind, id: 2, place: 0 };
        assert_eq!(expected::of_image(&image, 0, &call).answer, Answer::Refused(4));
    }
}
