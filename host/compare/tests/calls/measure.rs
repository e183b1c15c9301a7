//! Request 09: the measure of a listing written down from document 02 agrees with the walk over the oracle's calls on every
//! stick, and each slip that a port might make in it is found.

use compare::list::check::Of;
use compare::list::measure::{counted, Measure, Measured, MOST};
use compare::list::run::Run;
use compare::list::trace::{End, Trace};
use compare::list::{edges, long, walk, Port, Ports};

use crate::stand::list;
use crate::stand::measure::{answer, Slip, ALL};

const ENOUGH: u64 = 100;

/// The listing has no slip.
fn ports(measure: Port) -> Ports {
    Ports { list: &|image, volume, out| list::answer(image, volume, out, list::Slip::None), measure }
}

fn run(slip: Slip) -> Run {
    crate::silence_overflows();
    let measure = |image: &[u8], volume: u64, out: &mut [u8]| answer(image, volume, out, slip);
    let mut run = Run::over(5, ENOUGH, Some(ports(&measure)));
    if run.failure.is_none() {
        run.edges(Some(ports(&measure)));
    }
    run
}

#[test]
fn no_slip_none_found() {
    let run = run(Slip::None);
    assert_eq!(run.failure.map(|f| (f.stick, f.damage, f.volume, f.mismatch.to_string())), None);
    let missing: Vec<String> = run.tally.missing().into_iter().filter(|k| k.contains("measure")).collect();
    assert_eq!(missing, Vec::<String>::new());
}

/// Whether it is found at the edges, which are soon gone through, or in a run.
fn found(slip: Slip) -> bool {
    crate::silence_overflows();
    let measure = |image: &[u8], volume: u64, out: &mut [u8]| answer(image, volume, out, slip);
    let mut at_edges = Run::default();
    at_edges.edges(Some(ports(&measure)));
    let failure = at_edges.failure.or_else(|| run(slip).failure);
    failure.is_some_and(|f| f.mismatch.of == Of::Measure)
}

#[test]
fn every_slip_is_found() {
    let missed: Vec<Slip> = ALL.into_iter().filter(|&s| !found(s)).collect();
    assert_eq!(missed, []);
}

#[test]
fn a_failure_is_told_with_a_smaller_image() {
    let folder = std::path::Path::new(env!("CARGO_TARGET_TMPDIR"));
    let measure = |image: &[u8], volume: u64, out: &mut [u8]| answer(image, volume, out, Slip::RootAtOne);
    let run = run(Slip::RootAtOne);
    let f = run.failure.as_ref().expect("a failure");
    let file = folder.join(format!("list-{}-{}-{}.img", f.seed, f.stick, f.damage));
    assert!(run.report_failure(Some(ports(&measure)), folder));
    let small = std::fs::read(&file).expect("an image");
    assert!(small.len() <= f.image.len() && small != **f.image);
    std::fs::remove_file(file).expect("no more image");
}

#[test]
fn texts_are_measured_by_their_brackets() {
    let root = "(volume 1 0 x41\n(node 2 1 2 0 0 0 0 0 0 0 0 0 16877 - -\n(data x)\n)\n(total 1 0 0)\n)\n";
    assert_eq!(counted(root.as_bytes()), Measure { length: 83, depth: 0 });
    let below =
        "(volume 1 0 x41\n(node 2\n(packed)\n(entry\n(node 3\n(attr x e x)\n(data x)\n)\n)\n)\n(total 2 0 1)\n)\n";
    assert_eq!(counted(below.as_bytes()).depth, 1);
    assert_eq!(Measure { length: 83, depth: 0 }.to_string(), "(measure 83 0)\n");
}

#[test]
fn its_own_line_alone_is_too_long_for_a_buffer() {
    let got = Measured::Got(Measure { length: 83, depth: 0 });
    assert_eq!([0, 14, 15, 16].map(|n| got.refusal(n)), [Some(6), Some(6), None, None]);
    assert_eq!([0, 40].map(|n| Measured::Refused(14).refusal(n)), [Some(14), Some(14)]);
    assert_eq!(Measured::Open("overflow").refusal(0), None);
    assert_eq!(Trace::only(End::Refused(3)).measured, Measured::Refused(3));
}

/// Some of each kind, so that the sticks about the bound say what they are to say.
#[test]
fn sticks_about_the_bound_are_of_each_kind() {
    let sticks = long::sticks();
    let count = |is: &dyn Fn(&Measured) -> bool| sticks.iter().filter(|s| is(&s.measured)).count();
    let at = |length: u64| count(&|m| *m == Measured::Got(Measure { length, depth: 1 }));
    assert_eq!([MOST - 1, MOST, MOST + 1].map(at), [1, 1, 0]);
    for number in [1, 2, 4, 8, 10, 14] {
        assert!(count(&|m| *m == Measured::Refused(number)) > 0, "{number}");
    }
    for s in &sticks {
        let t = walk::of_image(&compare::image::Image::of(s.image.clone()), 0);
        assert_eq!(t.measured, s.measured, "{}", s.what);
        assert!(s.image.len() < 1 << 18, "{}", s.what);
    }
}

#[test]
fn a_vast_image_is_told_from_one_at_the_bound() {
    let wiped = |image: &[u8], _: u64, out: &mut [u8]| {
        out.fill(0);
        if image.len() > 1 << 34 {
            -7
        } else {
            -11
        }
    };
    let right = |image: &[u8], _: u64, _: &mut [u8]| if image.len() > 1 << 34 { -7 } else { -11 };
    let of = |measure: Port| edges::vast(Ports { list: &wiped, measure });
    let Some(agreed) = of(&right).expect("no mistake") else { return };
    assert!(agreed > 6);
    assert!(of(&wiped).is_err());
    assert!(of(&|_, _, _| -11).is_err());
}
