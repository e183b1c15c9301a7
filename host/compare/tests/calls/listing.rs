//! The listing written down from document 01 agrees with the oracle's calls on every stick, and each
//! slip that a port might make in it is found.

use std::sync::Arc;

use compare::image::Image;
use compare::list::run::Run;
use compare::list::trace::{End, Trace};
use compare::list::{edges, walk, Port, Ports};
use sticks::contents::{Contents, File, Inode};
use sticks::{make, Plan};

use crate::stand::list::{answer, Slip, ALL};
use crate::stand::measure;

const ENOUGH: u64 = 150;

/// The measure has no slip.
fn ports(list: Port) -> Ports {
    Ports { list, measure: &|image, volume, out| measure::answer(image, volume, out, measure::Slip::None) }
}

fn run(slip: Slip) -> Run {
    crate::silence_overflows();
    let list = |image: &[u8], volume: u64, out: &mut [u8]| answer(image, volume, out, slip);
    let mut run = Run::over(5, ENOUGH, Some(ports(&list)));
    if run.failure.is_none() {
        run.edges(Some(ports(&list)));
    }
    run
}

#[test]
fn no_slip_none_found() {
    let run = run(Slip::None);
    let f = run.failure.map(|f| (f.stick, f.damage, f.volume, f.mismatch.length, f.mismatch.words));
    assert_eq!(f, None);
    assert_eq!(run.tally.missing(), Vec::<String>::new());
}

#[test]
fn every_slip_is_found() {
    let missed: Vec<Slip> = ALL.into_iter().filter(|&s| run(s).failure.is_none()).collect();
    assert_eq!(missed, []);
}

#[test]
fn a_failure_is_told_with_a_smaller_image() {
    let folder = std::path::Path::new(env!("CARGO_TARGET_TMPDIR"));
    for slip in [Slip::PackedRefused, Slip::PackedAsEmpty] {
        let run = run(slip);
        let f = run.failure.as_ref().expect("a failure");
        let file = folder.join(format!("list-{}-{}-{}.img", f.seed, f.stick, f.damage));
        assert!(run.report_failure(Some(ports(&|image, volume, out| answer(image, volume, out, slip))), folder));
        let small = std::fs::read(&file).expect("an image");
        assert!(small.len() <= f.image.len() && small != **f.image);
        std::fs::remove_file(file).expect("no more image");
    }
}

fn example() -> Arc<Vec<u8>> {
    let inode = Inode { id: 2, parent: 1, private: 2, mode: 16877, ..Inode::default() };
    let contents = Contents {
        label: b"A".to_vec(),
        case_insensitive: true,
        normalization_insensitive: false,
        encrypted: false,
        sealed: false,
        files: vec![File { inode, attributes: Vec::new(), entries: Vec::new() }],
        streams: Vec::new(),
        others: Vec::new(),
        regular: true,
    };
    Arc::new(make(Plan::with_contents(contents, 3)).image)
}

const EXAMPLE: &str = "(volume 1 0 x41\n(node 2 1 2 0 0 0 0 0 0 0 0 0 16877 - -\n(data x)\n)\n(total 1 0 0)\n)\n";

#[test]
fn document_01_gives_an_example() {
    let t = walk::of_image(&Image::of(example()), 0);
    assert_eq!((String::from_utf8_lossy(&t.text).as_ref(), &t.end, t.depth), (EXAMPLE, &End::Whole, Some(0)));
    #[cfg(feature = "calls")]
    {
        let mut out = [7; 100];
        let n = compare::port::calls::list(&example(), compare::port::calls::Which::latest(0), &mut out);
        assert_eq!((n, &out[..EXAMPLE.len()]), (EXAMPLE.len() as i64, EXAMPLE.as_bytes()));
        assert!(out[EXAMPLE.len()..].iter().all(|&b| b == 7));
    }
}

#[test]
fn a_short_buffer_comes_before_a_later_fault() {
    let t = Trace { text: b"(one\n(two\n".to_vec(), end: End::Refused(2), ..Trace::only(End::Whole) };
    assert_eq!([0, 9, 10, 11].map(|n| t.refusal(n)), [Some(6), Some(6), Some(2), Some(2)]);
    assert_eq!((t.line(0), t.line(6), t.line(10)), ((1, &b"(one"[..]), (2, &b"(two"[..]), (3, &b""[..])));
    assert_eq!(Trace { end: End::Whole, ..t }.refusal(10), None);
}

#[test]
fn a_vast_image_is_told_from_one_at_the_bound() {
    let wiped = |out: &mut [u8], number: i64| {
        out.fill(0);
        -number
    };
    let right = |image: &[u8], _: u64, out: &mut [u8]| wiped(out, if image.len() > 1 << 34 { 7 } else { 11 });
    let unwiped = |image: &[u8], _: u64, _: &mut [u8]| if image.len() > 1 << 34 { -7 } else { -11 };
    let of = |list: Port| edges::vast(Ports { list, measure: &unwiped });
    let Some(agreed) = of(&right).expect("no mistake") else { return };
    assert!(agreed > 6);
    assert!(of(&|_, _, out| wiped(out, 11)).is_err());
    assert!(of(&unwiped).is_err());
}
