//! Request 08's line: whether it is the count over the lines above it is seen by the text alone, and no buffer that ends
//! about it gets less than the whole text.

use compare::image::Image;
use compare::list::buffers::lengths;
use compare::list::check::Subject;
use compare::list::totals::{counted, held, start, told};
use compare::list::trace::{End, Trace, LONGEST};
use compare::list::{walk, Port};
use compare::pairs::planned;
use sticks::random::Random;
use sticks::{make, Plan};

use crate::stand::list::{answer, Slip, TOTALS};

const STICKS: u64 = 300;
/// Of longer listings not every buffer is tried.
const SHORT: usize = 1 << 13;

/// Whole listings of drawn sticks, each with its image and volume.
fn listings() -> Vec<(Image, u64, Trace)> {
    crate::silence_overflows();
    let plans = (0..STICKS).map(Plan::draw).flat_map(|p| [p.at_edges(), p]);
    let volumes = |image: Image| [0, 1].map(|volume| (image.clone(), volume));
    let listed = plans.map(|p| Image::of(make(p).image)).flat_map(volumes);
    let traced = listed.map(|(image, volume)| (walk::of_image(&image, volume), image, volume));
    traced.filter(|(t, ..)| t.end == End::Whole).map(|(t, image, volume)| (image, volume, t)).collect()
}

/// The stand-in without a slip and, where it is linked, the port.
fn ports() -> Vec<Port<'static>> {
    #[cfg(feature = "calls")]
    fn port(image: &[u8], volume: u64, out: &mut [u8]) -> i64 {
        compare::port::calls::list(image, compare::port::calls::Which::latest(volume), out)
    }
    vec![
        &|image, volume, out| answer(image, volume, out, Slip::None),
        #[cfg(feature = "calls")]
        &port,
    ]
}

fn text(port: Port, image: &Image, volume: u64) -> Vec<u8> {
    let mut out = vec![0; LONGEST];
    let n = port(&image.whole, volume, &mut out);
    out.truncate(n.try_into().expect("a listing"));
    out
}

#[test]
fn totals_are_the_count_over_the_lines() {
    let all = listings();
    let (mut sums, ports) = ([0; 3], ports());
    for (image, volume, t) in &all {
        let totals = held(&t.text).expect("its totals");
        sums.iter_mut().zip(totals).for_each(|(sum, n)| *sum += n);
        ports.iter().for_each(|port| assert_eq!(held(&text(port, image, *volume)), Ok(totals)));
    }
    assert!(all.len() > 100 && sums.iter().all(|&n| n > 1000), "{} listings, {sums:?}", all.len());
}

#[test]
fn planned_totals_are_the_count_over_the_lines() {
    let plans = (0..STICKS).map(Plan::draw).flat_map(|p| [p.at_edges(), p]);
    let volumes = plans.flat_map(|p| p.volumes).filter(|v| v.is_regular());
    let texts = volumes.filter_map(|v| planned::listing(&v.contents, LONGEST).ok());
    let totals: Vec<_> = texts.map(|text| held(&text).expect("its totals")).collect();
    assert!(totals.len() > 100, "{}", totals.len());
}

/// Each slip in the numbers or their place shows in some print, whoever made it.
#[test]
fn a_print_tells_its_own_slips() {
    let all = listings();
    let shows = |slip: Slip| {
        let port = |image: &[u8], volume: u64, out: &mut [u8]| answer(image, volume, out, slip);
        all.iter().any(|(image, volume, _)| held(&text(&port, image, *volume)).is_err())
    };
    let missed: Vec<Slip> = TOTALS.into_iter().filter(|&slip| !shows(slip)).collect();
    assert_eq!(missed, []);
}

#[test]
fn every_buffer_about_the_foot_gets_all_or_6() {
    let mut calls = 0;
    for (image, volume, t) in listings().iter().filter(|(.., t)| t.text.len() < SHORT) {
        let foot = start(&t.text).expect("a foot");
        for port in ports() {
            let subject = Subject { port, image: &image.whole, volume: *volume };
            for n in foot - 2..t.text.len() + 3 {
                assert_eq!(t.refusal(n), (n < t.text.len()).then_some(6));
                let wrong = subject.check(t, n).err().map(|m| (m.want, m.got, m.words));
                assert_eq!(wrong, None, "into {n} bytes");
                calls += 1;
            }
        }
    }
    assert!(calls > 1000, "{calls}");
}

#[test]
fn a_run_tries_buffers_about_the_foot() {
    let (mut random, mut heavy) = (Random::new(1), 0);
    for (.., t) in listings() {
        let (tried, foot, n) = (lengths(&t, &mut random), start(&t.text).expect("a foot"), t.text.len());
        let wanted = [foot, foot + 1, n - 3, n - 2, n - 1, n];
        assert!(wanted.iter().all(|k| tried.contains(k)), "{tried:?} of {n}");
        heavy += u64::from(tried.len() < 10);
    }
    assert!(heavy > 20, "{heavy}");
}

#[test]
fn texts_are_counted_by_their_lines() {
    let text =
        |foot: &str| format!("(volume 1 0 x41\n(node 2\n(attr 2 x e x61)\n(data x6162)\n(node 3\n(packed)\n{foot}");
    let right = text("(total 2 2 1)\n)\n");
    assert_eq!((counted(&right), told(&right), held(right.as_bytes())), ([2, 2, 1], Some([2, 2, 1]), Ok([2, 2, 1])));
    assert_eq!(start(right.as_bytes()), Some(right.len() - "(total 2 2 1)\n)\n".len()));
    assert_eq!(counted("(data x)\n(data x00)\n (node 1\n"), [0, 1, 0]);
    for foot in [
        "(total 2 2 2)\n)\n",
        "(total 2 2 1)\n",
        ")\n(total 2 2 1)\n",
        "(total 2 2)\n)\n",
        "(total 2 2 1 0)\n)\n",
        "(total 02 2 1)\n)\n",
        "(total +2 2 1)\n)\n",
        "(total 2  2 1)\n)\n",
        "(total 2 2 1 )\n)\n",
        "(total 2 2 x)\n)\n",
        "(total 2 2 1))\n",
        ")\n)\n",
        "",
    ] {
        assert!(held(text(foot).as_bytes()).is_err(), "{foot}");
    }
}
