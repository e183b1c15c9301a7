//! A run over many sticks.

use std::path::Path;
use std::sync::Arc;

use sticks::random::Random;
use sticks::{make, Stick};

use crate::calls::run::damaged;
use crate::image::Image;
use crate::list::buffers::lengths;
use crate::list::check::{Mismatch, Of, Subject};
use crate::list::measure::{self, counted, Measured};
use crate::list::tally::Tally;
use crate::list::trace::{End, Trace};
use crate::list::{edges, long, totals, walk, Ports};
use crate::opening::answer;
use crate::opening::run::stick_seed;
use crate::opening::shrink::shrink;

/// How often each stick is damaged.
const DAMAGES: u64 = 4;
/// One stick of so many is made once more with directory keys about the edges of their forms, and damaged once.
const AT_EDGES: u64 = 8;
/// Of a damaged superblock's volumes, no more are listed.
const VOLUMES: u64 = 5;

pub struct Failure {
    pub seed: u64,
    /// The stick's place in the run, or among the edges.
    pub stick: u64,
    /// Which damage, from 1; 0 for the stick as it was made, and past the last damage the one made once more.
    pub damage: u64,
    pub volume: u64,
    pub mismatch: Mismatch,
    pub image: Arc<Vec<u8>>,
}

#[derive(Default)]
pub struct Run {
    pub images: u64,
    pub tally: Tally,
    pub failure: Option<Failure>,
}

pub type Checked = Result<(), (u64, Mismatch)>;

impl Run {
    /// Over `count` sticks; without a port the oracle is asked alone. Stops at the first failure.
    pub fn over(seed: u64, count: u64, ports: Option<Ports>) -> Run {
        let mut run = Run::default();
        for stick in 0..count {
            let whole = Stick::from_seed(stick_seed(seed, stick));
            let at_edges = stick.is_multiple_of(AT_EDGES).then(|| make(whole.plan.at_edges()));
            let again = at_edges.iter().flat_map(|made| [(made, 0), (made, 1)]);
            for (damage, (made, k)) in (0..).zip((0..=DAMAGES).map(|k| (&whole, k)).chain(again)) {
                let of = whole.plan.seed;
                let image = if k == 0 { made.image.clone() } else { damaged(&made.image, of, k) };
                let image = Image::of(image);
                let random = Random::new(of.wrapping_mul(31).wrapping_add(damage));
                if let Err((volume, mismatch)) = run.image(&image, ports, random) {
                    run.failure = Some(Failure { seed, stick, damage, volume, mismatch, image: image.whole });
                    return run;
                }
            }
        }
        run
    }

    /// Chains of directories about as deep as may be, and others that end late or never.
    pub fn edges(&mut self, ports: Option<Ports>) {
        let edges = edges::images().into_iter().map(|image| (image, None));
        let long = long::sticks().into_iter().map(|l| (l.image, Some((l.what, l.measured))));
        for (stick, (image, stated)) in (0..).zip(edges.chain(long)) {
            let image = Image::of(image);
            let by_walk = stated.map_or(Ok(()), |s| agreed(&image, s));
            if let Err((volume, mismatch)) = by_walk.and_then(|()| self.image(&image, ports, Random::new(stick))) {
                self.failure = Some(Failure { seed: 0, stick, damage: 0, volume, mismatch, image: image.whole });
                return;
            }
        }
    }

    /// Every volume of the image, and one that it has not.
    pub fn image(&mut self, image: &Image, ports: Option<Ports>, random: Random) -> Checked {
        self.images += 1;
        let mut trial = Trial { image: &image.whole, ports, random, tally: &mut self.tally };
        let Some((part, c)) = answer::opened(image) else { return trial.judge(0, walk::of_image(image, 0)) };
        let slots = (c.sb.fs_oids.len() as u64).min(VOLUMES);
        for i in 0..slots {
            trial.judge(i, walk::of_container(&part, &c, i))?;
        }
        let none = trial.random.pick(&[c.sb.fs_oids.len() as u64, u64::MAX]);
        trial.judge(none, walk::of_container(&part, &c, none))
    }

    /// Prints the failure, if there was one, and writes its image, made smaller, to a file in `folder`.
    pub fn report_failure(&self, ports: Option<Ports>, folder: &Path) -> bool {
        let Some(f) = &self.failure else { return false };
        let m = &f.mismatch;
        let file = folder.join(format!("list-{}-{}-{}.img", f.seed, f.stick, f.damage));
        println!("seed {}, stick {}, damage {}, volume {}", f.seed, f.stick, f.damage, f.volume);
        println!("{m}");
        let image = ports.map_or_else(|| f.image.to_vec(), |ports| smaller(f, ports));
        match std::fs::create_dir_all(folder).and_then(|()| std::fs::write(&file, &image)) {
            Ok(()) => println!("{} bytes that show it: {}", image.len(), file.display()),
            Err(e) => println!("{}: {e}", file.display()),
        }
        true
    }
}

/// Whether the walk measures the first volume as the plan says.
fn agreed(image: &Image, (what, stated): (&str, Measured)) -> Checked {
    let by_walk = walk::of_image(image, 0).measured;
    if by_walk == stated {
        return Ok(());
    }
    let words = format!("{what}: {stated:?} is stated, {by_walk:?} found");
    Err((0, Mismatch { of: Of::Measure, length: 0, want: 0, got: 0, words }))
}

/// What stays the same while the image is made smaller: the call, and the refusals, or that there is none.
fn kind(m: &Mismatch) -> (Of, i64, i64) {
    (m.of, m.want.min(0), m.got.min(0))
}

/// The image with all gone that the failure, of the same kind, can do without.
fn smaller(f: &Failure, ports: Ports) -> Vec<u8> {
    let fails = |b: &[u8]| {
        let image = Image::of(b.to_vec());
        let t = walk::of_image(&image, f.volume);
        let same = |m: Mismatch| kind(&m) == kind(&f.mismatch);
        let random = &mut Random::new(1);
        let (list, measure) = subjects(ports, &image.whole, f.volume);
        let mut tried = if f.mismatch.of == Of::List { lengths(&t, random) } else { measure::rooms(&t, random) };
        tried.push(f.mismatch.length);
        tried.into_iter().any(|n| match f.mismatch.of {
            Of::List => list.check(&t, n).is_err_and(same),
            Of::Measure => t.measured != Measured::Vast && measure.measures(&t.measured, n).is_err_and(same),
        })
    };
    if fails(&f.image) {
        shrink(f.image.to_vec(), &fails)
    } else {
        f.image.to_vec()
    }
}

/// For listing and for measuring.
fn subjects<'a>(ports: Ports<'a>, image: &'a [u8], volume: u64) -> (Subject<'a>, Subject<'a>) {
    let of = |port| Subject { port, image, volume };
    (of(ports.list), of(ports.measure))
}

/// One image, listed.
struct Trial<'a> {
    image: &'a [u8],
    ports: Option<Ports<'a>>,
    random: Random,
    tally: &'a mut Tally,
}

impl Trial<'_> {
    fn judge(&mut self, volume: u64, t: Trace) -> Checked {
        self.tally.listing(&t);
        let told = |of: Of, words: String| (volume, Mismatch { of, length: t.text.len(), want: 0, got: 0, words });
        if let (None, End::Panic(m)) = (self.ports, &t.end) {
            return Err(told(Of::List, format!("the oracle panicked: {m}")));
        }
        if t.end == End::Whole {
            self.tally.totals(totals::held(&t.text).map_err(|words| told(Of::List, words))?);
            let by_text = Measured::Got(counted(&t.text));
            if by_text != t.measured {
                return Err(told(Of::Measure, format!("{by_text:?} by the text, and {:?}", t.measured)));
            }
        }
        self.list(volume, &t).and_then(|()| self.measure(volume, &t)).map_err(|m| (volume, m))
    }

    fn list(&mut self, volume: u64, t: &Trace) -> Result<(), Mismatch> {
        for n in lengths(t, &mut self.random) {
            if !matches!(t.end, End::Open(_)) {
                self.tally.call(t.refusal(n));
            }
            let checked = self.ports.map(|ports| subjects(ports, self.image, volume).0.check(t, n));
            checked.unwrap_or(Ok(()))?;
        }
        Ok(())
    }

    fn measure(&mut self, volume: u64, t: &Trace) -> Result<(), Mismatch> {
        self.tally.measures.volume(t);
        if let Some(m) = measure::listed(t) {
            self.tally.measures.listed += 1;
            self.ports.map_or(Ok(()), |ports| subjects(ports, self.image, volume).0.fits(t, m))?;
        }
        for n in measure::rooms(t, &mut self.random) {
            self.tally.measures.call(t.measured.refusal(n));
            let checked = self.ports.map(|ports| subjects(ports, self.image, volume).1.measures(&t.measured, n));
            checked.unwrap_or(Ok(()))?;
        }
        Ok(())
    }
}
