//! A run over many sticks.

use std::path::Path;
use std::sync::Arc;

use sticks::random::Random;

use crate::calls::directory::Rule;
use crate::calls::vast;
use crate::desks::account::Account;
use crate::desks::draw;
use crate::desks::edges::{edges, requests, Asked, Edge};
use crate::desks::order::{self, Made};
use crate::desks::request::NO_CALL;
use crate::desks::tally::Tally;
use crate::desks::trial::{asked, read_part, Checked, Mismatch, Trial};
use crate::desks::variants::{self, Variant};
use crate::desks::{Counts, Ports};
use crate::image::Image;
use crate::opening::run::stick_seed;
use crate::opening::shrink::shrink;

/// Of the sticks that no seed draws, listings of so many lines are cut at each of them.
const LINES: usize = 40;
/// So many of a stick's calls are made in other orders.
const ORDERED: usize = 24;

pub struct Failure {
    pub seed: u64,
    /// The stick's place in the run.
    pub stick: u64,
    pub mismatch: Box<Mismatch>,
    pub image: Arc<Vec<u8>>,
}

#[derive(Default)]
pub struct Run {
    pub images: u64,
    pub tally: Tally,
    pub failure: Option<Failure>,
    /// Of one dock, for all images.
    counts: Counts,
    /// The calls on a stick.
    made: Vec<Made>,
}

impl Run {
    /// Over `count` sticks; without ports the Rust's count alone is held against the account. Stops at the first
    /// failure.
    pub fn over(seed: u64, count: u64, ports: Option<Ports>) -> Run {
        let mut run = Run::default();
        run.edges(ports);
        for stick in 0..count {
            if run.failure.is_some() {
                return run;
            }
            let mut random = Random::new(stick_seed(seed, stick));
            for variant in variants::drawn(&mut random) {
                run.images += 1;
                let checked = run.image(&variant, &mut random, ports);
                if let Err(mismatch) = checked {
                    run.failure = Some(Failure { seed, stick, mismatch, image: variant.image.whole });
                    return run;
                }
            }
            if let Err((mismatch, image)) = run.orders(&mut random, ports) {
                run.failure = Some(Failure { seed, stick, mismatch, image });
                return run;
            }
        }
        run
    }

    /// The sticks that no seed draws.
    fn edges(&mut self, ports: Option<Ports>) {
        for (stick, Edge { image, asked }) in (0..).zip(edges()) {
            let (image, mut random) = (Image::of(image.clone()), Random::new(stick));
            let requests = requests(*asked, &mut random);
            let (counts, tally, made) = (&mut self.counts, &mut self.tally, &mut self.made);
            let mut trial = Trial { image: &image, checkpoint: None, ports, random, counts, tally, made };
            let checked = trial.given(requests, if *asked == Asked::All { LINES } else { 0 });
            self.images += 1;
            self.made.clear();
            if let Err(mismatch) = checked {
                self.failure = Some(Failure { seed: 0, stick, mismatch, image: image.whole });
                return;
            }
        }
    }

    fn image(&mut self, v: &Variant, random: &mut Random, ports: Option<Ports>) -> Checked {
        for checkpoint in v.checkpoints(random) {
            let (image, random) = (&v.image, random.fork());
            let (counts, tally, made) = (&mut self.counts, &mut self.tally, &mut self.made);
            Trial { image, checkpoint, ports, random, counts, tally, made }.all(&v.volumes)?;
        }
        Ok(())
    }

    /// Some of the calls on a stick's images, in other orders.
    fn orders(&mut self, random: &mut Random, ports: Option<Ports>) -> Result<(), (Box<Mismatch>, Arc<Vec<u8>>)> {
        let mut made = std::mem::take(&mut self.made);
        random.shuffle(&mut made);
        made.truncate(ORDERED);
        let Some(ports) = ports else { return Ok(()) };
        let image = made.first().map(|m| Arc::clone(&m.image)).unwrap_or_default();
        let checked = order::check(&made, ports.desk, random, &mut self.tally);
        checked.map_err(|words| (Box::new(Mismatch { drawn: None, words }), image))
    }

    /// Prints the failure, if there was one, and writes its image, made smaller, to a file in `folder`.
    pub fn report_failure(&self, ports: Option<Ports>, folder: &Path) -> bool {
        let Some(f) = &self.failure else { return false };
        let file = folder.join(format!("desks-{}-{}.img", f.seed, f.stick));
        let request = f.mismatch.drawn.as_ref().map_or(String::new(), |d| format!("{}, {} bytes: ", d.request, d.room));
        println!("seed {}, stick {}: {request}{}", f.seed, f.stick, f.mismatch.words);
        let image = ports.map_or_else(|| f.image.to_vec(), |ports| smaller(f, ports));
        match std::fs::create_dir_all(folder).and_then(|()| std::fs::write(&file, &image)) {
            Ok(()) => println!("{} bytes that show it: {}", image.len(), file.display()),
            Err(e) => println!("{}: {e}", file.display()),
        }
        true
    }
}

/// How many calls agreed on images about 2^34 bytes long, of which nothing is gone through.
pub fn vast(ports: Ports) -> Result<Option<u64>, String> {
    vast::over(&|image, number| {
        let drawn = draw::each(&mut Random::new(number));
        let calls: Vec<_> = drawn.into_iter().filter(|d| d.request.name() != NO_CALL).collect();
        for d in &calls {
            let result = asked(ports, image, d, (3, &mut [5; 8]), 0);
            let told = result.and_then(|n| if n == -(number as i64) { Ok(()) } else { Err(format!("{n}")) });
            told.map_err(|e| format!("an image of {} bytes, {}: {e}", image.len(), d.request))?;
        }
        Ok(calls.len() as u64)
    })
}

/// The image with all gone that the failure can do without.
fn smaller(f: &Failure, ports: Ports) -> Vec<u8> {
    let fails = |b: &[u8]| {
        let image = Image::of(b.to_vec());
        let Some(d) = &f.mismatch.drawn else { return false };
        let path = Account::of(read_part(&image), Rule::Kind).path(&d.request, d.room as u64);
        path.is_some_and(|path| asked(ports, b, d, (0, &mut Counts::default()), path.len() as u64).is_err())
    };
    if fails(&f.image) {
        shrink(f.image.to_vec(), &fails)
    } else {
        f.image.to_vec()
    }
}
