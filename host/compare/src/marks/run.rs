//! A run over many sticks.

use std::path::Path;

use sticks::random::Random;
use sticks::Stick;

use crate::calls::run::{damaged, Failure};
use crate::calls::Port;
use crate::image::Image;
use crate::marks::edges;
use crate::marks::tally::Tally;
use crate::marks::trial::{Share, Trial};
use crate::marks::Mark;
use crate::opening;
use crate::opening::run::stick_seed;

/// How often what the trees of a stick hold is damaged.
const DAMAGES: u64 = 4;
/// The stick with bytes behind it, and with damage to what opening reads.
const LONGER: u64 = DAMAGES + 1;
const UNOPENED: u64 = DAMAGES + 2;
/// Bytes of the largest block.
const BLOCK: u64 = 65_536;

#[derive(Default)]
pub struct Run {
    pub images: u64,
    pub tally: Tally,
    pub failure: Option<Failure>,
    /// The last image, kept until there is a next one, so that two in a row never have one address; and its marks.
    last: Option<(Image, Vec<Mark>)>,
}

/// The image with blocks behind those that are counted, and a part of one.
pub fn longer(image: &[u8], seed: u64) -> Vec<u8> {
    let mut random = Random::new(!seed);
    let n = random.pick(&[1, BLOCK, BLOCK + 1, 2 * BLOCK, random.clone().below(BLOCK)]);
    [image, &random.bytes(n as usize)].concat()
}

fn image(stick: &Stick, k: u64) -> Vec<u8> {
    let seed = stick.plan.seed;
    match k {
        0 => stick.image.clone(),
        LONGER => longer(&stick.image, seed),
        UNOPENED => opening::run::damaged(&stick.image, seed, 1),
        _ => damaged(&stick.image, seed, k),
    }
}

impl Run {
    /// Over `count` sticks, and those at the edges; without a port the oracle is asked alone. Stops at the first
    /// failure.
    pub fn over(seed: u64, count: u64, port: Option<Port>) -> Run {
        let mut run = Run::default();
        run.edges(port);
        for stick in 0..count {
            let whole = Stick::from_seed(stick_seed(seed, stick));
            for damage in 0..=UNOPENED {
                let random = Random::new(whole.plan.seed.wrapping_mul(37).wrapping_add(damage));
                run.one((seed, stick, damage), image(&whole, damage), random, port);
                if run.failure.is_some() {
                    return run;
                }
            }
        }
        run
    }

    /// The sticks that no seed draws.
    pub fn edges(&mut self, port: Option<Port>) {
        for (stick, image) in (0..).zip(edges::images()) {
            if self.failure.is_none() {
                self.one((0, stick, 0), image, Random::new(stick), port);
            }
        }
    }

    fn one(&mut self, (seed, stick, damage): (u64, u64, u64), image: Vec<u8>, random: Random, port: Option<Port>) {
        if self.failure.is_some() {
            return;
        }
        let (image, last) = (Image::of(image), self.last.take());
        let strange = last.as_ref().map_or(&[][..], |(_, marks)| marks);
        let (share, tally) = (Share::All, &mut self.tally);
        let mut trial = Trial { image: &image, port, random, share, strange, found: Vec::new(), tally };
        let checked = trial.all();
        let found = trial.found;
        self.images += 1;
        let whole = image.whole.clone();
        self.last = Some((image, found));
        self.failure = checked.err().map(|mismatch| Failure { seed, stick, damage, mismatch, image: whole });
    }

    /// Prints the failure, if there was one, and writes its image, made smaller, to a file in `folder`.
    pub fn report_failure(&self, port: Option<Port>, folder: &Path) -> bool {
        self.failure.as_ref().is_some_and(|f| f.report("marks", port, folder))
    }
}
