//! A run over many sticks.

use std::path::Path;

use sticks::{damage_at, Aim, Stick};

use crate::image::Image;
use crate::opening::answer::{self, Answer};
use crate::opening::check::{check, check_outside};
use crate::opening::outside::outside;
use crate::opening::shrink::shrink;
use crate::opening::tally::Tally;
use crate::opening::Open;

/// How often each stick is damaged.
const DAMAGES: u64 = 4;

/// The oracle's answer, and what the port did instead.
#[derive(Clone, Debug, PartialEq, Eq)]
pub struct Mismatch {
    pub expected: String,
    pub got: String,
}

impl Mismatch {
    /// What stays the same while the image is made smaller.
    fn kind(&self) -> (&str, Option<&str>) {
        let text = self.expected.starts_with('(');
        (if text { "(" } else { &self.expected }, self.got.split(' ').next())
    }
}

pub struct Failure {
    pub seed: u64,
    /// Which damage, from 1; 0 for the stick as it was made.
    pub damage: u64,
    pub image: Vec<u8>,
    pub mismatch: Mismatch,
}

#[derive(Default)]
pub struct Run {
    pub whole: Tally,
    pub damaged: Tally,
    pub failure: Option<Failure>,
}

/// The seed of the stick at place `i` of a run.
pub fn stick_seed(seed: u64, i: u64) -> u64 {
    seed.wrapping_mul(0x1_0000_0000).wrapping_add(i)
}

pub fn damaged(image: &[u8], seed: u64, k: u64) -> Vec<u8> {
    let aim = if k == DAMAGES { Aim::Anywhere } else { Aim::Opening };
    damage_at(image, aim, seed.wrapping_mul(DAMAGES).wrapping_add(k))
}

impl Run {
    /// Over `count` sticks; without a port the oracle is asked alone. Stops at the first failure.
    pub fn over(seed: u64, count: u64, port: Option<Open>) -> Run {
        let mut run = Run::default();
        for i in 0..count {
            let seed = stick_seed(seed, i);
            let image = Stick::from_seed(seed).image;
            let broken: Vec<_> = (1..=DAMAGES).map(|k| damaged(&image, seed, k)).collect();
            for (k, image) in std::iter::once(image).chain(broken).enumerate() {
                run.one(seed, k as u64, image, port);
                if run.failure.is_some() {
                    return run;
                }
            }
        }
        run
    }

    fn one(&mut self, seed: u64, damage: u64, image: Vec<u8>, port: Option<Open>) {
        let image = Image::of(image);
        let tally = if damage == 0 { &mut self.whole } else { &mut self.damaged };
        let Err(first) = judge(&image, port, Some(tally)) else { return };
        let fails = |b: &[u8]| judge(&Image::of(b.to_vec()), port, None).is_err_and(|m| m.kind() == first.kind());
        let image = shrink(image.whole.to_vec(), &fails);
        let mismatch = judge(&Image::of(image.clone()), port, None).err().unwrap_or(first);
        self.failure = Some(Failure { seed, damage, image, mismatch });
    }

    /// Prints the failure, if there was one, and writes its image to a file in `folder`.
    pub fn report_failure(&self, folder: &Path) -> bool {
        let Some(f) = &self.failure else { return false };
        let file = folder.join(format!("stick-{}-{}.img", f.seed, f.damage));
        println!("stick {}, damage {}, made smaller:", f.seed, f.damage);
        println!("the oracle: {}\nthe port: {}", f.mismatch.expected, f.mismatch.got);
        match std::fs::create_dir_all(folder).and_then(|()| std::fs::write(&file, &f.image)) {
            Ok(()) => println!("{} bytes that show it: {}", f.image.len(), file.display()),
            Err(e) => println!("{}: {e}", file.display()),
        }
        true
    }
}

/// The port is asked about the image, the oracle about its part.
pub fn judge(image: &Image, port: Option<Open>, tally: Option<&mut Tally>) -> Result<(), Mismatch> {
    if let Some(why) = image.part.as_ref().ok().and_then(|part| outside(part)) {
        if let Some(t) = tally {
            t.skip(why);
        }
        let result = port.map_or(Ok(()), |p| check_outside(p, &image.whole, why));
        return result.map_err(|got| Mismatch { expected: format!("not asked, {why:?}"), got });
    }
    let want = answer::of_image(image);
    if let Some(t) = tally {
        t.count(&want);
    }
    let result = match (&want, port) {
        (Answer::Panic(_), None) => Err("not asked".into()),
        (_, None) => Ok(()),
        (_, Some(p)) => check(p, &image.whole, &want),
    };
    result.map_err(|got| Mismatch { expected: want.to_string(), got })
}
