//! Opening volumes: each slot of sticks drawn from a seed, whole and damaged, and places past the last slot.

use std::collections::BTreeMap;

use oracle::nx::Container;
use oracle::probe;
use sticks::{damage, Stick};

use crate::calls::call::Call;
use crate::calls::Port;
use crate::image::Image;
use crate::opening::answer::{self, caught, Answer};
use crate::opening::run::stick_seed;

/// How often each stick is damaged.
const DAMAGES: u64 = 4;
/// No path: it is refused after opening and before anything in the volume is read, so that a lookup of it tells how
/// opening went.
const NOT_UTF8: u8 = 0xff;
const PATH_NOT_UTF8: i64 = -5;

#[derive(Default)]
pub struct Volumes {
    /// By what the oracle answers: 0, or the refusal's number.
    pub seen: BTreeMap<u64, u64>,
    pub overflow: u64,
    pub failure: Option<String>,
}

impl Volumes {
    /// Without a port the oracle is asked alone. Stops at the first failure.
    pub fn over(seed: u64, count: u64, port: Option<Port>) -> Volumes {
        let mut volumes = Volumes::default();
        for i in 0..count {
            let seed = stick_seed(seed, i);
            let image = Stick::from_seed(seed).image;
            for k in 0..=DAMAGES {
                let b = if k == 0 { image.clone() } else { damage(&image, seed.wrapping_mul(DAMAGES).wrapping_add(k)) };
                if let Err(e) = volumes.stick(&Image::of(b), port) {
                    volumes.failure = Some(format!("stick {seed}, damage {k}: {e}"));
                    return volumes;
                }
            }
        }
        volumes
    }

    fn stick(&mut self, image: &Image, port: Option<Port>) -> Result<(), String> {
        let Some((_, c)) = answer::opened(image) else { return Ok(()) };
        let slots = c.sb.fs_oids.len() as u64;
        (0..=slots).chain([u64::MAX]).try_for_each(|i| self.volume(&image.whole, &c, i, port))
    }

    fn volume(&mut self, image: &[u8], c: &Container, i: u64, port: Option<Port>) -> Result<(), String> {
        let want = match caught(|| c.volume(i as usize).map(|_| ())) {
            Ok(Ok(())) => 0,
            Ok(Err(e)) => probe::class(&e),
            Err(Answer::Overflow) => {
                self.overflow += 1;
                return Ok(());
            }
            Err(other) => return Err(format!("volume {i}: {other}")),
        };
        *self.seen.entry(want).or_default() += 1;
        let Some(port) = port else { return Ok(()) };
        let got = port(image, i, &Call::Lookup { path: vec![NOT_UTF8] }, &mut []);
        if got == if want == 0 { PATH_NOT_UTF8 } else { -(want as i64) } {
            Ok(())
        } else {
            Err(format!("volume {i}: the oracle answers {want}, the port {got}"))
        }
    }
}
