//! How many of each answer were seen.

use std::collections::BTreeMap;
use std::fmt;

use crate::opening::answer::Answer;
use crate::opening::outside::Outside;

#[derive(Clone, Debug, Default)]
pub struct Tally {
    pub opened: u64,
    /// By the refusal's number.
    pub refused: BTreeMap<u64, u64>,
    pub overflow: u64,
    pub panics: u64,
    pub large_ring: u64,
    pub endless_maps: u64,
}

/// Of images without a table: 4 is said of a part alone.
const WANTED: [u64; 4] = [1, 2, 3, 11];

impl Tally {
    pub fn count(&mut self, a: &Answer) {
        match a {
            Answer::Text(_) => self.opened += 1,
            Answer::Refused(n) => *self.refused.entry(*n).or_default() += 1,
            Answer::Overflow => self.overflow += 1,
            Answer::Panic(_) => self.panics += 1,
        }
    }

    pub fn skip(&mut self, why: Outside) {
        match why {
            Outside::Ring => self.large_ring += 1,
            Outside::Maps => self.endless_maps += 1,
        }
    }

    /// Success and refusals of images without a table that were never seen, by name.
    pub fn missing(&self) -> Vec<String> {
        self.missing_of(&WANTED)
    }

    /// The same of these refusals.
    pub fn missing_of(&self, wanted: &[u64]) -> Vec<String> {
        let opened = (self.opened == 0).then(|| "opened".to_string());
        let refused = wanted.iter().filter(|n| !self.refused.contains_key(n)).map(|n| format!("refused with {n}"));
        opened.into_iter().chain(refused).collect()
    }
}

impl fmt::Display for Tally {
    fn fmt(&self, f: &mut fmt::Formatter) -> fmt::Result {
        let compared = self.opened + self.refused.values().sum::<u64>();
        let refused: Vec<String> = self.refused.iter().map(|(number, n)| format!("{number} {n}")).collect();
        write!(f, "{compared} within the domain: opened {}; refused with {}; ", self.opened, refused.join(", "))?;
        write!(f, "outside it: overflow {}, ring too large {}, ", self.overflow, self.large_ring)?;
        write!(f, "maps without end {}; panics {}", self.endless_maps, self.panics)
    }
}
