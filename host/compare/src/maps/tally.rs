//! What maps there were, and what was looked up in them.

use std::collections::BTreeMap;
use std::fmt;

use crate::maps::walk::{Fault, Kind, Tree};
use crate::pairs::tally::counts;

#[derive(Clone, Debug, Default)]
pub struct Tally {
    /// Maps that are well-formed, by how many levels of nodes they have.
    pub well_formed: BTreeMap<usize, u64>,
    /// Those of them that have no entries.
    pub empty: u64,
    /// Maps that are not, by why.
    pub faults: BTreeMap<Fault, u64>,
    /// Lookups by what was kept.
    pub lookups: BTreeMap<&'static str, u64>,
}

const FAULTS: [Fault; 4] = [Fault::NotRead, Fault::Shared, Fault::Order, Fault::FirstKey];
const LOOKUPS: [&str; 6] = ["none", "found", "another oid", "without a value", "deleted", "a value too short"];

impl Tally {
    pub fn map(&mut self, judged: Result<&Tree, Fault>) {
        match judged {
            Ok(tree) => {
                *self.well_formed.entry(tree.levels()).or_default() += 1;
                self.empty += u64::from(tree.entries().is_empty());
            }
            Err(fault) => *self.faults.entry(fault).or_default() += 1,
        }
    }

    pub fn lookup(&mut self, kind: Kind) {
        *self.lookups.entry(kind.name()).or_default() += 1;
    }

    /// Every kind that was never seen, by name.
    pub fn missing(&self) -> Vec<String> {
        let levels = (self.well_formed.len() < 2).then(|| "well-formed maps of one level and of more".to_string());
        let empty = (self.empty == 0).then(|| "a well-formed map without entries".to_string());
        let faults = FAULTS.iter().filter(|f| !self.faults.contains_key(f)).map(|f| format!("maps: {f}"));
        let lookups = LOOKUPS.iter().filter(|k| !self.lookups.contains_key(*k)).map(|k| format!("lookups: {k}"));
        levels.into_iter().chain(empty).chain(faults).chain(lookups).collect()
    }
}

impl fmt::Display for Tally {
    fn fmt(&self, f: &mut fmt::Formatter) -> fmt::Result {
        let well_formed: u64 = self.well_formed.values().sum();
        let others: u64 = self.faults.values().sum();
        let lookups: u64 = self.lookups.values().sum();
        writeln!(
            f,
            "{well_formed} well-formed maps, {} without entries; by levels: {}",
            self.empty,
            counts(&self.well_formed)
        )?;
        writeln!(f, "{others} others, by what is wrong: {}", counts(&self.faults))?;
        writeln!(f, "{lookups} lookups: {}", counts(&self.lookups))
    }
}
