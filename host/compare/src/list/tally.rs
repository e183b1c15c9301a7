//! What listings there were, and how often each answer was given.

use std::collections::BTreeMap;
use std::fmt;

use crate::calls::directory::Account;
use crate::list::measure::{Measured, MOST};
use crate::list::totals::Totals;
use crate::list::trace::{End, Trace};

#[derive(Clone, Debug, Default)]
pub struct Tally {
    /// Volumes whose listings were compared.
    pub listings: u64,
    /// Calls, each with a buffer of its own length.
    pub calls: u64,
    /// Calls that were answered with a text.
    pub answered: u64,
    /// Calls by refusal.
    pub refused: BTreeMap<u64, u64>,
    /// Listings by how they end.
    pub ends: BTreeMap<String, u64>,
    /// Texts of whole listings by the power of 2 that their length reaches.
    pub sizes: BTreeMap<u32, u64>,
    pub longest: usize,
    pub bytes: u64,
    /// Listings by the depth of their deepest node.
    pub depths: BTreeMap<u64, u64>,
    /// The depth of the deepest whole listing.
    pub deepest: u64,
    /// Nodes, bytes and attributes of whole listings, as counted over their lines, and the most of each in one.
    pub totals: [(u64, u64); 3],
    /// Listings by whose account of directory keys, and whether they are whole.
    pub accounts: BTreeMap<(Account, bool), u64>,
    pub measures: Measures,
}

/// What measures there were.
#[derive(Clone, Debug, Default)]
pub struct Measures {
    /// Volumes that were measured.
    pub got: u64,
    /// Of these, the ones whose listing is longer than any buffer here.
    pub past: u64,
    /// Of these, the ones that were listed in the room that was measured.
    pub listed: u64,
    pub longest: u64,
    pub deepest: u64,
    /// Volumes by the refusal of their measure.
    pub refused: BTreeMap<u64, u64>,
    /// Volumes that were not asked about, and those of which neither the oracle nor the papers tell.
    pub others: BTreeMap<&'static str, u64>,
    pub calls: u64,
    /// Calls whose own line does not fit.
    pub short: u64,
}

/// Refusals that a run must have seen.
const WANTED: [u64; 8] = [1, 2, 3, 4, 6, 8, 10, 11];
/// The same of measures.
const WANTED_OF_MEASURES: [u64; 8] = [1, 2, 3, 4, 8, 10, 11, 14];
const TOO_SHORT: u64 = 6;

fn named(e: &End) -> String {
    match e {
        End::Whole => "whole".into(),
        End::Refused(n) => format!("refused with {n}"),
        End::More => "cut off here".into(),
        End::LongLine => "a line too long".into(),
        End::Open(why) => format!("not asked, {why}"),
        End::Panic(_) => "panic".into(),
    }
}

fn accounted((account, whole): (Account, bool)) -> String {
    format!("directory keys by {account}, {}", if whole { "whole" } else { "not whole" })
}

impl Tally {
    pub fn listing(&mut self, t: &Trace) {
        self.listings += 1;
        *self.ends.entry(named(&t.end)).or_default() += 1;
        *self.accounts.entry((t.account, t.end == End::Whole)).or_default() += 1;
        self.bytes += t.text.len() as u64;
        if let Some(depth) = t.depth {
            *self.depths.entry(depth).or_default() += 1;
        }
        if t.end == End::Whole {
            *self.sizes.entry(t.text.len().ilog2()).or_default() += 1;
            self.longest = self.longest.max(t.text.len());
            self.deepest = self.deepest.max(t.depth.unwrap_or(0));
        }
    }

    pub fn totals(&mut self, totals: Totals) {
        for ((all, most), n) in self.totals.iter_mut().zip(totals) {
            *all += n;
            *most = n.max(*most);
        }
    }

    pub fn call(&mut self, refusal: Option<u64>) {
        self.calls += 1;
        match refusal {
            Some(n) => *self.refused.entry(n).or_default() += 1,
            None => self.answered += 1,
        }
    }

    pub fn missing(&self) -> Vec<String> {
        let refusals = WANTED.iter().filter(|n| !self.refused.contains_key(n)).map(|n| format!("refused with {n}"));
        let depths = [0, 1, 64].iter().filter(|d| !self.depths.contains_key(d)).map(|d| format!("depth {d}"));
        let text = (self.deepest < 64).then(|| "a whole listing as deep as may be".to_string());
        let all = [Account::Rust, Account::Reference].into_iter().flat_map(|a| [(a, true), (a, false)]);
        let accounts = all.filter(|k| !self.accounts.contains_key(k)).map(accounted);
        let measures = self.measures.missing();
        refusals.chain(depths).chain(text).chain(accounts).chain(measures).collect()
    }
}

impl Measures {
    pub fn volume(&mut self, t: &Trace) {
        match &t.measured {
            Measured::Got(m) => {
                self.got += 1;
                self.past += u64::from(t.end != End::Whole);
                self.longest = self.longest.max(m.length);
                self.deepest = self.deepest.max(m.depth);
            }
            Measured::Refused(n) => *self.refused.entry(*n).or_default() += 1,
            Measured::Open(why) => *self.others.entry(why).or_default() += 1,
            Measured::Vast => *self.others.entry("too many nodes").or_default() += 1,
        }
    }

    pub fn call(&mut self, refusal: Option<u64>) {
        self.calls += 1;
        self.short += u64::from(refusal == Some(TOO_SHORT));
    }

    fn missing(&self) -> Vec<String> {
        let lacks = WANTED_OF_MEASURES.iter().filter(|n| !self.refused.contains_key(n));
        let refused = lacks.map(|n| format!("a measure refused with {n}"));
        let others = [
            (self.got == 0, "a measure"),
            (self.past == 0, "a measure of a listing longer than any buffer here"),
            (self.listed == 0, "such a listing in the room that is measured"),
            (self.longest < MOST, "a measure of a listing as long as may be"),
            (self.deepest < 64, "a measure of a listing as deep as may be"),
            (self.short == 0, "a measure whose own line does not fit"),
        ];
        refused.chain(others.iter().filter(|k| k.0).map(|k| k.1.to_string())).collect()
    }
}

impl fmt::Display for Measures {
    fn fmt(&self, f: &mut fmt::Formatter) -> fmt::Result {
        writeln!(
            f,
            "measures: {} told, {} of listings longer than other buffers here, {} of them listed in that room, the longest {}, \
             the deepest {}; {} calls, {} without room for the line",
            self.got, self.past, self.listed, self.longest, self.deepest, self.calls, self.short
        )?;
        writeln!(
            f,
            "measures refused, by number: {}; not asked or not known: {}",
            pairs(&self.refused),
            pairs(&self.others)
        )
    }
}

fn pairs<K: fmt::Display>(map: &BTreeMap<K, u64>) -> String {
    map.iter().map(|(k, n)| format!("{k} {n}")).collect::<Vec<_>>().join("; ")
}

impl fmt::Display for Tally {
    fn fmt(&self, f: &mut fmt::Formatter) -> fmt::Result {
        writeln!(f, "{} listings, {} calls: {} answered", self.listings, self.calls, self.answered)?;
        writeln!(f, "calls refused, by number: {}", pairs(&self.refused))?;
        writeln!(f, "listings by end: {}", pairs(&self.ends))?;
        let accounts: BTreeMap<String, u64> = self.accounts.iter().map(|(k, n)| (accounted(*k), *n)).collect();
        writeln!(f, "listings by account: {}", pairs(&accounts))?;
        let sizes: BTreeMap<String, u64> = self.sizes.iter().map(|(k, n)| (format!("{:7}+", 1u64 << k), *n)).collect();
        writeln!(
            f,
            "whole listings by bytes: {}; longest {}; {} bytes in all",
            pairs(&sizes),
            self.longest,
            self.bytes
        )?;
        let [nodes, bytes, attributes] = self.totals.map(|(all, most)| format!("{all}, at most {most}"));
        writeln!(f, "totals of whole listings: nodes {nodes}; bytes {bytes}; attributes {attributes}")?;
        writeln!(f, "listings by depth: {}; deepest whole one {}", pairs(&self.depths), self.deepest)?;
        write!(f, "{}", self.measures)
    }
}
