//! What desks asked for, and what it came to.

use std::collections::BTreeMap;
use std::fmt;

use crate::desks::request::{Request, NAMES, NO_CALL};

const TOO_SHORT: i64 = -6;

#[derive(Clone, Debug, Default)]
pub struct Tally {
    /// Calls by name and by the refusal's number, 0 where one is answered.
    pub seen: BTreeMap<(&'static str, u64), u64>,
    /// Nodes that each kind of call went through, all together and at most.
    pub nodes: BTreeMap<&'static str, (u64, u64)>,
    /// Calls that the Rust's count of blocks was held against, by name.
    pub by_rust: BTreeMap<&'static str, u64>,
    /// Blocks that it counted.
    pub blocks: u64,
    /// Listings that had no room for one of their lines, by how many nodes they then went through.
    pub cut: BTreeMap<usize, u64>,
    /// Listings with too many forms.
    pub vast: u64,
    pub notes: BTreeMap<&'static str, u64>,
}

pub const SATURATED: &str = "a count stayed at 2^64 - 1";
pub const FILLED: &str = "a count came to just 2^64 - 1";
pub const NO_DESK: &str = "a desk above 7";
pub const BY_NUMBER: &str = "at a checkpoint of a number";
pub const REFUSED: &str = "nodes of a refused call";
pub const ORDERS: &str = "calls in another order";
pub const ALONE: &str = "calls of one desk alone";
const NOTES: [&str; 7] = [SATURATED, FILLED, NO_DESK, BY_NUMBER, REFUSED, ORDERS, ALONE];

/// Refusals that each call is to have met besides.
fn wanted(name: &str) -> &'static [u64] {
    match name {
        "open" | "checkpoints" | "marked" => &[0, 1, 2, 6, 11],
        "lookup" => &[0, 1, 2, 3, 4, 5, 6, 9, 11],
        "list" => &[0, 1, 2, 3, 4, 6, 8, 10, 11],
        "measure" => &[0, 1, 2, 3, 4, 6, 8, 10, 11, 14],
        "read" => &[0, 1, 2, 3, 4, 11],
        "part" => &[0, 6, 11],
        "wrong_words" => &[0, 6],
        NO_CALL => &[4],
        _ => &[0, 1, 2, 3, 4, 6, 11],
    }
}

impl Tally {
    pub fn call(&mut self, request: &Request, result: i64, nodes: u64) {
        let refusal = if result < 0 { result.unsigned_abs() } else { 0 };
        *self.seen.entry((request.name(), refusal)).or_default() += 1;
        let (all, most) = self.nodes.entry(request.name()).or_default();
        (*all, *most) = (*all + nodes, nodes.max(*most));
        if refusal > 0 && nodes > 0 {
            self.note(REFUSED);
        }
        if request.numbered != 0 {
            self.note(BY_NUMBER);
        }
    }

    pub fn listing(&mut self, result: i64, nodes: u64) {
        if result == TOO_SHORT {
            *self.cut.entry(nodes as usize).or_default() += 1;
        }
    }

    pub fn rust(&mut self, request: &Request, blocks: u64) {
        *self.by_rust.entry(request.name()).or_default() += 1;
        self.blocks += blocks;
    }

    pub fn note(&mut self, what: &'static str) {
        *self.notes.entry(what).or_default() += 1;
    }

    pub fn calls(&self) -> u64 {
        self.seen.values().sum()
    }

    /// What was never seen, by name.
    pub fn missing(&self) -> Vec<String> {
        let names = NAMES.into_iter().chain([NO_CALL]);
        let all = names.flat_map(|name| wanted(name).iter().map(move |n| (name, *n)));
        let lacks = all.filter(|k| !self.seen.contains_key(k));
        let calls = lacks.map(|(name, n)| if n == 0 { format!("{name} answered") } else { format!("{name} {n}") });
        let notes = NOTES.into_iter().filter(|k| !self.notes.contains_key(k)).map(String::from);
        calls.chain(notes).collect()
    }
}

fn pairs<K: fmt::Display>(map: &BTreeMap<K, u64>) -> String {
    map.iter().map(|(k, n)| format!("{k} {n}")).collect::<Vec<_>>().join("; ")
}

impl fmt::Display for Tally {
    fn fmt(&self, f: &mut fmt::Formatter) -> fmt::Result {
        for name in NAMES.into_iter().chain([NO_CALL]) {
            let kinds = self.seen.iter().filter(|((n, _), _)| *n == name);
            let word = |n: u64| if n == 0 { "answered".to_string() } else { format!("refused with {n}") };
            let words: Vec<String> = kinds.map(|((_, n), times)| format!("{} {times}", word(*n))).collect();
            let (all, most) = self.nodes.get(name).copied().unwrap_or_default();
            writeln!(f, "{name:11} {}; nodes {all}, at most {most}", words.join("; "))?;
        }
        let (nodes, cut) = (self.nodes.values().map(|n| n.0).sum::<u64>(), self.cut.values().sum::<u64>());
        writeln!(f, "{} calls, {nodes} nodes; {}", self.calls(), pairs(&self.notes))?;
        writeln!(
            f,
            "listings cut short {cut}, after {} numbers of nodes; too many forms {}",
            self.cut.len(),
            self.vast
        )?;
        writeln!(f, "held against the Rust's {} blocks: {}", self.blocks, pairs(&self.by_rust))
    }
}
