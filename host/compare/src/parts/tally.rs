//! What images there were, and how often each answer was given.

use std::collections::{BTreeMap, BTreeSet};
use std::fmt;

use sticks::gpt::{kinds, Kind};

use crate::calls::directory::Account;
use crate::{calls, list, marks, opening};

/// Of containers in a part.
const OPENING: [u64; 6] = [1, 2, 3, 4, 11, 12];

pub struct Tally {
    /// Images by the refusal of `apfs_part`, or 0.
    pub parts: BTreeMap<u8, u64>,
    /// Images by kind.
    pub kinds: BTreeMap<Kind, u64>,
    /// Parts that were asked about by themselves too.
    pub own: u64,
    pub opening: opening::tally::Tally,
    pub calls: calls::tally::Tally,
    pub list: list::tally::Tally,
    pub marks: marks::tally::Tally,
}

impl Default for Tally {
    fn default() -> Tally {
        Tally {
            parts: BTreeMap::new(),
            kinds: kinds().into_iter().map(|k| (k, 0)).collect(),
            own: 0,
            opening: Default::default(),
            calls: Default::default(),
            list: Default::default(),
            marks: Default::default(),
        }
    }
}

impl Tally {
    pub fn image(&mut self, part: &Result<(usize, usize), u8>, kinds: &[Kind]) {
        *self.parts.entry(part.err().unwrap_or(0)).or_default() += 1;
        kinds.iter().for_each(|kind| *self.kinds.entry(kind.clone()).or_default() += 1);
    }

    pub fn missing(&self) -> Vec<String> {
        let kinds = self.kinds.iter().filter(|(_, n)| **n == 0).map(|((what, kind), _)| format!("{what} {kind}"));
        let parts = [0, 1, 11, 12].iter().filter(|n| !self.parts.contains_key(n)).map(|n| format!("part, {n}"));
        let own = (self.own == 0).then(|| "a part by itself".to_string());
        let opening = self.opening.missing_of(&OPENING).into_iter().map(|k| format!("opening, {k}"));
        kinds.chain(parts).chain(own).chain(opening).chain(self.missing_calls()).collect()
    }

    /// Each call, the listing and its measure, is to be answered, and refused for the table and for its entries.
    fn missing_calls(&self) -> Vec<String> {
        use calls::expected::Kind::{Added, Answered};
        let seen = |call: &str, is: &dyn Fn(&calls::expected::Kind) -> bool| {
            self.calls.seen.keys().any(|(c, k)| *c == call && is(k))
        };
        let lacks = |call: &&str| {
            !seen(call, &|k| matches!(k, Answered(_))) || [11, 12].iter().any(|n| !seen(call, &|k| *k == Added(*n)))
        };
        let calls = calls::call::NAMES.into_iter().filter(lacks).map(String::from);
        let listed = self.list.answered > 0 && [4, 11, 12].iter().all(|n| self.list.refused.contains_key(n));
        let m = &self.list.measures;
        let measured = m.got > 0 && [4, 11, 12].iter().all(|n| m.refused.contains_key(n));
        let whole = [(listed, "list"), (measured, "measure")].into_iter().filter(|k| !k.0).map(|k| k.1.to_string());
        calls.chain(whole).chain(self.missing_accounts()).chain(self.marks.missing_of(&[11, 12])).collect()
    }

    /// Some calls are to read directories by the reference, answered and refused.
    fn missing_accounts(&self) -> Vec<String> {
        let seen = |answered: bool| self.calls.accounts.keys().any(|k| (k.0, k.2) == (Account::Reference, answered));
        let kinds = [(true, "answered"), (false, "refused")];
        let lacks = kinds.into_iter().filter(|(answered, _)| !seen(*answered));
        lacks.map(|(_, word)| format!("directory keys by the reference, {word}")).collect()
    }
}

impl fmt::Display for Tally {
    fn fmt(&self, f: &mut fmt::Formatter) -> fmt::Result {
        let name = |n: &u8| if *n == 0 { "a part".to_string() } else { format!("refused with {n}") };
        let parts: Vec<String> = self.parts.iter().map(|(k, n)| format!("{} {n}", name(k))).collect();
        writeln!(f, "images: {}; {} parts asked about by themselves too", parts.join("; "), self.own)?;
        let groups: BTreeSet<&str> = self.kinds.keys().map(|(what, _)| *what).collect();
        for group in groups {
            let kinds = self.kinds.iter().filter(|((what, _), _)| *what == group);
            let words: Vec<String> = kinds.map(|((_, kind), n)| format!("{kind} {n}")).collect();
            writeln!(f, "{group}: {}", words.join("; "))?;
        }
        writeln!(f, "opening: {}", self.opening)?;
        write!(f, "{}", self.calls)?;
        write!(f, "{}", self.list)?;
        write!(f, "{}", self.marks)
    }
}
