//! What was seen of checkpoints, and how often each answer was given.

use std::collections::BTreeMap;
use std::fmt;

use crate::{calls, list, marks, opening};

pub const ONE: &str = "of one number";
pub const SEVERAL: &str = "of several numbers";
pub const REPEATS: &str = "with a number twice";
pub const UNACCEPTED: &str = "less than the candidates";
pub const UNOPENED: &str = "where nothing opens";
const LISTS: [&str; 5] = [ONE, SEVERAL, REPEATS, UNACCEPTED, UNOPENED];

pub const LATEST: &str = "the latest";
pub const EARLIER: &str = "an earlier one";
pub const OF_EQUALS: &str = "one of equals";
pub const FIRST_UNACCEPTED: &str = "one of equals, the first not accepted";
pub const NO_CANDIDATE: &str = "of no candidate";
pub const NONE_ACCEPTED: &str = "of no accepted candidate";
pub const OTHERWISE: &str = "one that lists otherwise than the latest";
const NUMBERS: [&str; 7] = [LATEST, EARLIER, OF_EQUALS, FIRST_UNACCEPTED, NO_CANDIDATE, NONE_ACCEPTED, OTHERWISE];

/// Refusals that a list is to have met, and opening by a number.
const REFUSED: [u64; 4] = [1, 2, 3, 11];
const OPENING: [u64; 5] = [1, 2, 3, 11, 13];

#[derive(Default)]
pub struct Tally {
    pub images: u64,
    /// Lists by kind.
    pub lists: BTreeMap<&'static str, u64>,
    pub refused: BTreeMap<u64, u64>,
    /// Images of which the Rust does not tell the numbers.
    pub untold: u64,
    /// Numbers that were asked for, by kind.
    pub numbers: BTreeMap<&'static str, u64>,
    /// Numbers at which a spoiled block shows in an answer.
    pub showing: u64,
    pub opening: opening::tally::Tally,
    pub calls: calls::tally::Tally,
    pub list: list::tally::Tally,
    pub marks: marks::tally::Tally,
}

impl Tally {
    pub fn list(&mut self, kind: &'static str) {
        *self.lists.entry(kind).or_default() += 1;
    }

    pub fn number(&mut self, kind: &'static str) {
        *self.numbers.entry(kind).or_default() += 1;
    }

    pub fn missing(&self) -> Vec<String> {
        let lists = LISTS.iter().filter(|k| !self.lists.contains_key(*k)).map(|k| format!("a list {k}"));
        let refused =
            REFUSED.iter().filter(|n| !self.refused.contains_key(n)).map(|n| format!("a list refused with {n}"));
        let numbers = NUMBERS.iter().filter(|k| !self.numbers.contains_key(*k)).map(|k| format!("a number: {k}"));
        let opening = self.opening.missing_of(&OPENING).into_iter().map(|k| format!("opening, {k}"));
        lists.chain(refused).chain(numbers).chain(opening).chain(self.missing_calls()).collect()
    }

    /// Each call, the listing and its measure, is to be answered, and refused with 13.
    fn missing_calls(&self) -> Vec<String> {
        use calls::expected::Kind::{Added, Answered};
        let seen = |call: &str, is: &dyn Fn(&calls::expected::Kind) -> bool| {
            self.calls.seen.keys().any(|(c, k)| *c == call && is(k))
        };
        let lacks = |call: &&str| !seen(call, &|k| matches!(k, Answered(_))) || !seen(call, &|k| *k == Added(13));
        let calls = calls::call::NAMES.into_iter().filter(lacks).map(String::from);
        let listed = self.list.answered > 0 && self.list.refused.contains_key(&13);
        let measured = self.list.measures.got > 0 && self.list.measures.refused.contains_key(&13);
        let whole = [(listed, "list"), (measured, "measure")].into_iter().filter(|k| !k.0).map(|k| k.1.to_string());
        calls.chain(whole).chain(self.marks.missing_of(&[13])).collect()
    }
}

fn words(seen: &BTreeMap<&'static str, u64>) -> String {
    seen.iter().map(|(kind, n)| format!("{kind} {n}")).collect::<Vec<_>>().join("; ")
}

impl fmt::Display for Tally {
    fn fmt(&self, f: &mut fmt::Formatter) -> fmt::Result {
        let refused: Vec<String> = self.refused.iter().map(|(n, k)| format!("refused with {n} {k}")).collect();
        writeln!(f, "{} images; lists {}; {}", self.images, words(&self.lists), refused.join("; "))?;
        writeln!(f, "not told by the Rust {}", self.untold)?;
        writeln!(f, "numbers: {}; a spoiled block shows at {}", words(&self.numbers), self.showing)?;
        writeln!(f, "opening: {}", self.opening)?;
        write!(f, "{}", self.calls)?;
        write!(f, "{}", self.list)?;
        write!(f, "{}", self.marks)
    }
}
