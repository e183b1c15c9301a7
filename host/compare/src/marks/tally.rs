//! What records and marks there were, and how they were answered.

use std::collections::BTreeMap;
use std::fmt;

use crate::calls::call::{Call, MARKS};
use crate::calls::expected::Kind;
use crate::marks::draw::{self, kinds};
use crate::marks::records::{PAST, RECORD};
use crate::marks::{handed, Mark, NONE};
use crate::pairs::tally::counts;

const ROOT: &str = "of a root";
const LEAF: &str = "of a lower leaf";
const EMPTY: &str = "with an empty value";
const AT_END: &str = "with a value that ends where the block does";
const EMPTY_AT_END: &str = "with an empty value at the block's end";
const MET: [&str; 5] = [ROOT, LEAF, EMPTY, AT_END, EMPTY_AT_END];

/// Of images without NXSB.
const NO_PARTITION_TABLE: u64 = 11;

#[derive(Clone, Debug, Default)]
pub struct Tally {
    /// Calls by their answers.
    pub seen: BTreeMap<(&'static str, Kind), u64>,
    /// Marks that were handed in, by kind and whether they were taken.
    pub handed: BTreeMap<(draw::Kind, bool), u64>,
    /// Records by where they stand.
    pub met: BTreeMap<&'static str, u64>,
    pub records: u64,
    /// Entries without a value.
    pub ghosts: u64,
}

impl Tally {
    pub fn count(&mut self, call: &Call, kind: Kind) {
        *self.seen.entry((call.name(), kind)).or_default() += 1;
    }

    pub fn handed(&mut self, kind: draw::Kind, taken: bool) {
        *self.handed.entry((kind, taken)).or_default() += 1;
    }

    /// A record of a block of so many bytes, which ends in what a root says of its tree, or does not.
    pub fn record(&mut self, mark: &Mark, size: u64, is_root: bool) {
        let (empty, end) = (mark.value.length == 0, u64::from(mark.value.offset) + u64::from(mark.value.length));
        let at_end = mark.value != NONE && end == size;
        let met =
            [(ROOT, is_root), (LEAF, !is_root), (EMPTY, empty), (AT_END, at_end), (EMPTY_AT_END, empty && at_end)];
        met.into_iter().filter(|m| m.1).for_each(|m| *self.met.entry(m.0).or_default() += 1);
        self.records += 1;
    }

    pub fn calls(&self) -> u64 {
        self.seen.values().sum()
    }

    /// Of each call, answers of which none was seen.
    fn missing_answers(&self) -> Vec<String> {
        use Kind::{Added, Answered, Refused};
        let mark = [Answered(RECORD), Answered(PAST), Refused(4), Added(8)];
        let marked: Vec<Kind> = handed::SEEN.into_iter().map(Answered).chain([Added(1)]).collect();
        let both = [Refused(1), Refused(2), Refused(3), Added(NO_PARTITION_TABLE)];
        let wanted = [mark.to_vec(), marked].into_iter().zip(MARKS);
        let all = wanted.flat_map(|(kinds, call)| [kinds, both.to_vec()].concat().into_iter().map(move |k| (call, k)));
        all.filter(|k| !self.seen.contains_key(k)).map(|(call, kind)| format!("{call}: {kind}")).collect()
    }

    /// Every kind that was never seen, by name.
    pub fn missing(&self) -> Vec<String> {
        let outcomes = kinds().into_iter().flat_map(|(kind, all)| all.iter().map(move |taken| (kind, *taken)));
        let handed = outcomes
            .filter(|k| !self.handed.contains_key(k))
            .map(|((what, kind), taken)| format!("a mark, {what} {kind}, {}", if taken { "taken" } else { "refused" }));
        let met = MET.iter().filter(|k| !self.met.contains_key(*k)).map(|k| format!("a record {k}"));
        let ghosts = (self.ghosts == 0).then(|| "an entry without a value".to_string());
        self.missing_answers().into_iter().chain(handed).chain(met).chain(ghosts).collect()
    }

    /// Calls that were never answered, or never refused with one of these numbers.
    pub fn missing_of(&self, refusals: &[u64]) -> Vec<String> {
        let seen = |call: &str, is: &dyn Fn(&Kind) -> bool| self.seen.keys().any(|(c, k)| *c == call && is(k));
        let lacks = |call: &&str| {
            let answered = seen(call, &|k| matches!(k, Kind::Answered(_)));
            !answered || refusals.iter().any(|n| !seen(call, &|k| *k == Kind::Added(*n)))
        };
        MARKS.into_iter().filter(lacks).map(String::from).collect()
    }
}

impl fmt::Display for Tally {
    fn fmt(&self, f: &mut fmt::Formatter) -> fmt::Result {
        for call in MARKS {
            let kinds = self.seen.iter().filter(|((c, _), _)| *c == call);
            let words: Vec<String> = kinds.map(|((_, kind), n)| format!("{kind} {n}")).collect();
            writeln!(f, "{call:11} {}", words.join("; "))?;
        }
        writeln!(f, "records {}, {}; entries without a value {}", self.records, counts(&self.met), self.ghosts)?;
        let taken = |is: bool| self.handed.iter().filter(|((_, t), _)| *t == is).map(|(_, n)| n).sum::<u64>();
        writeln!(f, "marks handed in: taken {}, refused {}", taken(true), taken(false))
    }
}
