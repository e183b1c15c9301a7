//! What pairs there were.

use std::collections::BTreeMap;
use std::fmt;

use crate::pairs::{change, layout, mark};

#[derive(Clone, Debug, Default)]
pub struct Tally {
    /// Pairs of the same contents.
    pub alike: u64,
    /// Those with a directory key that the Rust finds too short.
    pub short: u64,
    /// Pairs with one thing changed.
    pub changed: u64,
    /// Changes that the listing of the plan does not show.
    pub hidden: u64,
    pub calls: u64,
    pub layouts: BTreeMap<&'static str, u64>,
    pub changes: BTreeMap<&'static str, u64>,
    /// Pairs of a name in which U+FFFD was typed and the same name damaged, by what name it is.
    pub marks: BTreeMap<&'static str, u64>,
    /// Answers by call and refusal; a listing is a call.
    pub answers: BTreeMap<String, u64>,
}

/// Answers that a run must have seen.
const WANTED: [&str; 14] = [
    "list answered",
    "list refused with 6",
    "list refused with 10",
    "lookup answered",
    "lookup refused with 4",
    "lookup refused with 5",
    "lookup refused with 9",
    "read answered",
    "read refused with 3",
    "read of nothing",
    "link answered",
    "entries answered",
    "entries refused with 6",
    "xattr_bytes answered",
];

impl Tally {
    pub fn answer(&mut self, call: &str, n: i64) {
        let name = match n {
            0 => format!("{call} of nothing"),
            n if n > 0 => format!("{call} answered"),
            n => format!("{call} refused with {}", -n),
        };
        *self.answers.entry(name).or_default() += 1;
    }

    pub fn layout(&mut self, kinds: &[&'static str]) {
        kinds.iter().for_each(|kind| *self.layouts.entry(kind).or_default() += 1);
    }

    pub fn change(&mut self, kind: &'static str) {
        self.changed += 1;
        *self.changes.entry(kind).or_default() += 1;
    }

    pub fn mark(&mut self, name: &'static str) {
        *self.marks.entry(name).or_default() += 1;
    }

    pub fn missing(&self) -> Vec<String> {
        let layouts = layout::KINDS.into_iter().filter(|k| !self.layouts.contains_key(k)).map(String::from);
        let changes = change::names().filter(|k| !self.changes.contains_key(k)).map(String::from);
        let marks = mark::NAMES.into_iter().filter(|k| !self.marks.contains_key(k)).map(|k| format!("{k} damaged"));
        let answers = WANTED.into_iter().map(String::from).filter(|k| !self.answers.contains_key(k));
        let short = (self.short == 0).then(|| "keys of under 12 bytes".to_string());
        layouts.chain(changes).chain(marks).chain(answers).chain(short).collect()
    }
}

pub(crate) fn counts<K: fmt::Display>(map: &BTreeMap<K, u64>) -> String {
    map.iter().map(|(k, n)| format!("{k} {n}")).collect::<Vec<_>>().join("; ")
}

impl fmt::Display for Tally {
    fn fmt(&self, f: &mut fmt::Formatter) -> fmt::Result {
        writeln!(f, "{} pairs of the same contents, which differ in: {}", self.alike, counts(&self.layouts))?;
        writeln!(f, "{} of them have directory keys of under 12 bytes", self.short)?;
        writeln!(f, "{} answers were the same: {}", self.calls, counts(&self.answers))?;
        writeln!(f, "{} pairs with one thing changed list otherwise: {}", self.changed, counts(&self.changes))?;
        writeln!(f, "{} changes that don't show were left out", self.hidden)?;
        let marks: u64 = self.marks.values().sum();
        writeln!(f, "{marks} pairs with a name typed and damaged differ in its number alone: {}", counts(&self.marks))
    }
}
