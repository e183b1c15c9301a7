//! What objects there were, and how long their lists.

use std::collections::BTreeMap;
use std::fmt;

use crate::pairs::tally::counts;
use crate::words::draw::KINDS;
use crate::words::Mend;

const MANY: usize = 100;
const LISTS: [&str; 4] = ["empty", "of one entry", "of several", "of over 100"];
const WORDS: [&str; 2] = ["both of 0 and 0xffffffff", "any other"];

#[derive(Clone, Debug, Default)]
pub struct Tally {
    pub objects: BTreeMap<&'static str, u64>,
    pub lists: BTreeMap<&'static str, u64>,
    /// Entries.
    pub words: BTreeMap<&'static str, u64>,
    /// Words that were changed, and are listed.
    pub planted: u64,
    pub longest: usize,
}

impl Tally {
    pub fn object(&mut self, kind: &'static str, list: &[Mend]) {
        *self.objects.entry(kind).or_default() += 1;
        let length = match list.len() {
            0 => LISTS[0],
            1 => LISTS[1],
            n if n <= MANY => LISTS[2],
            _ => LISTS[3],
        };
        *self.lists.entry(length).or_default() += 1;
        for (_, word) in list {
            *self.words.entry(WORDS[usize::from(*word != 0 && *word != u32::MAX)]).or_default() += 1;
        }
        self.longest = self.longest.max(list.len());
    }

    /// Every kind that was never seen, by name.
    pub fn missing(&self) -> Vec<String> {
        let lacks = |seen: &BTreeMap<&'static str, u64>, all: &[&'static str], what: &str| -> Vec<String> {
            all.iter().filter(|k| !seen.contains_key(*k)).map(|k| format!("{what} {k}")).collect()
        };
        let planted = if self.planted == 0 { vec!["a word that was changed".to_string()] } else { Vec::new() };
        let kinds = [
            lacks(&self.objects, &KINDS, "an object"),
            lacks(&self.lists, &LISTS, "a list"),
            lacks(&self.words, &WORDS, "a word,"),
            planted,
        ];
        kinds.concat()
    }
}

impl fmt::Display for Tally {
    fn fmt(&self, f: &mut fmt::Formatter) -> fmt::Result {
        writeln!(f, "objects: {}", counts(&self.objects))?;
        writeln!(f, "lists: {}; longest {}", counts(&self.lists), self.longest)?;
        writeln!(f, "entries: {}; words that were changed {}", counts(&self.words), self.planted)
    }
}
