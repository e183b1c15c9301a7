//! How many of each answer were seen, by call.

use std::collections::BTreeMap;
use std::fmt;

use crate::calls::call::{Call, NAMES};
use crate::calls::directory::Account;
use crate::calls::expected::{Answer, Expected, Kind};
use crate::calls::replaced;

#[derive(Clone, Debug, Default)]
pub struct Tally {
    pub seen: BTreeMap<(&'static str, Kind), u64>,
    /// Calls that read directories, by whose account of their keys, and whether they are answered.
    pub accounts: BTreeMap<(Account, &'static str, bool), u64>,
}

/// Calls that read directories.
const OF_DIRECTORIES: [&str; 4] = ["lookup", "entry", "entries", "replaced"];

/// Of images without NXSB.
const NO_PARTITION_TABLE: u64 = 11;

/// What a run must have seen of each call.
fn wanted(call: &str) -> Vec<Kind> {
    use Kind::{Added, Answered, Refused};
    let (kinds, added): (&[&'static str], &[u64]) = match call {
        "lookup" => (&["root", "exact", "by key"], &[5, 8, 9]),
        "read" => {
            (&["at or past the end", "into no buffer", "zeros alone", "of one extent", "of several extents"], &[2, 8])
        }
        "entry" => (&["entry", "past the end"], &[8]),
        "entries" => (&["as many as fit", "to the end", "past the end"], &[6, 8]),
        "xattr" | "xattr_bytes" => (&["embedded", "stream", "past the end"], &[6, 8]),
        "link" => (&["embedded", "stream"], &[8]),
        "replaced" => (&[replaced::NO_NAME, replaced::PAST], &[4, 8]),
        _ => (&["hole", "extent", "past the end"], &[8]),
    };
    let names = replaced::SEEN.as_flattened().iter().filter(|_| call == "replaced");
    let kinds = kinds.iter().chain(names).map(|k| Answered(k));
    let added = added.iter().copied().chain([NO_PARTITION_TABLE]);
    kinds.chain((1..=4).map(Refused)).chain(added.map(Added)).collect()
}

impl Tally {
    pub fn count(&mut self, call: &Call, kind: Kind) {
        *self.seen.entry((call.name(), kind)).or_default() += 1;
    }

    pub fn account(&mut self, call: &Call, want: &Expected) {
        if want.account != Account::None {
            let answered = matches!(want.answer, Answer::Bytes(_));
            *self.accounts.entry((want.account, call.name(), answered)).or_default() += 1;
        }
    }

    /// Each call that reads directories is to be answered and refused by either account.
    pub fn missing_accounts(&self) -> Vec<String> {
        let all = [Account::Rust, Account::Reference].into_iter().flat_map(|account| {
            OF_DIRECTORIES.into_iter().flat_map(move |call| [true, false].map(|answered| (account, call, answered)))
        });
        let word = |answered: bool| if answered { "answered" } else { "refused" };
        let lacks = all.filter(|k| !self.accounts.contains_key(k));
        lacks.map(|(account, call, answered)| format!("{call} {} by {account}", word(answered))).collect()
    }

    fn counted(&self, account: Account, call: &'static str) -> String {
        let n = |answered: bool| self.accounts.get(&(account, call, answered)).copied().unwrap_or(0);
        format!("{call} {} answered, {} refused", n(true), n(false))
    }

    /// How many calls there were.
    pub fn calls(&self) -> u64 {
        self.seen.values().sum()
    }

    /// Every kind that was never seen, by name.
    pub fn missing(&self) -> Vec<String> {
        let all = NAMES.into_iter().flat_map(|c| wanted(c).into_iter().map(move |k| (c, k)));
        let kinds = all.filter(|k| !self.seen.contains_key(k)).map(|(call, kind)| format!("{call}: {kind}"));
        kinds.chain(self.missing_accounts()).collect()
    }
}

impl fmt::Display for Account {
    fn fmt(&self, f: &mut fmt::Formatter) -> fmt::Result {
        f.write_str(match self {
            Account::None => "no account",
            Account::Rust => "the Rust",
            Account::Reference => "the reference",
        })
    }
}

impl fmt::Display for Kind {
    fn fmt(&self, f: &mut fmt::Formatter) -> fmt::Result {
        match self {
            Kind::Answered(k) => write!(f, "{k}"),
            Kind::Refused(n) => write!(f, "refused with {n}"),
            Kind::Added(n) => write!(f, "added {n}"),
            Kind::Told(k) => write!(f, "{k}, by document 01"),
            Kind::Open(why) => write!(f, "not asked, {why}"),
        }
    }
}

impl fmt::Display for Tally {
    fn fmt(&self, f: &mut fmt::Formatter) -> fmt::Result {
        for call in NAMES {
            let kinds = self.seen.iter().filter(|((c, _), _)| *c == call);
            let words: Vec<String> = kinds.map(|((_, kind), n)| format!("{kind} {n}")).collect();
            writeln!(f, "{call:11} {}", words.join("; "))?;
        }
        for account in [Account::Rust, Account::Reference] {
            let words: Vec<String> = OF_DIRECTORIES.map(|call| self.counted(account, call)).into();
            writeln!(f, "directory keys by {account}: {}", words.join("; "))?;
        }
        Ok(())
    }
}
