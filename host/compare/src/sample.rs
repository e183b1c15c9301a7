//! A sample of the oracle's answers: so many cases of each kind, drawn from all that a comparison
//! runs.

use std::collections::BTreeMap;

use crate::cases;
use crate::expected::expected;
use crate::leaf::{Case, Leaf};
use crate::random::Random;
use crate::record::Record;

#[derive(Clone, Copy, PartialEq, Eq, PartialOrd, Ord)]
enum Length {
    Short,
    Middle,
    Block,
    Longer,
}

const LARGEST_BLOCK: usize = 65_536;

type Stratum = (Leaf, &'static str, Length);

#[derive(Default)]
struct Kept {
    seen: usize,
    records: Vec<Record>,
}

fn length(n: usize) -> Length {
    match n {
        0..=64 => Length::Short,
        65..=256 => Length::Middle,
        257..=4108 => Length::Block,
        _ => Length::Longer,
    }
}

/// Short inputs in numbers; of the others the few that show what short ones can't.
fn room((leaf, kind, length): Stratum, n: usize) -> usize {
    match (length, leaf) {
        (Length::Short, _) => 36,
        (Length::Middle, _) => 2,
        (Length::Block, Leaf::LenAndHash) => 1,
        (Length::Block, Leaf::Compute | Leaf::Verify) if ["whole words", "valid", "another sum"].contains(&kind) => 1,
        (Length::Longer, Leaf::Verify) if kind == "valid" && n == LARGEST_BLOCK => 1,
        _ => 0,
    }
}

/// Each case of a stratum is as likely to be kept as any other (a reservoir).
fn offer(kept: &mut Kept, room: usize, c: &Case, value: u64, random: &mut Random) {
    kept.seen += 1;
    let full = kept.records.len() == room;
    let place = if full { random.below(kept.seen) } else { kept.records.len() };
    if place >= room || kept.records.iter().any(|r| r.case() == *c) {
        return;
    }
    let record = Record { leaf: c.leaf, a: c.a, b: c.b, expected: value, input: c.input.to_vec() };
    if full {
        kept.records[place] = record;
    } else {
        kept.records.push(record);
    }
}

/// Records in the order of their ops. Answers that are not the oracle's are left out.
pub fn sample(seed: u64) -> Vec<Record> {
    let mut random = Random::new(!seed);
    let mut strata: BTreeMap<Stratum, Kept> = BTreeMap::new();
    cases::all(seed, &mut |c| {
        let want = expected(&c);
        let stratum = (c.leaf, want.kind, length(c.input.len()));
        let room = room(stratum, c.input.len());
        if want.from_oracle && room > 0 {
            offer(strata.entry(stratum).or_default(), room, &c, want.value, &mut random);
        }
    });
    strata.into_values().flat_map(|kept| kept.records).collect()
}
