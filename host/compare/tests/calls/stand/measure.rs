//! A port's measure of a listing, with one slip or none.

use std::collections::BTreeSet;

use compare::calls::line::total;
use compare::opening::answer::caught;
use oracle::probe;

use super::mistake::Mistake;
use super::records::{Attribute, Data, Entry, Extent, Inode};
use super::{class, open, test, Answer, Opened, Stand};

#[derive(Clone, Copy, Debug, PartialEq, Eq)]
pub enum Slip {
    None,
    // Length.
    TotalsLeftOut,
    LastBracketLeftOut,
    LineEndsLeftOut,
    ByAllocatedSize,
    ByStoredBytes,
    BytesAsOneDigit,
    PackedCounted,
    AttributesAsEmpty,
    LinkedOnce,
    TotalsOfOneDigit,
    // Depth.
    RootAtOne,
    LastInsteadOfGreatest,
    OfDirectories,
    InBrackets,
    DeeperTaken,
    DeeperOneEarly,
    // The bound.
    LongBeforeReading,
    LongAfterAll,
    LongAtTheBound,
    LongPastTheBound,
    LongInLinesAlone,
    LongByWrapping,
    SixForLong,
    CorruptForLong,
    // Faults.
    FaultsPassedOver,
    ContentsUnread,
    StreamsUnread,
    EntriesAfterAttributes,
    // Its own buffer.
    ShortFirst,
    ShortByOne,
    FullIsShort,
    HalfWritten,
    Wiped,
    WipedPast,
    Swapped,
    NoBracket,
}

use Slip as S;

pub const ALL: [Slip; 36] = [
    S::TotalsLeftOut,
    S::LastBracketLeftOut,
    S::LineEndsLeftOut,
    S::ByAllocatedSize,
    S::ByStoredBytes,
    S::BytesAsOneDigit,
    S::PackedCounted,
    S::AttributesAsEmpty,
    S::LinkedOnce,
    S::TotalsOfOneDigit,
    S::RootAtOne,
    S::LastInsteadOfGreatest,
    S::OfDirectories,
    S::InBrackets,
    S::DeeperTaken,
    S::DeeperOneEarly,
    S::LongBeforeReading,
    S::LongAfterAll,
    S::LongAtTheBound,
    S::LongPastTheBound,
    S::LongInLinesAlone,
    S::LongByWrapping,
    S::SixForLong,
    S::CorruptForLong,
    S::FaultsPassedOver,
    S::ContentsUnread,
    S::StreamsUnread,
    S::EntriesAfterAttributes,
    S::ShortFirst,
    S::ShortByOne,
    S::FullIsShort,
    S::HalfWritten,
    S::Wiped,
    S::WipedPast,
    S::Swapped,
    S::NoBracket,
];

const MOST: u128 = 4_294_967_295;
/// Nothing here is so deep that is not endless.
const ENDLESS: u64 = 200;

struct Gauge<'a> {
    stand: Stand<'a>,
    /// So wide that no sum here passes its end.
    length: u128,
    depth: u64,
    /// Nodes, bytes and attributes.
    totals: [u64; 3],
    seen: BTreeSet<u64>,
    slip: Slip,
}

impl Gauge<'_> {
    fn has(&self, slip: Slip) -> bool {
        self.slip == slip
    }

    fn bound(&self) -> u128 {
        match self.slip {
            S::LongAtTheBound => MOST - 1,
            S::LongPastTheBound => MOST + 1,
            _ => MOST,
        }
    }

    /// A line that has this and so many bytes in hexadecimal.
    fn line(&mut self, rest: &str, bytes: u64) -> Answer<()> {
        let digits = if self.has(S::BytesAsOneDigit) { 1 } else { 2 };
        let ends = rest.len() - usize::from(self.has(S::LineEndsLeftOut));
        let n = ends as u128 + digits * u128::from(bytes);
        self.length += if self.has(S::LongByWrapping) { n % (1 << 64) } else { n };
        let passed = if self.has(S::LongInLinesAlone) { n } else { self.length };
        test(passed <= self.bound() || self.has(S::LongAfterAll), 14)
    }

    fn volume(&mut self) -> Answer<()> {
        let (sb, rule) = (&self.stand.v.sb, self.stand.v.name_rule());
        let (case, norm) = (u8::from(rule.case_insensitive), u8::from(rule.normalization_insensitive));
        self.line(&format!("(volume {case} {norm} {}\n", self.stand.hex(sb.name.as_bytes())), 0)?;
        match self.node(2, 0) {
            Err(n) if n != 14 && self.has(S::FaultsPassedOver) => {}
            node => node?,
        }
        let [nodes, bytes, attributes] = self.totals;
        if self.has(S::TotalsOfOneDigit) {
            self.line(&total(0, 0, 0), 0)?;
        } else if !self.has(S::TotalsLeftOut) {
            self.line(&total(nodes, bytes, attributes), 0)?;
        }
        if !self.has(S::LastBracketLeftOut) {
            self.line(")\n", 0)?;
        }
        test(self.length <= self.bound(), 14)
    }

    fn deepest(&self) -> u64 {
        match self.slip {
            S::DeeperTaken => ENDLESS,
            S::DeeperOneEarly => 63,
            _ => 64,
        }
    }

    fn deep(&mut self, depth: u64, has_entries: bool) {
        let own = match self.slip {
            S::RootAtOne => depth + 1,
            S::InBrackets => 2 * depth,
            _ => depth,
        };
        match self.slip {
            S::LastInsteadOfGreatest => self.depth = own,
            S::OfDirectories if !has_entries => {}
            _ => self.depth = self.depth.max(own),
        }
    }

    fn node(&mut self, id: u64, depth: u64) -> Answer<()> {
        test(depth <= self.deepest(), 10)?;
        let inode = self.stand.inode(id)?;
        self.line(&self.stand.node(&inode), 0)?;
        self.totals[0] += 1;
        let attributes = self.stand.attributes(id)?;
        if self.has(S::EntriesAfterAttributes) {
            self.attributes(&attributes)?;
        }
        let entries = self.stand.entries(id)?;
        self.deep(depth, !entries.is_empty());
        if !self.has(S::EntriesAfterAttributes) {
            self.attributes(&attributes)?;
        }
        self.contents(&inode)?;
        entries.iter().try_for_each(|e| self.entry(e, depth))?;
        self.line(")\n", 0)
    }

    fn entry(&mut self, e: &Entry, depth: u64) -> Answer<()> {
        if self.has(S::LinkedOnce) && !self.seen.insert(e.id) {
            return Ok(());
        }
        self.line(&self.stand.entry_line(e), 0)?;
        self.node(e.id, depth + 1)?;
        self.line(")\n", 0)
    }

    fn attributes(&mut self, list: &[Attribute]) -> Answer<()> {
        for a in list {
            let (form, size) = match &a.data {
                Data::Embedded(b) => ("e".to_string(), b.len() as u64),
                Data::Stream { id, size } => (format!("s {id}"), *size),
            };
            let line = format!("(attr {} {} {form} x)\n", a.flags, self.stand.hex(a.name.as_bytes()));
            self.before_reading(line.len(), size)?;
            if !self.has(S::StreamsUnread) {
                self.stand.contents(a)?;
            }
            self.line(&line, if self.has(S::AttributesAsEmpty) { 0 } else { size })?;
            self.totals[2] += 1;
        }
        Ok(())
    }

    fn before_reading(&self, rest: usize, bytes: u64) -> Answer<()> {
        let n = self.length + rest as u128 + 2 * u128::from(bytes);
        test(n <= MOST || !self.has(S::LongBeforeReading), 14)
    }

    fn contents(&mut self, inode: &Inode) -> Answer<()> {
        let size = inode.size();
        if inode.is_packed() {
            return self.line("(packed)\n", if self.has(S::PackedCounted) { size } else { 0 });
        }
        self.before_reading(9, size)?;
        let stored = if self.has(S::ContentsUnread) { 0 } else { self.readable(inode)? };
        let bytes = match self.slip {
            S::ByAllocatedSize => inode.stream.map_or(0, |s| s.1),
            S::ByStoredBytes => stored,
            _ => size,
        };
        self.totals[1] = self.totals[1].saturating_add(size);
        self.line("(data x)\n", bytes)
    }

    /// Whether all of the file can be read, and how many of its bytes are no holes.
    fn readable(&self, inode: &Inode) -> Answer<u64> {
        let (extents, size) = (self.stand.extents(inode.head[1])?, inode.size());
        let apart = |w: &[Extent]| w[0].logical.checked_add(w[0].length).is_some_and(|end| end <= w[1].logical);
        test(extents.windows(2).all(apart), 2)?;
        let mut stored = 0;
        for e in extents.iter().filter(|e| e.logical < size) {
            let stop = e.logical.checked_add(e.length).ok_or(8)?.min(size);
            if stop > e.logical && e.block != 0 {
                let past = e.block.checked_add(e.length.div_ceil(self.stand.block_size())).ok_or(8)?;
                test(past <= probe::block_count(self.stand.c), 2)?;
                stored += self.stand.stored(e.block, 0, stop - e.logical)?.len() as u64;
            }
        }
        Ok(stored)
    }
}

fn line(opened: Answer<Opened>, volume: u64, slip: Slip) -> Answer<String> {
    let Opened { part, c } = opened?;
    let measured = caught(|| {
        let v = c.volume(volume as usize).map_err(class)?;
        let stand = Stand { part: &part, c: &c, v: &v, m: Mistake::None };
        let mut g = Gauge { stand, length: 0, depth: 0, totals: [0; 3], seen: BTreeSet::new(), slip };
        g.volume().map(|()| (g.length, g.depth))
    });
    let (length, depth) = measured.unwrap_or(Err(8))?;
    Ok(match slip {
        S::Swapped => format!("(measure {depth} {length})\n"),
        S::NoBracket => format!("(measure {length} {depth}\n"),
        _ => format!("(measure {length} {depth})\n"),
    })
}

pub fn answer(image: &[u8], volume: u64, out: &mut [u8], slip: Slip) -> i64 {
    if slip == S::ShortFirst && out.len() < 12 {
        return -6;
    }
    let found = line(open(image), volume, slip).map_err(|n| match (n, slip) {
        (14, S::SixForLong) => 6,
        (14, S::CorruptForLong) => 2,
        _ => n,
    });
    let found = found.and_then(|text| {
        let n = match slip {
            S::ShortByOne => text.len() - 1,
            S::FullIsShort => text.len() + 1,
            _ => text.len(),
        };
        if n > out.len() && slip == S::HalfWritten {
            out.iter_mut().zip(text.bytes()).for_each(|(to, from)| *to = from);
        }
        test(n <= out.len(), 6).map(|()| text)
    });
    match found {
        Ok(text) => {
            let n = text.len().min(out.len());
            out[..n].copy_from_slice(&text.as_bytes()[..n]);
            out[n..].iter_mut().filter(|_| slip == S::WipedPast).for_each(|b| *b = 0);
            n as i64
        }
        Err(number) => {
            out.iter_mut().filter(|_| slip == S::Wiped).for_each(|b| *b = 0);
            -number
        }
    }
}
