//! A port's listing, with one slip or none.

use compare::opening::answer::caught;
use oracle::probe;

use super::files::LONGEST;
use super::mistake::Mistake;
use super::records::{Attribute, Data, Entry, Extent, Inode};
use super::totals::{self, Form};
use super::{class, open, test, Answer, Opened, Stand};

#[derive(Clone, Copy, Debug, PartialEq, Eq)]
pub enum Slip {
    None,
    // Order.
    ShortLast,
    ShortBeforeContents,
    ListsBeforeLine,
    EntriesAfterAttributes,
    DeepBeforeLine,
    DeepAfterInode,
    ContentsFirst,
    // Depth.
    OneLess,
    OneMore,
    // Contents.
    PackedAsEmpty,
    PackedRefused,
    OverlapTaken,
    OverlapWithinSize,
    DirectoriesAlone,
    RuleSwapped,
    LabelAsStored,
    // Totals.
    FirstNodeAlone,
    RootUncounted,
    LinkedOnce,
    PackedUncounted,
    BytesOnce,
    BytesOfPacked,
    BytesAllocated,
    BytesStored,
    BytesWithAttributes,
    BytesAsDigits,
    EmbeddedAlone,
    StreamsAlone,
    TotalsSwapped,
    TotalsInHex,
    TotalsAfterBracket,
    TotalsWhereTheyFit,
    FootReserved,
    FootUnwiped,
    // Buffers.
    FullIsShort,
    LeftUnwiped,
    WipedAfterLines,
    WipedPast,
}

use Slip as S;

pub const ALL: [Slip; 38] = [
    S::ShortLast,
    S::ShortBeforeContents,
    S::ListsBeforeLine,
    S::EntriesAfterAttributes,
    S::DeepBeforeLine,
    S::DeepAfterInode,
    S::ContentsFirst,
    S::OneLess,
    S::OneMore,
    S::PackedAsEmpty,
    S::PackedRefused,
    S::OverlapTaken,
    S::OverlapWithinSize,
    S::DirectoriesAlone,
    S::RuleSwapped,
    S::LabelAsStored,
    S::FirstNodeAlone,
    S::RootUncounted,
    S::LinkedOnce,
    S::PackedUncounted,
    S::BytesOnce,
    S::BytesOfPacked,
    S::BytesAllocated,
    S::BytesStored,
    S::BytesWithAttributes,
    S::BytesAsDigits,
    S::EmbeddedAlone,
    S::StreamsAlone,
    S::TotalsSwapped,
    S::TotalsInHex,
    S::TotalsAfterBracket,
    S::TotalsWhereTheyFit,
    S::FootReserved,
    S::FootUnwiped,
    S::FullIsShort,
    S::LeftUnwiped,
    S::WipedAfterLines,
    S::WipedPast,
];

/// Those that show in a whole listing's foot.
pub const TOTALS: [Slip; 15] = [
    S::FirstNodeAlone,
    S::RootUncounted,
    S::LinkedOnce,
    S::PackedUncounted,
    S::BytesOnce,
    S::BytesOfPacked,
    S::BytesAllocated,
    S::BytesStored,
    S::BytesWithAttributes,
    S::BytesAsDigits,
    S::EmbeddedAlone,
    S::StreamsAlone,
    S::TotalsSwapped,
    S::TotalsInHex,
    S::TotalsAfterBracket,
];

/// No foot is shorter.
const FOOT: usize = "(total 1 0 0)\n)\n".len();

struct Lister<'a> {
    stand: Stand<'a>,
    room: usize,
    text: Vec<u8>,
    forms: Vec<Form>,
    at_foot: bool,
    slip: Slip,
}

impl<'a> Lister<'a> {
    fn new(stand: Stand<'a>, room: usize, slip: Slip) -> Lister<'a> {
        Lister { stand, room, text: Vec::new(), forms: Vec::new(), at_foot: false, slip }
    }

    fn has(&self, slip: Slip) -> bool {
        self.slip == slip
    }

    fn line(&mut self, line: &str) -> Answer<()> {
        let reserved = if self.has(S::FootReserved) && !self.at_foot { FOOT } else { 0 };
        let n = self.text.len() + line.len() + reserved + usize::from(self.has(S::FullIsShort));
        test(n <= self.room || self.has(S::ShortLast) && n < 1 << 24, 6)?;
        self.text.extend(line.bytes());
        Ok(())
    }

    fn volume(&mut self) -> Answer<()> {
        let (sb, rule) = (&self.stand.v.sb, self.stand.v.name_rule());
        let mut rule = [u8::from(rule.case_insensitive), u8::from(rule.normalization_insensitive)];
        if self.has(S::RuleSwapped) {
            rule.reverse();
        }
        let label = if self.has(S::LabelAsStored) { sb.name.replace('\u{fffd}', "?") } else { sb.name.clone() };
        let line = format!("(volume {} {} {}\n", rule[0], rule[1], self.stand.hex(label.as_bytes()));
        self.line(&line)?;
        self.node(2, 0)?;
        self.at_foot = true;
        if self.has(S::TotalsAfterBracket) {
            self.line(")\n")?;
            self.totals()?;
        } else {
            self.totals()?;
            self.line(")\n")?;
        }
        test(self.text.len() <= self.room, 6)
    }

    fn totals(&mut self) -> Answer<()> {
        let line = totals::line(&self.forms, self.slip);
        let fits = self.text.len() + line.len() <= self.room;
        if fits || !self.has(S::TotalsWhereTheyFit) {
            self.line(&line)?;
        }
        Ok(())
    }

    fn deepest(&self) -> u64 {
        match self.slip {
            S::OneLess => 63,
            S::OneMore => 65,
            _ => 64,
        }
    }

    fn node(&mut self, id: u64, depth: u64) -> Answer<()> {
        test(depth <= self.deepest() || self.has(S::DeepAfterInode), 10)?;
        let inode = self.stand.inode(id)?;
        test(depth <= self.deepest(), 10)?;
        if self.has(S::ListsBeforeLine) {
            self.stand.attributes(id)?;
            self.stand.entries(id)?;
        }
        self.line(&self.stand.node(&inode))?;
        self.forms.push(Form::of(&inode));
        let attributes = self.stand.attributes(id)?;
        if self.has(S::EntriesAfterAttributes) {
            self.attributes(&attributes)?;
        }
        let entries = self.stand.entries(id)?;
        if self.has(S::ContentsFirst) {
            self.contents(&inode)?;
        }
        if !self.has(S::EntriesAfterAttributes) {
            self.attributes(&attributes)?;
        }
        if !self.has(S::ContentsFirst) {
            self.contents(&inode)?;
        }
        if !(self.has(S::DirectoriesAlone) && inode.mode >> 12 != 4) {
            entries.iter().try_for_each(|e| self.entry(e, depth))?;
        }
        self.line(")\n")
    }

    fn entry(&mut self, e: &Entry, depth: u64) -> Answer<()> {
        test(depth < self.deepest() || !self.has(S::DeepBeforeLine), 10)?;
        self.line(&self.stand.entry_line(e))?;
        self.node(e.id, depth + 1)?;
        self.line(")\n")
    }

    fn attributes(&mut self, list: &[Attribute]) -> Answer<()> {
        for a in list {
            let form = match &a.data {
                Data::Embedded(_) => "e".to_string(),
                Data::Stream { id, .. } => format!("s {id}"),
            };
            let head = format!("(attr {} {} {form} ", a.flags, self.stand.hex(a.name.as_bytes()));
            self.room_for(head.len())?;
            let (data, size) = self.stand.contents(a)?;
            test(size <= LONGEST, 6)?;
            self.line(&(head + &self.stand.hex(&data) + ")\n"))?;
            self.forms.last_mut().expect("its node").attribute(a, data.len());
        }
        Ok(())
    }

    fn room_for(&self, n: usize) -> Answer<()> {
        test(!self.has(S::ShortBeforeContents) || self.text.len() + n <= self.room, 6)
    }

    fn contents(&mut self, inode: &Inode) -> Answer<()> {
        if inode.is_packed() {
            test(!self.has(S::PackedRefused), 3)?;
            return self.line(if self.has(S::PackedAsEmpty) { "(data x)\n" } else { "(packed)\n" });
        }
        self.room_for(9)?;
        let extents = self.stand.extents(inode.head[1])?;
        let size = inode.size();
        let met = |w: &&[Extent]| !self.has(S::OverlapWithinSize) || w[1].logical < size;
        let apart = |w: &[Extent]| w[0].logical.checked_add(w[0].length).is_some_and(|end| end <= w[1].logical);
        let in_order = |w: &[Extent]| w[0].logical <= w[1].logical;
        let well = |w: &[Extent]| apart(w) || self.has(S::OverlapTaken) && in_order(w);
        test(extents.windows(2).filter(met).all(well), 2)?;
        let mut out = vec![0; size.min(LONGEST) as usize];
        for e in extents.iter().filter(|e| e.logical < size) {
            self.copy(e, size, &mut out)?;
        }
        test(size <= LONGEST, 6)?;
        self.forms.last_mut().expect("its node").data(&extents, out.len());
        self.line(&format!("(data {})\n", self.stand.hex(&out)))
    }

    fn copy(&self, e: &Extent, size: u64, out: &mut [u8]) -> Answer<()> {
        let stop = e.logical.checked_add(e.length).ok_or(8)?.min(size);
        if stop == e.logical || e.block == 0 {
            return Ok(());
        }
        let past = e.block.checked_add(e.length.div_ceil(self.stand.block_size())).ok_or(8)?;
        test(past <= probe::block_count(self.stand.c), 2)?;
        let stored = self.stand.stored(e.block, 0, stop - e.logical)?;
        let start = e.logical.min(out.len() as u64) as usize;
        let n = stored.len().min(out.len() - start);
        out[start..start + n].copy_from_slice(&stored[..n]);
        Ok(())
    }
}

pub fn answer(image: &[u8], volume: u64, out: &mut [u8], slip: Slip) -> i64 {
    let (mut text, mut at_foot) = (Vec::new(), false);
    let found = open(image).and_then(|Opened { part, c }| {
        let listed = caught(|| {
            let v = c.volume(volume as usize).map_err(class)?;
            let stand = Stand { part: &part, c: &c, v: &v, m: Mistake::None };
            let mut lister = Lister::new(stand, out.len(), slip);
            let listed = lister.volume();
            (text, at_foot) = (lister.text, lister.at_foot);
            listed
        });
        listed.unwrap_or(Err(8))
    });
    let n = text.len();
    match found {
        Ok(()) => {
            out[..n].copy_from_slice(&text);
            out[n..].iter_mut().filter(|_| slip == S::WipedPast).for_each(|b| *b = 0);
            n as i64
        }
        Err(number) => {
            let from = if slip == S::WipedAfterLines { n.min(out.len()) } else { 0 };
            let unwiped = slip == S::LeftUnwiped || slip == S::FootUnwiped && at_foot;
            out[from..].iter_mut().filter(|_| !unwiped).for_each(|b| *b = 0);
            -number
        }
    }
}
