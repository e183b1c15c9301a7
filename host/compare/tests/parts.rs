//! Reading a partition table, written down once more: without a mistake the run finds none, and each mistake that a port
//! might make is found.

#![cfg(oracle)]

use compare::calls::call::Call;
use compare::calls::expected;
use compare::image::Image;
use compare::list;
use compare::marks::handed::record;
use compare::opening::answer::{self, Answer};
use compare::pairs::by_oracle;
use compare::parts::run::{vast, Run};
use compare::parts::Ports;
use sticks::block::{get32, get64};
use sticks::sums::crc32;

const ENOUGH: u64 = 1600;
const SECTOR: u64 = 512;
/// Where neither the oracle nor document 01 tells, any refusal will do.
const ANY: i64 = -8;
const APFS: [u64; 2] = [0x11aa_0000_7c34_57ef, 0xacec_4365_3000_11aa];

#[derive(Clone, Copy, Debug, PartialEq, Eq)]
enum Mistake {
    None,
    // The image.
    ShortLast,
    SkipForgotten,
    SkipBeforeShort,
    FourForEleven,
    ElevenForTwelve,
    // Headers.
    SignatureIgnored,
    SignatureOfFourBytes,
    OwnSectorIgnored,
    OwnSectorOf32Bits,
    LengthNotBelow,
    LengthNotAbove,
    LengthOf92Refused,
    LengthOf512Refused,
    SumOver92,
    SumOver512,
    SumFieldKept,
    HeaderSumIgnored,
    EntryLengthAny,
    EntryLengthMultiple,
    EntryLengthOf64,
    EntryLengthOf128Alone,
    ArrayEndIgnored,
    ArrayEndByOne,
    ProductsWrap,
    ArraySumIgnored,
    ArrayAtTwo,
    // The backup.
    BackupForgotten,
    BackupFirst,
    BackupAfterNoEntry,
    BackupBeforeTheLast,
    BackupInLastPart,
    // Entries.
    FirstHalfOfType,
    SecondHalfOfType,
    LastOfType,
    NextWhereBad,
    StepOf128,
    OneMoreEntry,
    OneEntryLess,
    // The part.
    LastLeftOut,
    LastBeforeFirst,
    OneSectorRefused,
    EndByOne,
    EndNotTested,
    SumsWrap,
    // Buffers.
    Wiped,
    ShortFirst,
    ShortByOne,
}

use Mistake as M;

const ALL: [Mistake; 47] = [
    M::ShortLast,
    M::SkipForgotten,
    M::SkipBeforeShort,
    M::FourForEleven,
    M::ElevenForTwelve,
    M::SignatureIgnored,
    M::SignatureOfFourBytes,
    M::OwnSectorIgnored,
    M::OwnSectorOf32Bits,
    M::LengthNotBelow,
    M::LengthNotAbove,
    M::LengthOf92Refused,
    M::LengthOf512Refused,
    M::SumOver92,
    M::SumOver512,
    M::SumFieldKept,
    M::HeaderSumIgnored,
    M::EntryLengthAny,
    M::EntryLengthMultiple,
    M::EntryLengthOf64,
    M::EntryLengthOf128Alone,
    M::ArrayEndIgnored,
    M::ArrayEndByOne,
    M::ProductsWrap,
    M::ArraySumIgnored,
    M::ArrayAtTwo,
    M::BackupForgotten,
    M::BackupFirst,
    M::BackupAfterNoEntry,
    M::BackupBeforeTheLast,
    M::BackupInLastPart,
    M::FirstHalfOfType,
    M::SecondHalfOfType,
    M::LastOfType,
    M::NextWhereBad,
    M::StepOf128,
    M::OneMoreEntry,
    M::OneEntryLess,
    M::LastLeftOut,
    M::LastBeforeFirst,
    M::OneSectorRefused,
    M::EndByOne,
    M::EndNotTested,
    M::SumsWrap,
    M::Wiped,
    M::ShortFirst,
    M::ShortByOne,
];

type Found<T> = Result<T, i64>;

/// Bytes of the image, zeros past its end.
fn bytes(image: &[u8], at: u64, n: u64) -> Vec<u8> {
    let end = image.len() as u64;
    (at..at.saturating_add(n.min(1 << 20))).map(|i| if i < end { image[i as usize] } else { 0 }).collect()
}

struct Stand<'a> {
    image: &'a [u8],
    m: Mistake,
}

#[derive(Clone, Copy)]
struct Table {
    start: u64,
    count: u64,
    length: u64,
}

impl Stand<'_> {
    fn has(&self, m: Mistake) -> bool {
        self.m == m
    }

    fn size(&self) -> u64 {
        self.image.len() as u64
    }

    fn header_sum(&self, at: u64, h: &[u8], length: u64) -> u32 {
        let length = match self.m {
            M::SumOver92 => 92,
            M::SumOver512 => 512,
            _ => length,
        };
        let mut b = bytes(self.image, at, length);
        if b.len() >= 20 && !self.has(M::SumFieldKept) {
            b[16..20].fill(0);
        }
        if self.has(M::HeaderSumIgnored) {
            return get32(h, 16);
        }
        crc32(&b)
    }

    fn header(&self, sector: u64, h: &[u8]) -> bool {
        let length = u64::from(get32(h, 12));
        let own = get64(h, 24);
        let least = if self.has(M::LengthOf92Refused) { 93 } else { 92 };
        let most = if self.has(M::LengthOf512Refused) { 511 } else { 512 };
        let signed = match self.m {
            M::SignatureIgnored => true,
            M::SignatureOfFourBytes => h[..4] == *b"EFI ",
            _ => h[..8] == *b"EFI PART",
        };
        let owned = match self.m {
            M::OwnSectorIgnored => true,
            M::OwnSectorOf32Bits => own as u32 == sector as u32,
            _ => own == sector,
        };
        signed
            && owned
            && (length >= least || self.has(M::LengthNotBelow))
            && (length <= most || self.has(M::LengthNotAbove))
            && self.header_sum(sector * SECTOR, h, length) == get32(h, 16)
    }

    fn is_entry_length(&self, n: u64) -> bool {
        match self.m {
            M::EntryLengthAny => n > 0,
            M::EntryLengthMultiple => n > 0 && n.is_multiple_of(128),
            M::EntryLengthOf64 => n >= 64 && n.count_ones() == 1,
            M::EntryLengthOf128Alone => n == 128,
            _ => n >= 128 && n.count_ones() == 1,
        }
    }

    fn table(&self, sector: u64) -> Option<Table> {
        let h = bytes(self.image, sector * SECTOR, SECTOR);
        let lba = if self.has(M::ArrayAtTwo) { 2 } else { get64(&h, 72) };
        let (count, length) = (u64::from(get32(&h, 80)), u64::from(get32(&h, 84)));
        if !self.header(sector, &h) || !self.is_entry_length(length) {
            return None;
        }
        let wraps = self.has(M::ProductsWrap);
        let start = if wraps { Some(lba.wrapping_mul(SECTOR)) } else { lba.checked_mul(SECTOR) }?;
        let end = if wraps { Some(start.wrapping_add(count * length)) } else { start.checked_add(count * length) }?;
        let limit = self.size() + u64::from(self.has(M::ArrayEndByOne));
        if end > limit && !self.has(M::ArrayEndIgnored) {
            return None;
        }
        let sound = crc32(&bytes(self.image, start, count * length)) == get32(&h, 88);
        (sound || self.has(M::ArraySumIgnored)).then_some(Table { start, count, length })
    }

    fn is_apfs(&self, entry: &[u8]) -> bool {
        let halves = [get64(entry, 0) == APFS[0], get64(entry, 8) == APFS[1]];
        match self.m {
            M::FirstHalfOfType => halves[0],
            M::SecondHalfOfType => halves[1],
            _ => halves[0] && halves[1],
        }
    }

    fn place(&self, entry: &[u8]) -> Found<(u64, u64)> {
        let (first, last) = (get64(entry, 32), get64(entry, 40));
        let backwards = if self.has(M::OneSectorRefused) { last <= first } else { last < first };
        if backwards && !self.has(M::LastBeforeFirst) {
            return Err(12);
        }
        let whole = self.size() / SECTOR;
        let past = match self.m {
            M::EndNotTested => false,
            M::EndByOne => last > whole,
            M::SumsWrap => last.wrapping_add(1).wrapping_mul(SECTOR) > self.size(),
            _ => last >= whole,
        };
        let sectors =
            if self.has(M::LastLeftOut) { last.wrapping_sub(first) } else { last.wrapping_sub(first).wrapping_add(1) };
        if past {
            return Err(12);
        }
        Ok((first.wrapping_mul(SECTOR), sectors.wrapping_mul(SECTOR)))
    }

    fn entry(&self, t: Table) -> Found<(u64, u64)> {
        let count = match self.m {
            M::OneMoreEntry => t.count + 1,
            M::OneEntryLess => t.count.saturating_sub(1),
            _ => t.count,
        };
        let step = if self.has(M::StepOf128) { 128 } else { t.length };
        let mut found = Err(12);
        for i in 0..count.min(1 << 12) {
            let entry = bytes(self.image, t.start + i * step, 128);
            if self.is_apfs(&entry) {
                found = self.place(&entry);
                let goes_on = self.has(M::LastOfType) || self.has(M::NextWhereBad) && found.is_err();
                if !goes_on {
                    return found;
                }
            }
        }
        found
    }

    fn backup(&self) -> u64 {
        match self.m {
            M::BackupBeforeTheLast => self.size() / SECTOR - 2,
            M::BackupInLastPart => self.size().div_ceil(SECTOR) - 1,
            _ => self.size() / SECTOR - 1,
        }
    }

    fn part(&self) -> Found<(u64, u64)> {
        let short = self.size() < 4096;
        let skips = self.size() >= 36 && self.image[32..36] == *b"NXSB" && !self.has(M::SkipForgotten);
        if skips && (self.has(M::SkipBeforeShort) || !short) {
            return Ok((0, self.size()));
        }
        if short && !self.has(M::ShortLast) || self.size() < 1024 {
            return Err(1);
        }
        let (primary, backup) = (self.table(1), self.table(self.backup()));
        let table = match self.m {
            M::BackupForgotten => primary,
            M::BackupFirst => backup.or(primary),
            _ => primary.or(backup),
        };
        let table = table.ok_or(if self.has(M::FourForEleven) { 4 } else { 11 })?;
        match self.entry(table) {
            Err(_) if self.has(M::BackupAfterNoEntry) => backup.map_or(Err(12), |t| self.entry(t)),
            Err(_) if self.has(M::ElevenForTwelve) => Err(11),
            found => found,
        }
    }
}

/// `apfs_part` as the page has it.
fn part(image: &[u8], out: &mut [u8], m: Mistake) -> i64 {
    if m == M::ShortFirst && out.is_empty() {
        return -6;
    }
    let (offset, length) = match (Stand { image, m }).part() {
        Ok(part) => part,
        Err(number) => {
            if m == M::Wiped {
                out.fill(0);
            }
            return -number;
        }
    };
    fill(&format!("(part {offset} {length})\n"), out, m)
}

fn fill(text: &str, out: &mut [u8], m: Mistake) -> i64 {
    if text.len() + usize::from(m == M::ShortByOne) > out.len() {
        return -6;
    }
    out[..text.len()].copy_from_slice(text.as_bytes());
    text.len() as i64
}

/// All else is the oracle's.
fn open(image: &[u8], out: &mut [u8]) -> i64 {
    match answer::of_image(&Image::of(image.to_vec())) {
        Answer::Text(text) => fill(&text, out, M::None),
        Answer::Refused(n) => -(n as i64),
        Answer::Overflow | Answer::Panic(_) => ANY,
    }
}

fn call(image: &[u8], volume: u64, call: &Call, out: &mut [u8]) -> i64 {
    match expected::of_image(&Image::of(image.to_vec()), volume, call).answer {
        expected::Answer::Bytes(_) => by_oracle::call(image, volume, call, out),
        expected::Answer::Refused(n) => -(n as i64),
        expected::Answer::Any | expected::Answer::Panic(_) => ANY,
    }
}

/// A part in place of which a mark is held against the whole image.
type Ground = fn(&[u8], &[u8]) -> Vec<u8>;

/// The image itself, or the part as long as the image.
const GROUNDS: [Ground; 2] =
    [|image, _| image.to_vec(), |image, part| [part, &vec![0; image.len() - part.len()][..]].concat()];

fn marked_on(ground: Ground, image: &[u8], volume: u64, asked: &Call, out: &mut [u8]) -> i64 {
    let opened = answer::opened(&Image::of(image.to_vec()));
    let (Call::Marked { mark }, Some((part, c))) = (asked, opened) else { return call(image, volume, asked, out) };
    match record(&ground(image, &part), c.block_size().into(), mark) {
        Ok(record) => fill(&record.line(), out, M::None),
        Err(n) => -(n as i64),
    }
}

/// The oracle's overflows are caught and counted; their messages need not be printed.
fn silence_overflows() {
    let usual = std::panic::take_hook();
    std::panic::set_hook(Box::new(move |info| {
        if !info.to_string().ends_with("with overflow") {
            usual(info);
        }
    }));
}

const LISTS: list::Ports = list::Ports { list: &by_oracle::list, measure: &by_oracle::measure };

fn run(m: Mistake) -> Run {
    silence_overflows();
    let told = |image: &[u8], out: &mut [u8]| part(image, out, m);
    Run::over(7, ENOUGH, Some(Ports { part: &told, open: &open, call: &call, list: LISTS }))
}

#[test]
fn no_mistake_none_found() {
    let run = run(M::None);
    assert_eq!(run.failure.map(|f| (f.place, f.kinds, f.words)), None);
    assert_eq!(run.tally.missing(), Vec::<String>::new());
}

#[test]
fn every_mistake_is_found() {
    let missed: Vec<Mistake> = ALL.into_iter().filter(|&m| run(m).failure.is_none()).collect();
    assert_eq!(missed, []);
}

#[test]
fn marks_held_against_the_whole_image_are_found() {
    silence_overflows();
    for ground in GROUNDS {
        let call = |image: &[u8], volume: u64, call: &Call, out: &mut [u8]| marked_on(ground, image, volume, call, out);
        let told = |image: &[u8], out: &mut [u8]| part(image, out, M::None);
        let run = Run::over(7, ENOUGH, Some(Ports { part: &told, open: &open, call: &call, list: LISTS }));
        assert!(run.failure.is_some_and(|f| f.words.contains("record marked by")));
    }
}

#[test]
fn a_vast_image_is_told_from_one_at_the_bound() {
    let right = |image: &[u8], _: &mut [u8]| if image.len() > 1 << 34 { -7 } else { -11 };
    let Some(agreed) = vast(&right).expect("no mistake") else { return };
    assert_eq!(agreed, 2);
    assert!(vast(&|_, _| -11).is_err());
    assert!(vast(&|image, _| if image.len() > 1 << 34 { -7 } else { -4 }).is_err());
}
