//! Opening written down from document 01 alone, in the part that document 02 tells, with a mistake or without.

use sticks::block::{get16, get32, get64, is_sealed};
use sticks::gpt::expected_part;

#[derive(Clone, Copy, Debug, PartialEq, Eq)]
pub enum Mistake {
    None,
    BlockZeroChecksum,
    BlockZeroFeatures,
    RingOfCandidate,
    MapsInRingOfBlockZero,
    IndexNotTurned,
    LengthNotLessOne,
    LastFlagIgnored,
    MapXidIgnored,
    MapKindIgnored,
    MapChecksumIgnored,
    MapCountIgnored,
    MapCountByOne,
    LastOfEqual,
    SmallestXid,
    MagicIgnored,
    CandidateChecksumIgnored,
    CandidateKindWhole,
    CountOfCandidate,
    ZerosKept,
    SlotsPast100,
    SlotsOfBlockZero,
    Fusion,
    Version1,
    MapKindWhole,
    ObjectMapChecksum,
    TreeTypeWhole,
    HashedLast,
    HashedTaken,
    RootNotAsked,
    RootFree,
    LeafAbove,
    Level32,
    Level33,
    KeySize,
    TreeFlag,
    AddressZero,
    AddressCount,
    EmptyRing,
    TreeBit,
    RestOfBlockZero,
    ShortFirst,
    ShortByOne,
    OnePast,
    Wiped,
}

use Mistake as M;

pub struct Stand<'a> {
    image: &'a [u8],
    m: Mistake,
    size: u64,
    count: u64,
    ring: u64,
    base: u64,
}

pub type Answer<T> = Result<T, i64>;

fn test(good: bool, refusal: i64) -> Answer<()> {
    if good {
        Ok(())
    } else {
        Err(-refusal)
    }
}

impl Stand<'_> {
    fn has(&self, m: Mistake) -> bool {
        self.m == m
    }

    fn part(&self, at: u64, n: u64) -> Answer<&[u8]> {
        let end = at.checked_add(n).ok_or(-1)?;
        self.image.get(at as usize..end as usize).filter(|_| end <= self.image.len() as u64).ok_or(-1)
    }

    fn block(&self, at: u64) -> Answer<&[u8]> {
        let low = at == 0 && !self.has(M::AddressZero);
        let high = at >= self.count + u64::from(self.has(M::AddressCount));
        test(!low && !high, 2)?;
        self.part(at.checked_mul(self.size).ok_or(-8)?, self.size)
    }

    fn object(&self, at: u64) -> Answer<&[u8]> {
        let b = self.block(at)?;
        test(is_sealed(b) || self.has(M::ObjectMapChecksum), 2)?;
        Ok(b)
    }

    /// Ring blocks that are superblocks, in ring order.
    pub fn candidates(&self) -> Answer<Vec<&[u8]>> {
        let start = self.base.checked_mul(self.size).ok_or(-8)?;
        let area = self.part(start, self.ring * self.size)?;
        let kind =
            |b: &[u8]| if self.has(M::CandidateKindWhole) { get32(b, 24) ^ 0x8000_0000 } else { get32(b, 24) & 0xffff };
        let good = |b: &[u8]| {
            kind(b) == 1
                && (b[32..36] == *b"NXSB" || self.has(M::MagicIgnored))
                && (is_sealed(b) || self.has(M::CandidateChecksumIgnored))
        };
        Ok(area.chunks(self.size as usize).filter(|b| good(b)).collect())
    }

    pub fn accepted(&self, sb: &[u8]) -> bool {
        let length = u64::from(get32(sb, 140));
        let maps = if self.has(M::LengthNotLessOne) { length } else { length.saturating_sub(1) };
        let ring = if self.has(M::RingOfCandidate) { u64::from(get32(sb, 104)).max(1) } else { self.ring };
        for k in 0..maps.min(ring) {
            let place = u64::from(get32(sb, 136)) + k;
            let place = if self.has(M::IndexNotTurned) { place } else { place % ring };
            let base = if self.has(M::MapsInRingOfBlockZero) { self.base } else { get64(sb, 112) };
            let Some(at) = base.checked_add(place) else { return false };
            let Ok(map) = self.block(at) else { return false };
            if !self.map(map, sb) {
                return false;
            }
            if get32(map, 32) & 1 != 0 && !self.has(M::LastFlagIgnored) {
                return true;
            }
        }
        true
    }

    fn map(&self, map: &[u8], sb: &[u8]) -> bool {
        let count = u64::from(get32(map, 36)) + if self.has(M::MapCountByOne) { 1 } else { 0 };
        (is_sealed(map) || self.has(M::MapChecksumIgnored))
            && (get32(map, 24) & 0xffff == 0xc || self.has(M::MapKindIgnored))
            && (get64(map, 16) == get64(sb, 16) || self.has(M::MapXidIgnored))
            && (40 + count * 40 <= self.size || self.has(M::MapCountIgnored))
    }

    fn chosen(&self) -> Answer<&[u8]> {
        let mut best: Option<&[u8]> = None;
        for sb in self.candidates()? {
            let better = best.is_none_or(|b| {
                let (new, old) = (get64(sb, 16), get64(b, 16));
                let equal = new == old && self.has(M::LastOfEqual);
                equal || if self.has(M::SmallestXid) { new < old } else { new > old }
            });
            if better && self.accepted(sb) {
                best = Some(sb);
            }
        }
        best.ok_or(-2)
    }

    fn node(&self, at: u64) -> Answer<&[u8]> {
        let b = self.object(at)?;
        test(matches!(get32(b, 24) & 0xffff, 2 | 3), 2)?;
        let flags = get16(b, 32);
        let hashed = flags & 8 != 0 && !self.has(M::HashedTaken);
        let end = self.size - if flags & 1 != 0 && !self.has(M::RootFree) { 40 } else { 0 };
        let keys = 56 + u64::from(get16(b, 40)) + u64::from(get16(b, 42));
        let highest = if self.has(M::Level32) { 31 } else { 32 } + u16::from(self.has(M::Level33));
        let level = get16(b, 34);
        let low = !self.has(M::LeafAbove) || flags & 2 == 0 || level == 0;
        let layout = keys <= end && level <= highest && low;
        if self.has(M::HashedLast) {
            test(layout, 2)?;
        }
        test(!hashed, 3)?;
        test(layout, 2)?;
        Ok(b)
    }

    fn object_map(&self, at: u64) -> Answer<()> {
        let b = self.object(at)?;
        let mask = if self.has(M::MapKindWhole) { u32::MAX } else { 0xffff };
        test(get32(b, 24) & mask == 0xb | 0x4000_0000 & mask, 2)?;
        let mask = if self.has(M::TreeTypeWhole) { u32::MAX } else { 0xc000_0000 };
        test(get32(b, 40) & mask == 0x4000_0002 & mask, 3)?;
        let root = self.node(get64(b, 48))?;
        test(get16(root, 32) & 1 != 0 || self.has(M::RootNotAsked), 2)?;
        let info = &root[root.len() - 40..];
        test(get32(info, 0) & 0x10 != 0 || self.has(M::TreeFlag), 2)?;
        test((get32(info, 8), get32(info, 12)) == (16, 16) || self.has(M::KeySize), 2)
    }

    fn text(&self, sb: &[u8]) -> String {
        let slots = if self.has(M::SlotsOfBlockZero) { self.image } else { sb };
        let most = if self.has(M::SlotsPast100) { 200 } else { 100 };
        let n = (get32(slots, 180) as usize).min(most);
        let count = if self.has(M::CountOfCandidate) { get64(sb, 40) } else { self.count };
        let mut t = format!("(container {} {count} {}", self.size, get64(sb, 16));
        for oid in (0..n).map(|i| get64(slots, 184 + 8 * i)).filter(|&o| o != 0 || self.has(M::ZerosKept)) {
            t += &format!(" {oid}");
        }
        t + ")\n"
    }

    fn open(&self) -> Answer<String> {
        self.open_of(self.chosen()?)
    }

    /// What comes after the choice of a superblock.
    pub fn open_of(&self, sb: &[u8]) -> Answer<String> {
        let features = if self.has(M::BlockZeroFeatures) { get64(self.image, 64) } else { get64(sb, 64) };
        test(features & 0x1 == 0 || self.has(M::Version1), 3)?;
        test(features & 0x100 == 0 || self.has(M::Fusion), 3)?;
        self.object_map(get64(sb, 160))?;
        Ok(self.text(sb))
    }
}

/// What block 0 gives of the image's part.
pub fn stand(image: &[u8], m: Mistake) -> Answer<Stand<'_>> {
    let (start, length) = expected_part(image).map_err(|n| -i64::from(n))?;
    let image = &image[start..start + length];
    let first = image.get(..4096).ok_or(-1)?;
    test(first[32..36] == *b"NXSB", 4)?;
    let size = u64::from(get32(first, 36));
    test((4096..=65536).contains(&size) && size.count_ones() == 1, 2)?;
    test(image.len() as u64 >= size || m == M::RestOfBlockZero, 1)?;
    test(m != M::BlockZeroChecksum || is_sealed(&image[..size as usize]), 2)?;
    let ring = get32(first, 104);
    test(ring >> 31 == 0 || m == M::TreeBit, 3)?;
    test(ring != 0 || m != M::EmptyRing, 2)?;
    Ok(Stand { image, m, size, count: get64(first, 40), ring: ring.into(), base: get64(first, 112) })
}

/// The call on buffers, as document 01 and the design have it.
pub fn apfs_open(image: &[u8], out: &mut [u8], m: Mistake) -> i64 {
    if m == M::ShortFirst && out.is_empty() {
        return -6;
    }
    let text = match stand(image, m).and_then(|s| s.open()) {
        Ok(text) => text,
        Err(number) => {
            if m == M::Wiped {
                out.fill(0);
            }
            return number;
        }
    };
    let needed = text.len() + usize::from(m == M::ShortByOne);
    if needed > out.len() {
        return -6;
    }
    out[..text.len()].copy_from_slice(text.as_bytes());
    if m == M::OnePast && out.len() > text.len() {
        out[text.len()] = 0;
    }
    text.len() as i64
}

/// Every one of them.
pub const ALL: [Mistake; 44] = [
    M::BlockZeroChecksum,
    M::BlockZeroFeatures,
    M::RingOfCandidate,
    M::MapsInRingOfBlockZero,
    M::IndexNotTurned,
    M::LengthNotLessOne,
    M::LastFlagIgnored,
    M::MapXidIgnored,
    M::MapKindIgnored,
    M::MapChecksumIgnored,
    M::MapCountIgnored,
    M::MapCountByOne,
    M::LastOfEqual,
    M::SmallestXid,
    M::MagicIgnored,
    M::CandidateChecksumIgnored,
    M::CandidateKindWhole,
    M::CountOfCandidate,
    M::ZerosKept,
    M::SlotsPast100,
    M::SlotsOfBlockZero,
    M::Fusion,
    M::Version1,
    M::MapKindWhole,
    M::ObjectMapChecksum,
    M::TreeTypeWhole,
    M::HashedLast,
    M::HashedTaken,
    M::RootNotAsked,
    M::RootFree,
    M::LeafAbove,
    M::Level32,
    M::Level33,
    M::KeySize,
    M::TreeFlag,
    M::AddressZero,
    M::AddressCount,
    M::EmptyRing,
    M::TreeBit,
    M::RestOfBlockZero,
    M::ShortFirst,
    M::ShortByOne,
    M::OnePast,
    M::Wiped,
];
