//! Inodes, directory entries, attributes and extents, from their records.

use sticks::block::{get16, get32, get64};

use super::mistake::Mistake as M;
use super::{test, Answer, Stand};

pub struct Inode {
    pub id: u64,
    /// From the parent to the internal flags.
    pub head: [u64; 7],
    pub links: u32,
    pub bsd: u32,
    pub owner: u32,
    pub group: u32,
    pub mode: u16,
    pub name: Option<String>,
    /// The name's bytes.
    pub stored: Option<Vec<u8>>,
    /// Size and allocated size.
    pub stream: Option<(u64, u64)>,
}

pub struct Entry {
    pub id: u64,
    pub date: u64,
    pub kind: u16,
    pub name: String,
    /// The name's bytes.
    pub stored: Vec<u8>,
}

pub enum Data {
    Embedded(Vec<u8>),
    Stream { id: u64, size: u64 },
}

pub struct Attribute {
    pub name: String,
    /// The name's bytes.
    pub stored: Vec<u8>,
    pub flags: u16,
    pub data: Data,
}

impl Attribute {
    pub fn size(&self) -> u64 {
        match &self.data {
            Data::Embedded(b) => b.len() as u64,
            Data::Stream { size, .. } => *size,
        }
    }
}

#[derive(Clone, Copy)]
pub struct Extent {
    pub logical: u64,
    pub length: u64,
    pub block: u64,
}

fn text(b: &[u8], whole: bool) -> String {
    let end = b.iter().position(|&c| c == 0 && !whole).unwrap_or(b.len());
    String::from_utf8_lossy(&b[..end]).into_owned()
}

fn part(b: &[u8], at: usize, n: usize) -> Answer<&[u8]> {
    b.get(at..at + n).ok_or(2)
}

/// A directory key as the Rust tells its form.
fn by_length(key: &[u8]) -> Answer<&[u8]> {
    let hashed = 12 + (get32(part(key, 8, 4)?, 0) & 0x3ff) as usize;
    let plain = 10 + usize::from(get16(key, 8));
    match key.len() {
        n if n == hashed => Ok(&key[12..]),
        n if n == plain => Ok(&key[10..]),
        _ => Err(2),
    }
}

impl Inode {
    pub fn is_packed(&self) -> bool {
        self.bsd & 0x20 != 0
    }

    pub fn size(&self) -> u64 {
        self.stream.map_or(0, |s| s.0)
    }
}

impl Stand<'_> {
    pub fn inode(&self, id: u64) -> Answer<Inode> {
        let mut found = None;
        self.records(id, 3, &mut |_, v| {
            found = Some(self.inode_of(id, v)?);
            Ok(self.has(M::LastInode))
        })?;
        found.ok_or(4)
    }

    fn inode_of(&self, id: u64, v: &[u8]) -> Answer<Inode> {
        let mut long = v.to_vec();
        if self.has(M::ShortInodeTaken) {
            long.resize(v.len().max(82), 0);
        }
        let b = part(&long, 0, 82)?;
        let mut head = [0; 7];
        (0..7).for_each(|i| head[i] = get64(b, 8 * i));
        let mut inode = Inode {
            id,
            head,
            links: get32(b, 56),
            bsd: get32(b, 68),
            owner: get32(b, 72),
            group: get32(b, 76),
            mode: get16(b, 80),
            name: None,
            stored: None,
            stream: None,
        };
        self.fields(v.get(if self.has(M::FieldsAt82) { 82 } else { 92 }..).unwrap_or(&[]), &mut inode)?;
        Ok(inode)
    }

    fn fields(&self, b: &[u8], inode: &mut Inode) -> Answer<()> {
        if b.len() < 4 {
            return Ok(());
        }
        let count = usize::from(get16(b, 0));
        let mut at = 4 + 4 * count;
        let mut met = Vec::new();
        for i in 0..count {
            let head = part(b, 4 + 4 * i, 4)?;
            let size = usize::from(get16(head, 2));
            let data = match part(b, at, size) {
                Err(_) if self.has(M::FieldPastEndDropped) => break,
                data => data?,
            };
            met.push((head[0], data));
            at += if self.has(M::FieldsUnrounded) { size } else { size.next_multiple_of(8) };
        }
        for (kind, data) in met {
            self.field(kind, data, inode)?;
        }
        Ok(())
    }

    fn field(&self, kind: u8, data: &[u8], inode: &mut Inode) -> Answer<()> {
        let first = self.has(M::FirstCopyCounts);
        match kind {
            4 if !(first && inode.name.is_some()) => {
                let name = text(data, self.has(M::NameToTheEnd));
                inode.name = Some(name).filter(|n| !n.is_empty() || !self.has(M::EmptyNameAbsent));
                if inode.stored.is_none() || !self.has(M::NumberOfFirstCopy) {
                    inode.stored = Some(data.to_vec());
                }
            }
            8 if !(first && inode.stream.is_some()) => {
                let b = part(data, 0, if self.has(M::StreamNeeds40) { 40 } else { 16 })?;
                inode.stream = Some((get64(b, 0), get64(b, 8)));
            }
            _ => {}
        }
        Ok(())
    }

    /// The whole list.
    pub fn entries(&self, id: u64) -> Answer<Vec<Entry>> {
        self.entries_while(id, &|_| true)
    }

    /// As much of the list as a port needs that does not read it whole.
    pub fn entries_while(&self, id: u64, on: &dyn Fn(&[Entry]) -> bool) -> Answer<Vec<Entry>> {
        let mut out = Vec::new();
        self.records(id, 9, &mut |k, v| {
            let stored = self.entry_name(k)?;
            let name = text(stored, self.has(M::NameToTheEnd));
            let b = part(v, 0, 18)?;
            let mask = if self.has(M::KindOf16Bits) { 0xffff } else { 0xf };
            let stored = stored.to_vec();
            out.push(Entry { id: get64(b, 0), date: get64(b, 8), kind: get16(b, 16) & mask, name, stored });
            Ok(on(&out))
        })?;
        Ok(out)
    }

    fn has_hashed_keys(&self) -> bool {
        let rule = self.v.name_rule();
        let norm = rule.normalization_insensitive && !self.has(M::HashedByCase);
        let hashed = rule.case_insensitive || norm || self.has(M::HashedAlone);
        hashed != self.has(M::FormsSwapped)
    }

    fn entry_name<'k>(&self, key: &'k [u8]) -> Answer<&'k [u8]> {
        if self.has(M::ToldByLength) {
            return by_length(key);
        }
        let hashed = self.has_hashed_keys();
        test(hashed || key.len() >= 12 || !self.has(M::ShortKeyRefused), 2)?;
        let mask = match self.m {
            M::LengthOf11Bits => 0x7ff,
            M::LengthOf16Bits => 0xffff,
            _ => 0x3ff,
        };
        let (start, count) = match hashed {
            true => (12, get32(part(key, 8, 4)?, 0) & mask),
            false => (10, get16(part(key, 8, 2)?, 0).into()),
        };
        let length = start + count as usize;
        let well = match self.m {
            M::LengthAtMost => length <= key.len(),
            M::LengthAtLeast => length >= key.len(),
            _ => length == key.len(),
        };
        test(well, 2)?;
        Ok(&key[if self.has(M::PlainFrom12) { key.len().min(12) } else { start }..])
    }

    pub fn attributes(&self, id: u64) -> Answer<Vec<Attribute>> {
        if self.has(M::AttributeWantsInode) {
            self.inode(id)?;
        }
        let mut out = Vec::new();
        self.records(id, 4, &mut |k, v| {
            let n = usize::from(get16(part(k, 8, 2)?, 0));
            let head = part(v, 0, 4)?;
            let length = if self.has(M::LengthIgnored) { v.len() - 4 } else { get16(head, 2).into() };
            let (flags, data) = (get16(head, 0), part(v, 4, length)?);
            let is_stream = flags & if self.has(M::StreamByFlag2) { 2 } else { 1 } != 0;
            let data = if is_stream { self.stream_of(data)? } else { Data::Embedded(data.to_vec()) };
            let stored = part(k, 10, n)?.to_vec();
            out.push(Attribute { name: text(&stored, self.has(M::AttributeToTheEnd)), stored, flags, data });
            Ok(true)
        })?;
        Ok(out)
    }

    fn stream_of(&self, b: &[u8]) -> Answer<Data> {
        let b = part(b, 0, if self.has(M::StreamNeeds48) { 48 } else { 16 })?;
        Ok(Data::Stream { id: get64(b, 0), size: get64(b, 8) })
    }

    pub fn extents(&self, id: u64) -> Answer<Vec<Extent>> {
        let mut out = Vec::new();
        self.records(id, 8, &mut |k, v| {
            let (k, v) = (part(k, 8, 8)?, part(v, 0, 16)?);
            let mask = if self.has(M::LengthUnmasked) { u64::MAX } else { (1 << 56) - 1 };
            out.push(Extent { logical: get64(k, 0), length: get64(v, 0) & mask, block: get64(v, 8) });
            Ok(true)
        })?;
        Ok(out)
    }
}
