//! What files, attributes and links hold.

use oracle::probe;

use super::mistake::Mistake as M;
use super::records::{Attribute, Data, Entry, Extent};
use super::{test, Answer, Stand};

/// No buffer here is longer.
pub const LONGEST: u64 = 1 << 23;

impl Stand<'_> {
    pub fn block_size(&self) -> u64 {
        self.c.block_size().into()
    }

    pub fn entry(&self, id: u64, place: u64) -> Answer<Vec<u8>> {
        let list = self.entries_while(id, &|l| !self.has(M::EntryAlone) || l.len() as u64 <= place)?;
        let Some(e) = list.get(place.min(1 << 40) as usize) else { return Ok(Vec::new()) };
        Ok(self.entry_line(e).into_bytes())
    }

    pub fn entry_line(&self, e: &Entry) -> String {
        format!("(entry {} {} {} {}\n", e.id, e.date, e.kind, self.hex(e.name.as_bytes()))
    }

    /// As many whole lines as fit.
    pub fn entries_from(&self, id: u64, place: u64, room: usize) -> Answer<Vec<u8>> {
        let skip = if self.has(M::EntriesFromTheFirst) { 0 } else { place.min(1 << 40) as usize };
        let over = |l: &[Entry]| l.iter().skip(skip).map(|e| self.entry_line(e).len()).sum::<usize>() > room;
        let list = self.entries_while(id, &|l| !self.has(M::EntriesThatFitAlone) || !over(l))?;
        let lines: Vec<String> = list.iter().skip(skip).map(|e| self.entry_line(e)).collect();
        let mut out = Vec::new();
        for line in &lines {
            if out.len() + line.len() + usize::from(self.has(M::EntriesByOne)) <= room {
                out.extend(line.bytes());
            } else if self.has(M::EntriesPassedOver) {
                continue;
            } else if self.has(M::EntriesCut) {
                out.extend(line.bytes().take(room - out.len()));
                break;
            } else {
                test(!self.has(M::EntriesAllOrNone), 6)?;
                break;
            }
        }
        test(lines.is_empty() || !out.is_empty() || self.has(M::EntriesShortAsNone), 6)?;
        Ok(out)
    }

    pub fn extent(&self, id: u64, place: u64) -> Answer<Vec<u8>> {
        let inode = self.inode(id)?;
        test(!inode.is_packed() || self.has(M::PackedExtents), 3)?;
        let list = self.extents(if self.has(M::ExtentsOfId) { id } else { inode.head[1] })?;
        let Some(e) = list.get(place.min(1 << 40) as usize) else { return Ok(Vec::new()) };
        Ok(format!("(extent {} {} {})\n", e.logical, e.length, e.block).into_bytes())
    }

    pub fn xattr(&self, id: u64, place: u64) -> Answer<Vec<u8>> {
        let list = self.attributes(id)?;
        let Some(a) = list.get(place.min(1 << 40) as usize) else { return Ok(Vec::new()) };
        let (data, size) = self.contents(a)?;
        test(size <= LONGEST, 6)?;
        let form = match &a.data {
            Data::Embedded(_) => "e".to_string(),
            Data::Stream { id, .. } => format!("s {id}"),
        };
        Ok(format!("(attr {} {} {form} {})\n", a.flags, self.hex(a.name.as_bytes()), self.hex(&data)).into_bytes())
    }

    pub fn xattr_bytes(&self, id: u64, place: u64, room: usize) -> Answer<Vec<u8>> {
        let list = self.attributes(id)?;
        let Some(a) = list.get(place.min(1 << 40) as usize) else { return Ok(Vec::new()) };
        test(!self.has(M::BytesShortBeforeFaults) || a.size() <= room as u64, 6)?;
        let (mut data, size) = self.contents(a)?;
        test(size <= LONGEST, 6)?;
        if self.has(M::BytesToZero) {
            data.truncate(data.iter().position(|&b| b == 0).unwrap_or(data.len()));
        }
        if self.has(M::BytesThatFit) {
            data.truncate(room);
        }
        if self.has(M::BytesAsText) {
            data = String::from_utf8_lossy(&data).into_owned().into_bytes();
        }
        Ok(data)
    }

    /// The attribute of a link's text.
    pub fn target(&self, id: u64) -> Answer<Attribute> {
        if !self.has(M::LinkWithoutInode) {
            self.inode(id)?;
        }
        let mut list = self.attributes(id)?;
        if self.has(M::LastLink) {
            list.reverse();
        }
        let name = "com.apple.fs.symlink";
        let is_link = |a: &Attribute| a.name == name || self.has(M::LinkByStart) && a.name.starts_with("com.apple.");
        list.into_iter().find(is_link).ok_or(2)
    }

    pub fn link(&self, id: u64) -> Answer<Vec<u8>> {
        let (data, _) = self.contents(&self.target(id)?)?;
        let end = data.iter().position(|&b| b == 0 && !self.has(M::LinkToTheEnd)).unwrap_or(data.len());
        if self.has(M::LinkOfBytes) {
            return Ok(data[..end].to_vec());
        }
        Ok(String::from_utf8_lossy(&data[..end]).into_owned().into_bytes())
    }

    /// The bytes, or the first of many, and how many there are.
    pub fn contents(&self, a: &Attribute) -> Answer<(Vec<u8>, u64)> {
        match &a.data {
            Data::Embedded(b) => Ok((b.clone(), b.len() as u64)),
            Data::Stream { id, size } => Ok((self.stream(&self.extents(*id)?, *size)?, *size)),
        }
    }

    fn stream(&self, extents: &[Extent], size: u64) -> Answer<Vec<u8>> {
        let (bs, mut out, mut pos) = (self.block_size(), vec![0; size.min(LONGEST) as usize], 0);
        for e in extents {
            if pos >= size && !self.has(M::StreamChecksLast) {
                break;
            }
            test(e.logical >= pos || self.has(M::OverlapTaken), 2)?;
            pos = if self.has(M::StreamGapsClosed) { pos } else { e.logical.min(size) };
            let want = e.length.min(size - pos);
            if e.block != 0 {
                let end = e.block.checked_add(e.length.div_ceil(bs)).ok_or(8)?;
                test(end <= probe::block_count(self.c) || self.has(M::StreamPastCount), 2)?;
                let stored = self.stored(e.block, 0, want)?;
                let start = pos.min(out.len() as u64) as usize;
                let n = stored.len().min(out.len() - start);
                out[start..start + n].copy_from_slice(&stored[..n]);
            }
            pos += want;
        }
        if self.has(M::StreamEndsWithExtents) {
            out.truncate(pos as usize);
        }
        Ok(out)
    }

    /// `n` bytes at `skip` from a block on, whose whole blocks lie in the image.
    pub fn stored(&self, block: u64, skip: u64, n: u64) -> Answer<&[u8]> {
        if n == 0 {
            return Ok(&[]);
        }
        let bs = self.block_size();
        let first = block.checked_add(skip / bs).and_then(|b| b.checked_mul(bs)).ok_or(8)?;
        let end = first.checked_add((skip % bs + n).next_multiple_of(bs));
        let part = if self.has(M::PartBlocksRead) { first.checked_add(skip % bs + n) } else { end };
        test(part.is_some_and(|end| end <= self.part.len() as u64), 1)?;
        let at = (first + skip % bs) as usize;
        Ok(&self.part[at..at + n as usize])
    }

    pub fn read(&self, id: u64, offset: u64, buffer: &[u8]) -> Answer<Vec<u8>> {
        let inode = self.inode(id)?;
        test(!inode.is_packed() || self.has(M::PackedRead), 3)?;
        let mut extents = self.extents(inode.head[1])?;
        if self.has(M::EmptyDropped) {
            extents.retain(|e| e.length > 0);
        }
        let ascends = extents.windows(2).all(|w| w[0].logical <= w[1].logical);
        test(ascends || self.has(M::DescendingTaken) || self.has(M::DescendingAfterSize), 2)?;
        let size = if self.has(M::SizeAllocated) { inode.stream.map_or(0, |s| s.1) } else { inode.size() };
        if offset >= size {
            return Ok(Vec::new());
        }
        test(ascends || self.has(M::DescendingTaken), 2)?;
        let length = (buffer.len() as u64).min(size - offset);
        let mut out = buffer[..length as usize].to_vec();
        if !self.has(M::NotZeroed) {
            out.fill(0);
        }
        let before = extents.iter().take_while(|e| e.logical <= offset).count();
        let first = if self.has(M::FromTheFirst) { 0 } else { before.saturating_sub(1) };
        for e in extents[first..].iter().take_while(|e| e.logical < offset + length) {
            self.copy(e, offset, &mut out)?;
        }
        Ok(out)
    }

    /// What the extent has of the bytes wanted from `offset` on.
    fn copy(&self, e: &Extent, offset: u64, out: &mut [u8]) -> Answer<()> {
        let end = e.logical.checked_add(e.length).ok_or(8)?;
        let (start, stop) = (offset.max(e.logical), end.min(offset + out.len() as u64));
        let touched = start < stop;
        if (!touched && !self.has(M::CountWhereUntouched)) || (e.block == 0 && !self.has(M::HolesRead)) {
            return Ok(());
        }
        let past = e.block.checked_add(e.length.div_ceil(self.block_size())).ok_or(8)?;
        test(past <= probe::block_count(self.c) || self.has(M::ReadPastCount), 2)?;
        if touched && !(self.has(M::RestOfExtentLost) && start > e.logical) {
            let stored = self.stored(e.block, start - e.logical, stop - start)?;
            out[(start - offset) as usize..(stop - offset) as usize].copy_from_slice(stored);
        }
        Ok(())
    }
}
