//! How many parts of names are replaced.

use super::mistake::Mistake as M;
use super::records::{Attribute, Data};
use super::{Answer, Stand};

fn parts(name: &[u8], size: impl Fn(&[u8]) -> usize) -> usize {
    name.utf8_chunks().map(|c| c.invalid()).filter(|part| !part.is_empty()).map(size).sum()
}

impl Stand<'_> {
    pub fn replaced(&self, kind: u64, id: u64, place: u64) -> Answer<Vec<u8>> {
        let place = place.min(1 << 40) as usize;
        let n = match kind {
            0 => Some(self.count(&self.v.sb.raw[704..960])),
            1 => self.inode(id)?.stored.map(|name| self.count(&name)),
            2 => {
                let list = self.entries_while(id, &|l| !self.has(M::NumberAlone) || l.len() <= place)?;
                list.get(place).map(|e| self.count(&e.stored))
            }
            3 => match self.attributes(id)?.get(place) {
                Some(a) if self.has(M::NumberOfContents) => self.contents(a).map(|_| Some(self.count(&a.stored)))?,
                a => a.map(|a| self.count(&a.stored)),
            },
            4 => Some(self.count_link(&self.target(id)?)?),
            _ if self.has(M::KindTaken) => return self.replaced(4, id, place as u64),
            _ => return Err(4),
        };
        let n = n.or(if self.has(M::NumberOfNoName) { Some(0) } else { None });
        Ok(n.map_or(Vec::new(), |n| format!("(replaced {n})\n").into_bytes()))
    }

    fn count(&self, field: &[u8]) -> usize {
        let end = field.iter().position(|&b| b == 0 && !self.has(M::NumberPastZero)).unwrap_or(field.len());
        let name = &field[..end];
        match self.m {
            M::NumberOfBytes => parts(name, <[u8]>::len),
            M::NumberOfTyped => String::from_utf8_lossy(name).matches('\u{fffd}').count(),
            M::NumberAtMostOne => parts(name, |_| 1).min(1),
            _ => parts(name, |_| 1),
        }
    }

    fn count_link(&self, a: &Attribute) -> Answer<usize> {
        let (data, _) = self.contents(a)?;
        match &a.data {
            _ if self.has(M::NumberOfLinksName) => Ok(self.count(&a.stored)),
            Data::Stream { id, .. } if self.has(M::NumberByExtent) => {
                let end = data.iter().position(|&b| b == 0).unwrap_or(data.len());
                let starts = self.extents(*id)?.into_iter().map(|e| (e.logical as usize).min(end));
                let cuts: Vec<usize> = starts.chain([end]).collect();
                Ok(cuts.windows(2).map(|w| self.count(&data[w[0]..w[1].max(w[0])])).sum())
            }
            _ => Ok(self.count(&data)),
        }
    }
}
