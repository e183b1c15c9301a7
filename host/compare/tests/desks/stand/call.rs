//! What a call on a volume reads.

use compare::calls::names;
use compare::calls::replaced;
use compare::desks::request::{self as what, Request};
use oracle::error::Result;
use oracle::fs::{DirEntry, NameRule, Xattr, XattrData};

use super::slip::Slip as S;
use super::source::corrupt;
use super::volume::Volume;

pub const ROOT: u64 = 2;
const NORMALIZATION_INSENSITIVE: u64 = 0x8;

impl Volume<'_> {
    /// Once more, where that is counted too.
    fn again<T>(&self, slip: S, f: impl Fn() -> Result<T>) -> Result<T> {
        let first = f()?;
        if self.has(slip) {
            f()?;
        }
        Ok(first)
    }

    pub fn called(&self, r: &Request) -> Result<()> {
        match r.what {
            what::LOOKUP => self.lookup(&r.path),
            what::READ | what::EXTENT => self.file(r),
            what::ENTRY | what::ENTRIES => {
                let n = if self.has(S::ElementAlone) { r.b.saturating_add(1) } else { u64::MAX };
                self.again(S::EntriesTwice, || self.first_entries(r.a, n)).map(|_| ())
            }
            what::XATTR | what::XATTR_BYTES => {
                let list = self.again(S::AttributesTwice, || self.attributes(r.a))?;
                let x = usize::try_from(r.b).ok().and_then(|i| list.get(i));
                x.map_or(Ok(()), |x| self.stream(x))
            }
            what::LINK => self.link(r.a),
            what::MARK => self.mark(r),
            _ => self.name(r),
        }
    }

    fn lookup(&self, path: &[u8]) -> Result<()> {
        let early = if self.has(S::RootBeforeFive) { Some(self.inode(ROOT)?) } else { None };
        let path = std::str::from_utf8(path).map_err(|_| corrupt("not UTF-8"))?;
        let mut at = early.map_or_else(|| self.inode(ROOT), Ok)?;
        for part in path.split(['/', '\\']).filter(|part| !part.is_empty()) {
            let entries = self.entries(at.id)?;
            at = self.inode(self.chosen(&entries, part)?)?;
        }
        Ok(())
    }

    fn chosen(&self, entries: &[DirEntry], part: &str) -> Result<u64> {
        let normalization_insensitive = self.sb.incompat_features & NORMALIZATION_INSENSITIVE != 0;
        let rule = NameRule { case_insensitive: self.sb.is_case_insensitive(), normalization_insensitive };
        let hit = names::chosen(rule, entries, part).ok().flatten();
        hit.map(|e| e.file_id).ok_or_else(|| corrupt("no such name"))
    }

    fn file(&self, r: &Request) -> Result<()> {
        let inode = self.again(S::InodeTwice, || self.inode(r.a))?;
        let size = inode.dstream.map_or(0, |d| d.size);
        if r.what == what::READ && r.b >= size && self.has(S::ReadPastSizeNotRead) {
            return Ok(());
        }
        if inode.is_compressed() && !self.has(S::PackedFileRead) {
            return Err(corrupt("compressed"));
        }
        self.again(S::FileTwice, || self.extents(inode.private_id)).map(|_| ())
    }

    fn stream(&self, x: &Xattr) -> Result<()> {
        match x.data {
            XattrData::Embedded(_) => Ok(()),
            XattrData::Stream { obj_id, .. } => self.again(S::StreamTwice, || self.extents(obj_id)).map(|_| ()),
        }
    }

    fn link(&self, id: u64) -> Result<()> {
        self.again(S::InodeTwice, || self.inode(id))?;
        let list = self.again(S::LinkTwice, || self.attributes(id))?;
        let x = list.iter().find(|x| x.name == "com.apple.fs.symlink").ok_or_else(|| corrupt("no link"))?;
        self.stream(x)
    }

    fn mark(&self, r: &Request) -> Result<()> {
        let (mut left, none) = (r.b, 16);
        let kind = if r.c > 255 && self.has(S::MarkOfWholeKind) { none } else { r.c as u8 };
        self.records(r.a, kind, &mut |_, _| {
            let goes_on = left > 0 || self.has(S::MarkToTheEnd);
            left = left.saturating_sub(1);
            Ok(goes_on)
        })
    }

    fn name(&self, r: &Request) -> Result<()> {
        match r.c {
            replaced::INODE => self.inode(r.a).map(|_| ()),
            replaced::ENTRY => self.entries(r.a).map(|_| ()),
            replaced::ATTRIBUTE => self.attributes(r.a).map(|_| ()),
            replaced::LINK => self.link(r.a),
            _ if self.has(S::KindReadsInode) => self.inode(r.a).map(|_| ()),
            _ => Ok(()),
        }
    }
}
