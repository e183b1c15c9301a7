//! All that the oracle's calls, or the host's account of directories, give of one id, as far as they give it.

use oracle::error::Result;
use oracle::fs::{DirEntry, Extent, Inode, Xattr};

use crate::calls::directory::Directories;
use crate::opening::answer::caught;

#[derive(Default)]
pub struct Lists {
    pub inode: Option<Inode>,
    pub entries: Option<Vec<DirEntry>>,
    pub xattrs: Option<Vec<Xattr>>,
    pub extents: Option<Vec<Extent>>,
}

fn given<T>(f: impl FnOnce() -> Result<T>) -> Option<T> {
    caught(f).ok().and_then(|r| r.ok())
}

impl Lists {
    pub fn of(dirs: &Directories, id: u64) -> Lists {
        let v = dirs.v;
        let inode = given(|| v.inode(id));
        let extents = inode.as_ref().and_then(|i| given(|| v.file_extents(i)));
        let entries = given(|| dirs.read(id));
        dirs.take_account();
        Lists { inode, entries, xattrs: given(|| v.xattrs(id)), extents }
    }

    /// 0 without a data stream.
    pub fn size(&self) -> u64 {
        self.inode.as_ref().and_then(|i| i.dstream).map_or(0, |d| d.size)
    }
}
