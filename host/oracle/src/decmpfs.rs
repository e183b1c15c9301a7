//! Absent from the published sources. fs.rs names it in `file_size` and `read_file` of a
//! compressed file, which the port leaves out; `read_at` refuses such a file before it gets here.

use std::io::Write;

use crate::error::{unsupported, Result};

pub(crate) const DECMPFS_XATTR: &str = "com.apple.decmpfs";
pub(crate) const RESOURCE_FORK_XATTR: &str = "com.apple.ResourceFork";

pub(crate) struct Header {
    pub size: u64,
}

pub(crate) fn header(_attribute: &[u8]) -> Result<Header> {
    Err(unsupported("decmpfs"))
}

pub(crate) fn decompress(
    _attribute: &[u8],
    _fork: &mut dyn FnMut() -> Result<Vec<u8>>,
    _out: &mut dyn Write,
) -> Result<u64> {
    Err(unsupported("decmpfs"))
}
