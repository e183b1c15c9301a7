//! A file's bytes.

use std::io::Write;

use crate::tool::ask::{shown_path, Asked};
use crate::tool::failure::Failure;
use crate::tool::node::{DIRECTORY, LINK};
use crate::tool::shown::shown;

const PIECE: usize = 1 << 20;

pub fn run(asked: &Asked, path: &[u8], out: &mut dyn Write) -> Result<(), Failure> {
    let node = asked.lookup(path)?;
    let what = shown_path(path);
    let no_file = |words: String| Err(Failure::Other(format!("{}: {what}: {words}", asked.place)));
    match node.kind() {
        DIRECTORY => return no_file("a directory; `apfs ls` shows what it holds".into()),
        LINK => {
            let target = asked.link(node.id).map_err(|n| asked.refused(&what, n))?;
            return no_file(format!("a symbolic link; give the path that it leads to, {}", shown(&target)));
        }
        _ => {}
    }
    let (mut buffer, mut offset) = (vec![0; PIECE], 0);
    loop {
        let read = asked.read(node.id, offset, &mut buffer);
        match read.map_err(|n| asked.refused(&format!("{what} at byte {offset}"), n))? {
            0 => return Ok(()),
            n => {
                out.write_all(&buffer[..n])?;
                offset += n as u64;
            }
        }
    }
}
