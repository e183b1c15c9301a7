//! What a directory holds.

use std::io::Write;

use crate::tool::ask::{shown_path, Asked};
use crate::tool::failure::Failure;
use crate::tool::name::Name;
use crate::tool::node::{Entry, Node, DIRECTORY, LINK, REGULAR};
use crate::tool::shown::{kind, shown};

const UNSUPPORTED: u64 = 3;

pub fn run(asked: &Asked, path: &[u8], out: &mut dyn Write) -> Result<(), Failure> {
    let node = asked.lookup(path)?;
    if node.kind() != DIRECTORY {
        let name = String::from_utf8_lossy(path).into_owned();
        let e = Entry { id: node.id, kind: node.kind(), name };
        return line(asked, &e, &size(&node), &shown(&e.name), out);
    }
    let (what, mut place) = (shown_path(path), 0);
    loop {
        let entries = asked.entries(&what, node.id, place)?;
        if entries.is_empty() {
            return Ok(());
        }
        for e in &entries {
            let mark = asked.mark(asked.volume, Name::Entry(node.id, place), &e.name)?;
            line(asked, e, &sized(asked, e), &(shown(&e.name) + &mark), out)?;
            place += 1;
        }
    }
}

/// Kind, size and name, and where a link leads.
fn line(asked: &Asked, e: &Entry, size: &str, name: &str, out: &mut dyn Write) -> Result<(), Failure> {
    let target = if e.kind == LINK { target(asked, e.id)? } else { String::new() };
    Ok(writeln!(out, "{:8} {size:>12} {name}{target}", kind(e.kind))?)
}

/// Nothing where the link cannot be read.
fn target(asked: &Asked, id: u64) -> Result<String, Failure> {
    let Ok(to) = asked.link(id) else { return Ok(String::new()) };
    Ok(format!(" -> {}{}", shown(&to), asked.mark(asked.volume, Name::Target(id), &to)?))
}

fn size(node: &Node) -> String {
    match node.kind() {
        REGULAR if node.is_compressed() => "packed".into(),
        REGULAR => node.size().to_string(),
        _ => "-".into(),
    }
}

/// A file's size; `?` where its data cannot be read.
fn sized(asked: &Asked, e: &Entry) -> String {
    if e.kind != REGULAR {
        return "-".into();
    }
    match asked.size(e.id) {
        Ok(n) => n.to_string(),
        Err(UNSUPPORTED) => "packed".into(),
        Err(_) => "?".into(),
    }
}
