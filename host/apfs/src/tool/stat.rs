//! The container and its volumes, or an inode's fields, in words.

use std::io::Write;

use apfs::refusal::words;

use crate::tool::ask::Asked;
use crate::tool::container::Volume;
use crate::tool::date::date;
use crate::tool::failure::Failure;
use crate::tool::name::Name;
use crate::tool::node::{Node, DIRECTORY, LINK};
use crate::tool::shown::{kind, shown};

fn field(out: &mut dyn Write, name: &str, value: &str) -> Result<(), Failure> {
    Ok(writeln!(out, "{name:16} {value}")?)
}

/// The container, and of its volumes all or the one that is asked for.
pub fn container(asked: &Asked, one: bool, out: &mut dyn Write) -> Result<(), Failure> {
    if one {
        asked.open_volume()?;
    }
    if let Some(p) = asked.stick.partition() {
        field(out, "partition", &format!("{} bytes from byte {} on", p.length, p.offset))?;
    }
    let c = &asked.container;
    field(out, "block size", &c.block_size.to_string())?;
    field(out, "blocks", &c.blocks.to_string())?;
    field(out, "checkpoint", &c.checkpoint.to_string())?;
    field(out, "volumes", &c.volumes.len().to_string())?;
    for (i, oid) in (0..).zip(&c.volumes).filter(|(i, _)| !one || *i == asked.volume) {
        field(out, &format!("volume {i}"), &format!("id {oid}, {}", volume(asked, i)?))?;
    }
    Ok(())
}

fn volume(asked: &Asked, i: u64) -> Result<String, Failure> {
    if let Err(n) = asked.opens(i) {
        return Ok(refused(n));
    }
    Ok(match asked.volume(i)? {
        Ok(v) => rule(&v, &asked.mark(i, Name::Label, &v.label)?),
        Err(n) => format!("label and rule are not told, as its listing is refused: {}", refused(n)),
    })
}

fn refused(number: u64) -> String {
    format!("{} (refusal {number})", words(number))
}

fn rule(v: &Volume, mark: &str) -> String {
    let insensitive = |yes: bool| if yes { "insensitive" } else { "sensitive" };
    let (case, form) = (insensitive(v.case_insensitive), insensitive(v.normalization_insensitive));
    format!("label \"{}\"{mark}, case-{case}, normalization-{form}", shown(&v.label))
}

pub fn run(asked: &Asked, path: &[u8], out: &mut dyn Write) -> Result<(), Failure> {
    let node = asked.lookup(path)?;
    for (name, value) in fields(&node, named(asked, &node)?) {
        field(out, name, &value)?;
    }
    match node.kind() {
        LINK => field(out, "leads to", &target(asked, node.id)?),
        _ => Ok(()),
    }
}

fn named(asked: &Asked, n: &Node) -> Result<String, Failure> {
    let Some(name) = &n.name else { return Ok("none".into()) };
    Ok(shown(name) + &asked.mark(asked.volume, Name::Inode(n.id), name)?)
}

fn target(asked: &Asked, id: u64) -> Result<String, Failure> {
    match asked.link(id) {
        Ok(to) => Ok(shown(&to) + &asked.mark(asked.volume, Name::Target(id), &to)?),
        Err(n) => Ok(refused(n)),
    }
}

fn fields(n: &Node, name: String) -> Vec<(&'static str, String)> {
    let stream = |pick: fn((u64, u64)) -> u64| n.stream.map_or("none".into(), |s| pick(s).to_string());
    let links = if n.kind() == DIRECTORY { "children" } else { "links" };
    vec![
        ("id", n.id.to_string()),
        ("parent", n.parent.to_string()),
        ("private id", n.private.to_string()),
        ("name", name),
        ("kind", kind(n.kind()).into()),
        ("mode", format!("{:04o}", n.mode & 0o7777)),
        (links, n.links.to_string()),
        ("owner", n.owner.to_string()),
        ("group", n.group.to_string()),
        ("size", stream(|s| s.0)),
        ("allocated", stream(|s| s.1)),
        ("compressed", if n.is_compressed() { "yes" } else { "no" }.into()),
        ("flags", format!("{:#x}", n.bsd_flags)),
        ("internal flags", format!("{:#x}", n.internal_flags)),
        ("created", date(n.times[0])),
        ("modified", date(n.times[1])),
        ("changed", date(n.times[2])),
        ("accessed", date(n.times[3])),
    ]
}
