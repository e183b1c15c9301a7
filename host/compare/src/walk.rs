//! Walks a whole stick by the oracle's calls, and holds what it finds against the plan.

use std::collections::BTreeMap;
use std::fmt::Debug;
use std::sync::Arc;

use oracle::error::Error;
use oracle::fs::{FileKind, Inode, Volume, Xattr, XattrData};
use oracle::nx::Container;
use oracle::probe;
use sticks::contents::{self, Contents, Data, File};
use sticks::random::Random;
use sticks::Stick;

use crate::opening::answer;

/// What a walk went through.
#[derive(Clone, Debug, Default)]
pub struct Reach {
    pub volumes: u64,
    /// Volumes refused with 3.
    pub refused: u64,
    pub files: u64,
    pub entries: u64,
    pub attributes: u64,
    pub streams: u64,
    pub reads: u64,
    pub paths: u64,
    /// How many regular volumes have a root at each level.
    pub levels: BTreeMap<u16, u64>,
}

type Checked = Result<(), String>;

fn same<T: PartialEq + Debug>(what: &str, got: T, want: T) -> Checked {
    if got == want {
        Ok(())
    } else {
        Err(format!("{what}: {got:?}, planned {want:?}"))
    }
}

fn class<T>(r: &Result<T, Error>) -> u64 {
    r.as_ref().map_or_else(probe::class, |_| 0)
}

fn found<T>(what: &str, r: Result<T, Error>) -> Result<T, String> {
    r.map_err(|e| format!("{what}: {e}"))
}

/// A stick whose plan says that it opens.
pub fn walk(stick: &Stick, reach: &mut Reach) -> Checked {
    let image = Arc::new(stick.image.clone());
    let c = found("opening", answer::container(&image))?;
    same("block size", c.block_size() as usize, stick.plan.block_size)?;
    same("block count", probe::block_count(&c), stick.block_count)?;
    same("transaction", c.xid(), stick.plan.xid)?;
    same("volumes", c.sb.fs_oids.clone(), stick.volume_ids())?;
    let mut random = Random::new(stick.plan.seed);
    for (i, plan) in stick.plan.volumes.iter().enumerate() {
        if plan.is_regular() || plan.contents.encrypted || plan.contents.sealed {
            volume(&c, i, &plan.contents, reach, &mut random).map_err(|e| format!("volume {i}: {e}"))?;
        }
    }
    same("a volume too many", class(&c.volume(stick.plan.volumes.len())), 4)
}

fn volume(c: &Container, i: usize, plan: &Contents, reach: &mut Reach, random: &mut Random) -> Checked {
    if plan.encrypted || plan.sealed {
        reach.refused += 1;
        return same("encrypted or sealed", class(&c.volume(i)), 3);
    }
    let v = found("opening", c.volume(i))?;
    reach.volumes += 1;
    *reach.levels.entry(v.fs_root().level).or_default() += 1;
    same("label", v.sb.name.clone(), contents::text(&plan.label))?;
    same("case", v.name_rule().case_insensitive, plan.case_insensitive)?;
    same("normalization", v.name_rule().normalization_insensitive, plan.normalization_insensitive)?;
    same("root", found("root", v.root())?.id, 2)?;
    same("no inode", class(&v.inode(5)), 4)?;
    for f in &plan.files {
        file(&v, plan, f, reach, random).map_err(|e| format!("inode {}: {e}", f.inode.id))?;
    }
    for _ in 0..8 {
        path(&v, plan, random)?;
        reach.paths += 1;
    }
    Ok(())
}

fn file(v: &Volume, plan: &Contents, f: &File, reach: &mut Reach, random: &mut Random) -> Checked {
    let got = found("inode", v.inode(f.inode.id))?;
    inode(&got, f)?;
    reach.files += 1;
    reach.entries += entries(v, f)?;
    reach.attributes += attributes(v, plan, f, reach)?;
    if f.inode.is_compressed() {
        return same("a compressed file", class(&v.read_at(&got, 0, &mut [0; 8])), 3);
    }
    let size = f.inode.stream().map_or(0, |s| s.0);
    let all = plan.bytes(f.inode.private, size);
    let starts = [0, random.below(size + 2), size.saturating_sub(1), size];
    for off in starts {
        let length = if off == 0 { size as usize + 3 } else { random.place(9000) };
        read(v, &got, off, length, &all)?;
        reach.reads += 1;
    }
    Ok(())
}

fn inode(got: &Inode, f: &File) -> Checked {
    let i = &f.inode;
    let times = [got.create_time, got.mod_time, got.change_time, got.access_time];
    same("ids", (got.id, got.parent_id, got.private_id), (i.id, i.parent, i.private))?;
    same("times", times, i.times)?;
    same("flags", (got.internal_flags, got.bsd_flags), (i.flags, i.bsd))?;
    same("links", got.nchildren_or_nlink, i.links)?;
    same("owner", (got.owner, got.group, got.mode), (i.owner, i.group, i.mode))?;
    same("name", got.name.clone(), i.name())?;
    same("stream", got.dstream.map(|d| (d.size, d.alloced_size)), i.stream())
}

fn entries(v: &Volume, f: &File) -> Result<u64, String> {
    let got = found("directory", v.read_dir(f.inode.id))?;
    let got: Vec<_> = got.into_iter().map(|e| (e.name, e.file_id, e.date_added, e.kind)).collect();
    let planned = |e: &contents::Entry| (contents::text(&e.name), e.id, e.date, FileKind::from_dt(e.flags & 0xf));
    same("entries", &got, &f.entries.iter().map(planned).collect())?;
    Ok(got.len() as u64)
}

fn attributes(v: &Volume, plan: &Contents, f: &File, reach: &mut Reach) -> Result<u64, String> {
    let got = found("attributes", v.xattrs(f.inode.id))?;
    same("attributes", got.len(), f.attributes.len())?;
    for (x, a) in got.iter().zip(&f.attributes) {
        same("attribute", (x.name.clone(), x.flags), (contents::text(&a.name), a.flags))?;
        let want = match &a.data {
            Data::Embedded(data) => data.clone(),
            Data::Stream { id, size } => {
                reach.streams += 1;
                stream(x, *id, *size)?;
                plan.bytes(*id, *size)
            }
        };
        same("attribute's contents", found("attribute", v.read_xattr(x))?, want)?;
    }
    if let Some(link) = f.attributes.iter().find(|a| contents::text(&a.name) == "com.apple.fs.symlink") {
        let target = match &link.data {
            Data::Embedded(target) => target.clone(),
            Data::Stream { id, size } => plan.bytes(*id, *size),
        };
        let inode = found("inode", v.inode(f.inode.id))?;
        same("link", found("link", v.read_link(&inode))?, contents::text(&target))?;
    }
    Ok(got.len() as u64)
}

fn stream(x: &Xattr, id: u64, size: u64) -> Checked {
    match x.data {
        XattrData::Stream { obj_id, size: got } => same("stream", (obj_id, got), (id, size)),
        XattrData::Embedded(_) => Err("an embedded attribute, planned a stream".into()),
    }
}

fn read(v: &Volume, inode: &Inode, off: u64, length: usize, all: &[u8]) -> Checked {
    let mut buffer = vec![0xee; length];
    let n = found("reading", v.read_at(inode, off, &mut buffer))?;
    let rest = &all[(off as usize).min(all.len())..];
    same("length read", n, length.min(rest.len()))?;
    same("bytes read", &buffer[..n], &rest[..n])?;
    same("bytes past the answer", &buffer[n..], &vec![0xee; length - n][..])
}

/// Follows names as the plan has them, some with another case, to the end or to one that is not there.
fn path(v: &Volume, plan: &Contents, random: &mut Random) -> Checked {
    let (mut at, mut path) = (2, String::new());
    let mut want = Some(2);
    while let Some(dir) = plan.file(at).filter(|f| !f.entries.is_empty() && random.chance(5, 6)) {
        let mut name = contents::text(&random.pick(&dir.entries).name);
        if random.chance(1, 4) {
            name = random.pick(&[name.to_uppercase(), name.to_lowercase(), name + "?"]);
        }
        if name.is_empty() || name.contains(['/', '\\']) {
            break;
        }
        path += random.pick(&["/", "\\", "//"]);
        path += &name;
        want = named(plan, dir, &name);
        match want {
            Some(id) => at = id,
            None => break,
        }
    }
    let got = v.lookup_path(&path);
    match want {
        Some(id) => same(&path, found(&path, got)?.id, id),
        None => same(&path, class(&got), 4),
    }
}

/// The first entry of exactly this name, else the first whose name has the same key.
fn named(plan: &Contents, dir: &File, name: &str) -> Option<u64> {
    let key = |n: &str| if plan.case_insensitive { n.to_lowercase() } else { n.to_string() };
    let names = || dir.entries.iter().map(|e| (contents::text(&e.name), e.id));
    let exact = names().find(|(n, _)| n == name);
    exact.or_else(|| names().find(|(n, _)| key(n) == key(name))).map(|(_, id)| id)
}
