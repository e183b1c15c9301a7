//! Names with damaged bytes are marked, those in which U+FFFD was typed are not.

use sticks::contents::{Attribute, Contents, Data, Entry, Field, LINK_ATTRIBUTE, NAME_FIELD};
use sticks::Plan;

use crate::image::{out, Image};

/// Stored in place of é by a recorder that knows no UTF-8.
pub const DAMAGED: &[u8] = b"caf\xe9.txt";
const TYPED: &[u8] = "caf\u{fffd}.txt".as_bytes();

/// The sample with some of its names changed.
pub fn changed(name: &str, change: fn(&mut Contents)) -> Image {
    let mut plan = Plan::sample();
    change(&mut plan.volumes[0].contents);
    Image::planned(name, plan)
}

/// The entry that leads to an inode, and the inode's own name.
pub fn renamed(c: &mut Contents, id: u64, name: &[u8]) {
    let entry = c.files.iter_mut().flat_map(|f| &mut f.entries).find(|e| e.id == id).expect("an entry");
    entry.name = name.to_vec();
    let file = c.files.iter_mut().find(|f| f.inode.id == id).expect("a file");
    file.inode.fields[0] = Field { kind: NAME_FIELD, flags: 2, data: [name, b"\0"].concat() };
}

pub fn target(c: &mut Contents, text: &[u8]) {
    let mut attributes = c.files.iter_mut().flat_map(|f| &mut f.attributes);
    let link = attributes.find(|a| a.name == LINK_ATTRIBUTE).expect("a link");
    link.data = Data::Embedded(text.to_vec());
}

#[test]
fn entries_are_marked() {
    let typed = changed("typed", |c| renamed(c, 21, TYPED));
    let damaged = changed("damaged", |c| renamed(c, 21, DAMAGED));
    let line = "file               26 caf\u{fffd}.txt";
    assert_eq!(out(typed.run(&["ls"], &["notes"])), format!("{line}\n"));
    assert_eq!(out(damaged.run(&["ls"], &["notes"])), format!("{line} (1 damaged)\n"));
    assert!(out(typed.run(&["list"], &[])) == out(damaged.run(&["list"], &[])));
    // The path is the caller's own.
    let path = "notes/caf\u{fffd}.txt";
    assert_eq!(out(damaged.run(&["ls"], &[path])), format!("file               26 {path}\n"));
}

#[test]
fn each_entry_has_its_own_mark() {
    let image = changed("several", |c| {
        let notes = c.files.iter_mut().find(|f| f.inode.id == 17).expect("a directory");
        let more = [&b"a\xff\xfe"[..], b"plain", b"\xef\xbf\xbd\xe2\x82", b"zero\0\xff"];
        let one = notes.entries[0].clone();
        notes.entries.extend(more.map(|name| Entry { name: name.into(), ..one.clone() }));
    });
    let text = out(image.run(&["ls"], &["notes"]));
    let names: Vec<&str> = text.lines().map(|l| &l[22..]).collect();
    let want = ["café.txt", "a\u{fffd}\u{fffd} (2 damaged)", "plain", "\u{fffd}\u{fffd} (1 damaged)", "zero"];
    assert_eq!(names, want);
}

#[test]
fn link_targets_are_marked() {
    let typed = changed("link-typed", |c| target(c, "to/\u{fffd}".as_bytes()));
    let damaged = changed("link-damaged", |c| target(c, b"to/\xed\xa0\x80\0\xff"));
    let line = "link                - latest.log -> to/\u{fffd}";
    assert_eq!(out(typed.run(&["ls"], &["latest.log"])), format!("{line}\n"));
    assert_eq!(out(damaged.run(&["ls"], &["latest.log"])), format!("{line}\u{fffd}\u{fffd} (3 damaged)\n"));
    assert!(out(damaged.run(&["ls"], &[])).contains("latest.log -> to/\u{fffd}\u{fffd}\u{fffd} (3 damaged)\n"));
    let stat = |image: &Image| out(image.run(&["stat"], &["latest.log"]));
    assert!(stat(&typed).ends_with("leads to         to/\u{fffd}\n"), "{}", stat(&typed));
    assert!(stat(&damaged).ends_with("to/\u{fffd}\u{fffd}\u{fffd} (3 damaged)\n"), "{}", stat(&damaged));
}

#[test]
fn inode_names_and_labels_are_marked() {
    let typed = changed("stat-typed", |c| {
        renamed(c, 16, b"r\xef\xbf\xbd");
        c.label = b"R\xef\xbf\xbd".to_vec();
    });
    let damaged = changed("stat-damaged", |c| {
        renamed(c, 16, b"r\xff");
        c.label = b"R\xff\xff".to_vec();
    });
    let name = |image: &Image| {
        let stat = out(image.run(&["stat"], &["r\u{fffd}"]));
        stat.lines().find(|l| l.starts_with("name ")).expect("a name").to_string()
    };
    assert_eq!(name(&typed), "name             r\u{fffd}");
    assert_eq!(name(&damaged), "name             r\u{fffd} (1 damaged)");
    let label = |image: &Image| out(image.run(&["stat"], &[])).lines().last().expect("a volume").to_string();
    let rule = ", case-insensitive, normalization-sensitive";
    assert_eq!(label(&typed), format!("volume 0         id 1026, label \"R\u{fffd}\"{rule}"));
    assert_eq!(label(&damaged), format!("volume 0         id 1026, label \"R\u{fffd}\u{fffd}\" (2 damaged){rule}"));
}

#[test]
fn attribute_names_are_marked() {
    let image = changed("attributes", |c| {
        let log = c.files.iter_mut().find(|f| f.inode.id == 19).expect("a file");
        let one = |name: &[u8]| Attribute { name: name.into(), flags: 2, data: Data::Embedded(b"v".to_vec()) };
        log.attributes.extend([one(b"n\xff"), one(b"n\xef\xbf\xbd")]);
    });
    let text = out(image.run(&["xattr"], &["rounds/morning.log"]));
    let last: Vec<&str> = text.lines().skip(2).collect();
    let line = "0x0002 embedded            1 n\u{fffd}";
    assert_eq!(last, [&format!("{line} (1 damaged)"), line]);
    // A name is given as it reads: the first of them is meant.
    assert_eq!(out(image.run(&["xattr"], &["rounds/morning.log", "n\u{fffd}"])), "v");
}
