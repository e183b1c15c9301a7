//! The list of checkpoints, and each command at an earlier one.

use sticks::block::{put64, seal};
use sticks::checkpoint::Fault;
use sticks::contents::{Contents, Data};
use sticks::gpt::around;
use sticks::plan::Odd;
use sticks::volume::Volume;
use sticks::{make, Plan};

use crate::damaged::{changed, renamed, target, DAMAGED};
use crate::image::{out, refused, Image};

const BLOCK: usize = 4096;
/// The superblock of the earlier of two checkpoints, in a ring that begins at block 1.
const EARLIER: usize = 2;
/// Fields of a container superblock.
const MAP: usize = 160;
const SLOTS: usize = 184;
const REFUSED: &str =
    "no checkpoint has that number (refusal 13); `apfs checkpoints` shows the numbers that are there\n";

/// Every command that takes a checkpoint, on the sample stick.
const ASKED: [(&str, &[&str]); 10] = [
    ("ls", &[]),
    ("ls", &["rounds"]),
    ("ls", &["notes"]),
    ("stat", &["rounds/morning.log"]),
    ("stat", &["latest.log"]),
    ("cat", &["rounds/morning.log"]),
    ("xattr", &["rounds/morning.log"]),
    ("xattr", &["rounds/morning.log", "recorder"]),
    ("list", &[]),
    ("measure", &[]),
];

/// The sample with two checkpoints, 99,999 and 100,000, which both lead to what it holds.
fn twice() -> Plan {
    let mut ring = Plan::with_ring(4, 1).ring;
    ring.checkpoints.iter_mut().for_each(|c| c.current = true);
    // What the object maps lead to was there at the earlier.
    Plan { xid: ring.checkpoints[0].xid, ring, ..Plan::sample() }
}

/// What the sample held one save before: names, bytes, sizes and attributes were others.
fn before() -> Contents {
    let mut c = Plan::sample().volumes.remove(0).contents;
    c.label = b"Before".to_vec();
    renamed(&mut c, 21, DAMAGED);
    target(&mut c, b"notes");
    let log = c.files.iter_mut().find(|f| f.inode.id == 19).expect("a file");
    log.attributes[0].data = Data::Embedded(b"watch 12".to_vec());
    // The lowest byte of its size.
    log.inode.fields[1].data[0] = 25;
    c
}

/// The sample, and as it was before at the checkpoint 99,999.
pub fn saved() -> Vec<u8> {
    let mut plan = twice();
    let volume = Volume { oid: 1033, first_node: 2000, contents: before(), ..plan.volumes[0].clone() };
    plan.volumes.push(volume);
    altered(plan, SLOTS, 1033)
}

/// The image, with another value in a field of the earlier superblock.
fn altered(plan: Plan, field: usize, value: u64) -> Vec<u8> {
    let mut image = make(plan).image;
    let block = &mut image[EARLIER * BLOCK..][..BLOCK];
    put64(block, field, value);
    seal(block);
    image
}

fn listed(name: &str, plan: Plan) -> Vec<u64> {
    let text = out(Image::planned(name, plan).run(&["checkpoints"], &[]));
    text.lines().map(|line| line.parse().expect("a number")).collect()
}

#[test]
fn the_numbers_are_listed_greatest_first() {
    let image = make(Plan::with_ring(8, 3)).image;
    for (name, image) in [("listed", &image), ("listed-table", &around(&image))] {
        assert_eq!(out(Image::of(name, image).run(&["checkpoints"], &[])), "100000\n99999\n99998\n99997\n");
    }
    assert_eq!(listed("listed-one", Plan::sample()), [100_000]);
}

#[test]
fn equal_numbers_are_all_listed_and_broken_checkpoints_are_not() {
    let mut plan = Plan::with_ring(12, 3);
    let ring = &mut plan.ring.checkpoints;
    (ring[0].xid, ring[1].xid, ring[2].xid) = (u64::MAX, 0, 99_999);
    (ring[3].fault, ring[5].fault) = (Some(Fault::MapChecksum), Some(Fault::Checksum));
    assert_eq!(listed("listed-equal", plan), [u64::MAX, 99_999, 99_999, 0]);
}

#[test]
fn a_list_past_one_buffer_is_shown_whole() {
    let want: Vec<u64> = (99_001..=100_000).rev().collect();
    assert_eq!(listed("listed-many", Plan::with_ring(2000, 3)), want);
}

#[test]
fn a_stick_without_a_checkpoint_is_told() {
    let mut plan = Plan::sample();
    plan.ring.checkpoints[0].fault = Some(Fault::Magic);
    let image = make(plan).image;
    let words = "the image is corrupt (refusal 2); copy the stick again, or have a Mac repair it\n";
    let stick = Image::of("listed-none", &image);
    assert_eq!(stick.told(&["checkpoints"], &[]), format!("apfs: FILE: {words}"));
    assert_eq!(stick.told(&["ls", "--checkpoint", "100000"], &[]), format!("apfs: FILE: checkpoint 100000: {REFUSED}"));
    let table = Image::of("listed-none-table", &around(&image));
    assert_eq!(table.told(&["checkpoints"], &[]), format!("apfs: FILE: partition at byte 20480: {words}"));
}

#[test]
fn the_numbers_are_listed_where_nothing_opens() {
    let stick = Image::planned("listed-fusion", Plan { odd: Some(Odd::Fusion), ..twice() });
    assert_eq!(out(stick.run(&["checkpoints"], &[])), "100000\n99999\n");
    refused(stick.run(&["ls"], &[]), 3);
    let told = stick.told(&["ls", "--checkpoint", "99999"], &[]);
    assert!(told.starts_with("apfs: FILE: checkpoint 99999: this is not supported (refusal 3); "), "{told}");
}

#[test]
fn every_command_reads_at_the_checkpoint() {
    let image = saved();
    let (bare, table) = (Image::of("saved", &image), Image::of("saved-table", &around(&image)));
    let now = Image::planned("saved-now", Plan::sample());
    let then = changed("saved-before", |c| *c = before());
    for stick in [&bare, &table] {
        assert_eq!(out(stick.run(&["checkpoints"], &[])), "100000\n99999\n");
        for (command, path) in ASKED {
            let [a, b] = [&now, &then].map(|stick| out(stick.run(&[command], path)));
            assert_eq!(out(stick.run(&[command], path)), a);
            assert_eq!(out(stick.run(&["--checkpoint", "100000", command], path)), a);
            assert_eq!(out(stick.run(&[command, "--checkpoint", "99999"], path)), b);
            assert!(a != b, "{command} {path:?}");
        }
    }
}

#[test]
fn the_container_is_shown_as_it_was() {
    let stick = Image::of("saved-stat", &saved());
    let shown = |number: &[&str]| {
        let text = out(stick.run(&[&["stat"], number].concat(), &[]));
        text.lines().skip(2).map(String::from).collect::<Vec<_>>()
    };
    let rule = "case-insensitive, normalization-sensitive";
    let now = format!("volume 0         id 1026, label \"Rounds\", {rule}");
    let then = format!("volume 0         id 1033, label \"Before\", {rule}");
    assert_eq!(shown(&[]), ["checkpoint       100000", "volumes          1", &now]);
    assert_eq!(shown(&["--checkpoint", "100000"]), shown(&[]));
    assert_eq!(shown(&["--checkpoint", "99999"]), ["checkpoint       99999", "volumes          1", &then]);
    assert_eq!(shown(&["--checkpoint", "99999", "--volume", "0"]), shown(&["--checkpoint", "99999"]));
}

#[test]
fn a_number_that_no_checkpoint_has_is_told() {
    let image = make(Plan::with_ring(8, 3)).image;
    let (bare, table) = (Image::of("unknown", &image), Image::of("unknown-table", &around(&image)));
    for number in ["0", "99996", "100001", "18446744073709551615"] {
        for (command, path) in ASKED.into_iter().chain([("stat", &[][..])]) {
            let told = bare.told(&[command, "--checkpoint", number], path);
            assert_eq!(told, format!("apfs: FILE: checkpoint {number}: {REFUSED}"));
        }
        let told = table.told(&["ls", "--checkpoint", number], &[]);
        assert_eq!(told, format!("apfs: FILE: partition at byte 20480: checkpoint {number}: {REFUSED}"));
    }
}

#[test]
fn what_is_told_names_the_checkpoint() {
    let stick = Image::of("saved-told", &saved());
    let told = |words: &[&str], path: &[&str]| stick.told(&[&["--checkpoint", "99999"], words].concat(), path);
    let start = "apfs: FILE: checkpoint 99999:";
    let nowhere = "lost: there is no such file or directory (refusal 4); `apfs ls` shows what is there\n";
    assert_eq!(told(&["ls"], &["lost"]), format!("{start} {nowhere}"));
    let volume = "volume 1: there is no such volume (refusal 4); the stick's only volume is 0\n";
    assert_eq!(told(&["ls", "--volume", "1"], &[]), format!("{start} {volume}"));
    let directory = "notes: a directory; `apfs ls` shows what it holds\n";
    assert_eq!(told(&["cat"], &["notes"]), format!("{start} {directory}"));
}

#[test]
fn a_checkpoint_that_was_written_over_is_told() {
    let words =
        "the image is corrupt (refusal 2); copy the stick again, or try another checkpoint: what this one held \
                 may have been written over\n";
    let told = |name: &str, field: usize, value: u64| {
        let stick = Image::of(name, &altered(twice(), field, value));
        assert_eq!(out(stick.run(&["ls"], &["notes"])), "file               26 café.txt\n");
        stick.told(&["ls", "--checkpoint", "99999"], &["notes"])
    };
    // The earlier checkpoint's object map is said to be where the ring begins, or its volume is not in the map.
    assert_eq!(told("over-map", MAP, 1), format!("apfs: FILE: checkpoint 99999: {words}"));
    assert_eq!(told("over-volume", SLOTS, 7), format!("apfs: FILE: checkpoint 99999: volume 0: {words}"));
}

#[test]
fn wrong_numbers_and_options_are_told() {
    let image = Image::of("numbers", b"");
    for number in ["x", "-1", "", "1.5", "18446744073709551616"] {
        let told = image.usage(&["ls", "--checkpoint", number], &[]);
        assert!(told.starts_with("usage: apfs COMMAND ..\n") && told.contains("checkpoints IMAGE"), "{told}");
    }
    let usage = "usage: apfs checkpoints IMAGE\n";
    assert_eq!(image.usage(&["checkpoints"], &["path"]), usage);
    assert_eq!(image.usage(&["checkpoints", "--volume", "0"], &[]), usage);
    assert_eq!(image.usage(&["checkpoints", "--checkpoint", "1"], &[]), usage);
    assert_eq!(image.usage(&["sample", "--checkpoint", "1"], &[]), "usage: apfs sample FILE\n");
}
