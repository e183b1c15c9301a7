//! Sticks with a partition table.

use sticks::block::put;
use sticks::gpt::around;
use sticks::{make, Plan};

use crate::image::{out, Image};

/// Where the partition of these sticks begins.
const FIRST: usize = 40 * 512;
const HEADER: usize = 512;

fn container() -> Vec<u8> {
    make(Plan::sample()).image
}

fn both(name: &str) -> (Image, Image) {
    (Image::of(&format!("{name}-bare"), &container()), Image::of(&format!("{name}-table"), &around(&container())))
}

#[test]
fn every_command_reads_the_partition() {
    let (bare, table) = both("commands");
    let asked: [(&str, &[&str]); 9] = [
        ("ls", &[]),
        ("ls", &["rounds"]),
        ("stat", &["rounds/meter.raw"]),
        ("cat", &["rounds/morning.log"]),
        ("cat", &["rounds/meter.raw"]),
        ("xattr", &["rounds/morning.log"]),
        ("xattr", &["rounds/morning.log", "trace"]),
        ("list", &[]),
        ("measure", &[]),
    ];
    for (command, path) in asked {
        let [a, b] = [&bare, &table].map(|image| image.run(&[command], path));
        assert!(a.status.success() && b.status.success() && a.stdout == b.stdout, "{command} {path:?}: {b:?}");
    }
}

#[test]
fn the_partition_is_shown() {
    let (bare, table) = both("stat");
    let line = format!("partition        {} bytes from byte {FIRST} on\n", container().len());
    assert_eq!(out(table.run(&["stat"], &[])), line + &out(bare.run(&["stat"], &[])));
}

#[test]
fn the_backup_is_enough() {
    let mut image = around(&container());
    put(&mut image, HEADER, &[0; 512]);
    let stick = Image::of("backup", &image);
    assert_eq!(out(stick.run(&["cat"], &["notes/café.txt"])), "The café opens at seven.\n");
    let end = image.len() - 512;
    put(&mut image, end, &[0; 512]);
    assert!(Image::of("neither", &image).told(&["ls"], &[]).contains("(refusal 11)"));
}

#[test]
fn a_table_that_leads_nowhere_is_told() {
    let image = around(&container());
    let cut = Image::of("cut-table", &image[..image.len() / 1024 * 512]);
    let words = "the partition table has no APFS partition that lies in the image (refusal 12); copy the stick again, \
                 whole; a stick without an APFS partition is not read\n";
    assert_eq!(cut.told(&["stat"], &[]), format!("apfs: FILE: {words}"));
}

#[test]
fn a_partition_without_a_container_is_told() {
    let mut image = around(&container());
    put(&mut image, FIRST + 32, b"none");
    let words =
        "no APFS container begins here, though the partition is of that type (refusal 4); copy the stick again, \
                 or have a Mac repair it\n";
    let want = format!("apfs: FILE: partition at byte {FIRST}: {words}");
    let stick = Image::of("no-container-in-table", &image);
    for words in [&["ls"][..], &["checkpoints"], &["ls", "--checkpoint", "100000"]] {
        assert_eq!(stick.told(words, &[]), want);
    }
    let short = around(&container()[..512]);
    let told = Image::of("short-partition", &short).told(&["ls"], &[]);
    assert!(
        told.starts_with(&format!("apfs: FILE: partition at byte {FIRST}: ")) && told.contains("(refusal 1)"),
        "{told}"
    );
}
