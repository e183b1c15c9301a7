//! Request 09: how long a print will be, and how deep, before it is written.

use std::process::{Command, Output};

use sticks::contents::{Contents, Extent, Source};
use sticks::plan::large;
use sticks::random::Random;
use sticks::Plan;

use crate::image::{out, refused, Image};

const STICKS: u64 = 150;

/// What must be told of a print, by its bytes and brackets: a node at depth 0 holds brackets that are the third in one
/// another, and each level below has two more.
fn counted(text: &str) -> String {
    let (mut open, mut most) = (0, 0);
    for b in text.bytes() {
        open += usize::from(b == b'(');
        most = open.max(most);
        open -= usize::from(b == b')');
    }
    told(text.len() as u64, (most - 3) / 2)
}

fn told(length: u64, depth: usize) -> String {
    format!("length           {length}\ngreatest depth   {depth}\n")
}

#[test]
fn the_sample_is_measured() {
    let image = Image::planned("measured", Plan::sample());
    let text = out(image.run(&["list"], &[]));
    let measure = out(image.run(&["measure"], &[]));
    assert_eq!(measure, counted(&text));
    assert!(measure.ends_with("greatest depth   2\n"), "{measure}");
}

#[test]
fn depths_are_those_of_the_nodes() {
    for depth in [0, 1, 64] {
        let image = Image::holding("measured-chain", large::chain(depth, 1));
        let measure = out(image.run(&["measure"], &[]));
        assert_eq!(measure, counted(&out(image.run(&["list"], &[]))));
        assert!(measure.ends_with(&format!("greatest depth   {depth}\n")), "{measure}");
    }
    refused(Image::holding("measured-deep", large::chain(65, 1)).run(&["measure"], &[]), 10);
}

/// A print that is refused is so as its measure is.
#[test]
fn drawn_sticks_are_measured() {
    let refusal = |o: &Output| String::from_utf8_lossy(&o.stderr).into_owned();
    let (mut measured, mut none) = (0, 0);
    for plan in (0..STICKS).map(Plan::draw) {
        for volume in ["0", "1"] {
            let image = Image::planned("drawn-measures", plan.clone());
            let [m, l] = ["measure", "list"].map(|command| image.run(&["--volume", volume, command], &[]));
            assert_eq!(refusal(&m), refusal(&l), "stick {}", plan.seed);
            if m.status.success() {
                assert_eq!(out(m), counted(&out(l)), "stick {}", plan.seed);
                measured += 1;
            } else {
                none += 1;
            }
        }
    }
    assert!(measured > 50 && none > 50, "{measured} and {none}");
}

/// A file of so many bytes, all of them a hole.
fn sparse(size: u64) -> Contents {
    let mut contents = large::file(size.min(1), 1, 4096, &mut Random::new(1));
    contents.streams[0].extents = vec![Extent { logical: 0, length: size, source: Source::Hole }];
    contents.files[1].inode.fields[0].data[..8].copy_from_slice(&size.to_le_bytes());
    contents
}

#[test]
fn a_listing_that_is_too_long_is_told() {
    let image = Image::holding("too-long", sparse(1 << 31));
    let words =
        "apfs: FILE: listing of volume 0: the listing is longer than 4,294,967,295 bytes (refusal 14); read the \
                 volume file by file\n";
    for command in ["measure", "list"] {
        assert_eq!(image.told(&[command], &[]), words);
    }
    // The size stands in two lines: six digits more, and two for each byte.
    let (short, long) = (1000, 2_147_000_000);
    let text = out(Image::holding("shorter", sparse(short)).run(&["list"], &[]));
    let length = text.len() as u64 + 12 + 2 * (long - short);
    assert_eq!(out(Image::holding("long", sparse(long)).run(&["measure"], &[])), told(length, 1));
}

#[cfg(target_os = "linux")]
#[test]
fn a_listing_that_has_no_memory_is_told() {
    let image = Image::holding("no-memory", sparse(1 << 30));
    let mut shell = Command::new("sh");
    shell.args(["-c", "ulimit -v 1000000; exec \"$0\" list \"$1\"", env!("CARGO_BIN_EXE_apfs")]).arg(&image.0);
    let o = shell.output().expect("a shell");
    let words = String::from_utf8_lossy(&o.stderr).replace(&*image.0.to_string_lossy(), "FILE");
    let start = "apfs: FILE: listing of volume 0: there is no memory for its ";
    assert!(o.status.code() == Some(1) && o.stdout.is_empty() && words.starts_with(start), "{o:?}");
}
