//! The sample stick, and each command on it.

use sticks::contents::{Attribute, Data, Extent, Source, Stream};
use sticks::{make, Plan};

use crate::image::{out, Image};

fn sample(name: &str) -> Image {
    let image = Image::none(name);
    let told = out(image.run(&["sample"], &[]));
    let bytes = std::fs::metadata(&image.0).expect("a file").len();
    assert_eq!(told, format!("{}: a stick of {bytes} bytes\n", image.0.display()));
    image
}

#[test]
fn a_sample_is_always_the_same() {
    let (a, b) = (sample("one"), sample("other"));
    let read = |i: &Image| std::fs::read(&i.0).expect("an image");
    assert!(read(&a) == read(&b) && read(&a) == make(Plan::sample()).image);
}

#[test]
fn a_file_that_is_there_is_left_as_it_is() {
    let image = Image::of("kept", b"mine");
    let words = image.told(&["sample"], &[]);
    assert_eq!(words, "apfs: FILE: there already, and left as it is; name a new file\n");
    assert_eq!(std::fs::read(&image.0).expect("a file"), b"mine");
    let nowhere = Image(image.0.join("in-a-file.img")).told(&["sample"], &[]);
    assert!(nowhere.starts_with("apfs: FILE: "), "{nowhere}");
}

#[test]
fn directories_are_shown() {
    let image = sample("shown");
    let lines = |path: &[&str]| {
        let text = out(image.run(&["ls"], path));
        let mut lines: Vec<String> = text.lines().map(String::from).collect();
        lines.sort();
        lines
    };
    assert_eq!(
        lines(&[]),
        [
            "dir                 - notes",
            "dir                 - rounds",
            "link                - latest.log -> rounds/morning.log",
        ]
    );
    assert_eq!(lines(&["rounds"]), ["file               70 morning.log", "file            12299 meter.raw"]);
    assert_eq!(lines(&["NOTES"]), ["file               26 café.txt"]);
    assert_eq!(lines(&["latest.log"]), ["link                - latest.log -> rounds/morning.log"]);
    assert_eq!(lines(&["notes/café.txt"]), ["file               26 notes/café.txt"]);
}

#[test]
fn the_container_is_shown() {
    let stat = out(sample("container").run(&["stat"], &[]));
    let lines: Vec<&str> = stat.lines().collect();
    let [size, blocks, checkpoint, volumes, volume] = lines[..] else { panic!("{stat}") };
    assert_eq!((size, checkpoint, volumes), ("block size       4096", "checkpoint       100000", "volumes          1"));
    assert_eq!(blocks, format!("blocks           {}", make(Plan::sample()).block_count));
    assert_eq!(volume, "volume 0         id 1026, label \"Rounds\", case-insensitive, normalization-sensitive");
}

#[test]
fn inodes_are_shown() {
    let image = sample("inodes");
    let shown = |path: &str, line: &str| {
        let stat = out(image.run(&["stat"], &[path]));
        assert!(stat.lines().any(|l| l == line), "{line} in {stat}");
    };
    shown("/", "children         3");
    shown("rounds/meter.raw", "size             12299");
    shown("rounds/meter.raw", "allocated        8192");
    shown("rounds/morning.log", "modified         2026-11-15 06:00:00.000000000 UTC");
    shown("latest.log", "leads to         rounds/morning.log");
}

#[test]
fn files_are_read() {
    let image = sample("files");
    let log = "06:00 north gate, closed\n06:20 boiler room, 71 C\n06:45 roof, all well\n";
    assert_eq!(out(image.run(&["cat"], &["rounds/morning.log"])), log);
    assert_eq!(out(image.run(&["cat"], &["notes/café.txt"])), "The café opens at seven.\n");
    let meter = out(image.run(&["cat"], &["rounds/meter.raw"])).into_bytes();
    assert_eq!(meter.len(), 12299);
    assert!(meter.starts_with(b"meter 0042\n") && meter.ends_with(b"\0meter 0043\n"));
    assert!(meter[4096..12288].iter().all(|&b| b == 0));
}

#[test]
fn attributes_are_shown_and_read() {
    let image = sample("attributes");
    assert_eq!(
        out(image.run(&["xattr"], &["rounds/morning.log"])),
        "0x0002 embedded            7 recorder\n0x0001 stream           5000 trace\n"
    );
    assert_eq!(out(image.run(&["xattr"], &["latest.log"])), "0x0002 embedded           19 com.apple.fs.symlink\n");
    assert_eq!(out(image.run(&["xattr"], &["/"])), "");
    assert_eq!(out(image.run(&["xattr"], &["rounds/morning.log", "recorder"])), "watch 7");
    let trace = image.run(&["xattr"], &["rounds/morning.log", "trace"]);
    assert!(trace.status.success() && trace.stdout == (0..5000).map(|i| (i % 251) as u8).collect::<Vec<u8>>());
    assert_eq!(
        image.told(&["xattr"], &["rounds", "recorder"]),
        "apfs: FILE: rounds: no attribute recorder; `apfs xattr` without a name shows those that are there\n"
    );
}

#[test]
fn an_attribute_that_cannot_be_read_hides_no_other() {
    let mut plan = Plan::sample();
    let contents = &mut plan.volumes[0].contents;
    let far = Extent { logical: 0, length: 4096, source: Source::Block(1 << 30) };
    contents.streams.push(Stream { id: 40, extents: vec![far] });
    let log = contents.files.iter_mut().find(|f| f.inode.id == 19).expect("a file");
    let lost = Attribute { name: b"lost".to_vec(), flags: 1, data: Data::Stream { id: 40, size: 9 } };
    log.attributes.insert(0, lost);
    let image = Image::planned("lost", plan);
    let words = "attribute 0 of rounds/morning.log: the image is corrupt (refusal 2); copy the stick again, or have a \
                 Mac repair it\n";
    let o = image.run(&["xattr"], &["rounds/morning.log"]);
    assert_eq!((o.status.code(), String::from_utf8_lossy(&o.stdout).lines().count()), (Some(1), 2), "{o:?}");
    assert!(String::from_utf8_lossy(&o.stderr).ends_with(words), "{o:?}");
    assert_eq!(out(image.run(&["xattr"], &["rounds/morning.log", "recorder"])), "watch 7");
    assert_eq!(image.told(&["xattr"], &["rounds/morning.log", "lost"]), format!("apfs: FILE: {words}"));
}
