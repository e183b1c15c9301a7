//! What went wrong, with the file's name and what to do about it.

use sticks::plan::large;
use sticks::volume::Volume;
use sticks::Plan;

use crate::image::{out, Image};

/// A container of several volumes of the same contents; of each its number alone is its own.
fn volumes(n: u64) -> Plan {
    let mut plan = Plan::with_contents(large::directories(2), 3);
    let first = plan.volumes[0].clone();
    let one = |i: u64| Volume { oid: 1026 + i, first_node: 1000 * (i + 1), ..first.clone() };
    plan.volumes = (0..n).map(one).collect();
    plan.slots = plan.volumes.iter().map(|v| v.oid).collect();
    plan
}

#[test]
fn a_short_file_is_named() {
    let image = Image::of("short", b"APFS?");
    let words = "apfs: FILE: the image ends too soon (refusal 1); copy the stick again, whole\n";
    for command in ["ls", "stat", "list", "measure", "checkpoints"] {
        assert_eq!(image.told(&[command], &[]), words);
    }
    assert_eq!(image.told(&["cat"], &["a"]), words);
    assert_eq!(image.told(&["xattr"], &["a", "b"]), words);
    assert_eq!(image.told(&["mark"], &["2", "3", "0"]), words);
    assert_eq!(image.told(&["marked"], &[&"0".repeat(48)]), words);
}

#[test]
fn a_file_that_is_not_there_is_told() {
    let words = "there is no such file; give the image of a stick, or write one with `apfs sample`\n";
    assert_eq!(Image::none("absent").told(&["ls"], &[]), format!("apfs: FILE: {words}"));
}

#[test]
fn a_file_without_a_container_is_told() {
    let words = Image::of("no-container", &[0; 8192]).told(&["ls"], &[]);
    assert_eq!(
        words,
        "apfs: FILE: there is neither an APFS container nor an intact partition table (refusal 11); give the image of a \
         whole stick with a GUID partition table, or of an APFS partition from its first byte on\n"
    );
}

#[test]
fn a_volume_that_is_not_there_is_told_with_those_that_are() {
    let told = |n: u64, words: &str| {
        let image = Image::planned(&format!("volumes-{n}"), volumes(n));
        let want = format!("apfs: FILE: volume 7: there is no such volume (refusal 4); {words}\n");
        for command in ["ls", "stat", "list", "measure"] {
            assert_eq!(image.told(&["--volume", "7", command], &[]), want);
        }
        assert_eq!(image.told(&["--volume", "7", "cat"], &["a"]), want);
    };
    told(0, "the stick has no volume");
    told(1, "the stick's only volume is 0");
    told(3, "the stick's volumes are 0 to 2");
}

#[test]
fn a_volume_that_does_not_open_is_told() {
    let mut plan = volumes(2);
    plan.volumes[0].contents.encrypted = true;
    let image = Image::planned("encrypted", plan);
    let words = "volume 0: this is not supported (refusal 3); compressed files, encrypted and sealed volumes, and \
                 Fusion drives are not read\n";
    assert_eq!(image.told(&["ls"], &[]), format!("apfs: FILE: {words}"));
    assert_eq!(out(image.run(&["ls", "--volume", "1"], &[])).lines().count(), 2);
    let stat = out(image.run(&["stat"], &[]));
    let volumes: Vec<&str> = stat.lines().skip(3).collect();
    assert_eq!(
        volumes,
        [
            "volumes          2",
            "volume 0         id 1026, this is not supported (refusal 3)",
            "volume 1         id 1027, label \"large\", case-insensitive, normalization-insensitive",
        ]
    );
    let one = out(image.run(&["stat", "--volume", "1"], &[]));
    assert_eq!(one.lines().skip(3).collect::<Vec<_>>(), [volumes[0], volumes[2]]);
}

#[test]
fn a_volume_whose_listing_is_refused_is_shown_without_its_label() {
    let stat = out(Image::holding("deep-stat", large::chain(65, 1)).run(&["stat"], &[]));
    let words = "label and rule are not told, as its listing is refused: the tree is too deep (refusal 10)";
    assert!(stat.ends_with(&format!("volume 0         id 1026, {words}\n")), "{stat}");
}

#[test]
fn a_container_without_volumes_is_shown() {
    let stat = out(Image::planned("no-volumes", volumes(0)).run(&["stat"], &[]));
    assert!(stat.starts_with("block size       4096\nblocks           "), "{stat}");
    assert!(stat.ends_with("checkpoint       100000\nvolumes          0\n"), "{stat}");
}

#[test]
fn paths_that_lead_nowhere_are_told() {
    let image = Image::planned("paths", Plan::sample());
    let none = "there is no such file or directory (refusal 4); `apfs ls` shows what is there\n";
    for command in ["ls", "stat", "cat", "xattr"] {
        assert_eq!(image.told(&[command], &["rounds/evening.log"]), format!("apfs: FILE: rounds/evening.log: {none}"));
    }
    let other_case = image.told(&["cat"], &["notes/CAFÉ.txt"]);
    assert_eq!(
        other_case,
        "apfs: FILE: notes/CAFÉ.txt: a name has a character that is not covered (refusal 9); give each name letter for \
         letter as `apfs ls` shows it\n"
    );
    assert_eq!(image.told(&["cat"], &["rounds"]), "apfs: FILE: rounds: a directory; `apfs ls` shows what it holds\n");
    assert_eq!(
        image.told(&["cat"], &["latest.log"]),
        "apfs: FILE: latest.log: a symbolic link; give the path that it leads to, rounds/morning.log\n"
    );
}

#[test]
fn wrong_arguments_are_told() {
    let image = Image::of("arguments", b"");
    let options = "[--volume N] [--checkpoint N] [--nodes]";
    assert_eq!(image.usage(&["cat"], &[]), format!("usage: apfs cat IMAGE PATH {options}\n"));
    assert_eq!(image.usage(&["list"], &["path"]), format!("usage: apfs list IMAGE {options}\n"));
    assert_eq!(image.usage(&["measure"], &["path"]), format!("usage: apfs measure IMAGE {options}\n"));
    assert_eq!(image.usage(&["ls"], &["a", "b"]), format!("usage: apfs ls IMAGE [PATH] {options}\n"));
    assert_eq!(image.usage(&["xattr"], &[]), format!("usage: apfs xattr IMAGE PATH [NAME] {options}\n"));
    assert_eq!(image.usage(&["sample"], &["b"]), "usage: apfs sample FILE\n");
    for words in [&["lost"][..], &["--volume", "x", "ls"], &["--volume", "-1", "ls"], &["--volume"], &["--all", "ls"]] {
        assert!(image.usage(words, &[]).starts_with("usage: apfs COMMAND ..\n"), "{words:?}");
    }
    assert_eq!(image.usage(&["sample", "--volume", "1"], &[]), "usage: apfs sample FILE\n");
}

#[test]
fn help_is_no_failure() {
    let mut command = std::process::Command::new(env!("CARGO_BIN_EXE_apfs"));
    let help = out(command.arg("--help").output().expect("the tool"));
    assert!(help.starts_with("usage: apfs COMMAND ..\n") && help.contains("xattr IMAGE PATH [NAME]"), "{help}");
}
