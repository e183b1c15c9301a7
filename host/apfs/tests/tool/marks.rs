//! Request 10: bookmarks of records, and what they lead to.

use sticks::gpt::around;
use sticks::plan::{large, places};
use sticks::volume::Volume;
use sticks::{make, Plan};

use crate::checkpoints::saved;
use crate::image::{out, refused, Image};

const BLOCK: usize = 4096;
const PASSES: &str =
    "apfs: FILE: bookmark: its parts pass its block, or its block passes the stick (refusal 1); give one \
                      that was made of this stick\n";

fn mark(image: &Image, options: &[&str], record: [u64; 3]) -> String {
    let record = record.map(|n| n.to_string());
    out(image.run(&[&["mark"], options].concat(), &record.each_ref().map(|n| &**n)))
}

fn marked(image: &Image, options: &[&str], mark: &str) -> String {
    out(image.run(&[&["marked"], options].concat(), &[mark.trim_end()]))
}

fn hex(bytes: &[u8]) -> String {
    bytes.iter().map(|b| format!("{b:02x}")).collect()
}

/// The fields of a bookmark, in order.
fn fields(mark: &str) -> [u64; 5] {
    let at = |start: usize, end: usize| {
        let bytes = (start..end).rev().map(|i| &mark[2 * i..2 * i + 2]).collect::<String>();
        u64::from_str_radix(&bytes, 16).expect("digits")
    };
    [at(0, 8), at(8, 12), at(12, 16), at(16, 20), at(20, 24)]
}

/// The line that an image has for a bookmark.
fn read(image: &[u8], mark: &str) -> String {
    let [block, key, key_length, value, value_length] = fields(mark).map(|n| n as usize);
    let block = &image[block * BLOCK..][..BLOCK];
    format!("(record x{} x{})\n", hex(&block[key..][..key_length]), hex(&block[value..][..value_length]))
}

#[test]
fn a_record_is_found_by_its_bookmark() {
    let bytes = make(Plan::sample()).image;
    let image = Image::of("marked", &bytes);
    for (record, key) in [([2, 3, 0], "x0200000000000030"), ([19, 4, 0], "x13000000000000400900"), ([18, 3, 0], "x12")]
    {
        let mark = mark(&image, &[], record);
        assert!(mark.len() == 49 && mark.ends_with('\n'), "{mark}");
        let line = marked(&image, &[], &mark);
        assert_eq!(line, read(&bytes, &mark));
        assert!(line.starts_with(&format!("(record {key}")), "{line}");
        assert_eq!(marked(&image, &[], &mark.to_uppercase()), line);
    }
    let recorder = marked(&image, &[], &mark(&image, &[], [19, 4, 0]));
    assert!(recorder.ends_with(&format!(" x02000700{})\n", hex(b"watch 7"))), "{recorder}");
}

#[test]
fn a_directory_has_a_bookmark_for_each_entry() {
    let image = Image::holding("marked-entries", large::directories(5));
    let lines: Vec<String> = (0..5).map(|place| marked(&image, &[], &mark(&image, &[], [2, 9, place]))).collect();
    let names: Vec<String> = out(image.run(&["ls"], &[])).lines().map(|l| hex(&l.as_bytes()[22..])).collect();
    assert!(lines.len() == names.len() && lines.iter().zip(&names).all(|(l, n)| l.contains(&format!("{n}00 x"))));
    let words = "there is no such record; records are counted from 0, those without a value left out\n";
    assert_eq!(image.told(&["mark"], &["2", "9", "5"]), format!("apfs: FILE: record 5 of kind 9 of id 2: {words}"));
    let largest = u64::MAX.to_string();
    for record in [["2", "9", &largest], ["2", "25", "0"], ["2", "255", "0"], ["3", "9", "0"], [&largest, "9", "0"]] {
        assert!(image.told(&["mark"], &record).ends_with(words), "{record:?}");
    }
}

#[test]
fn what_is_missing_or_empty_is_shown() {
    let image = Image::planned("marked-empty", places::plan(BLOCK));
    let mark = mark(&image, &[], [20, 12, 0]);
    assert_eq!(fields(&mark)[3..], [4096, 0]);
    assert_eq!(marked(&image, &[], &mark), "(record x14000000000000c0 x)\n");
    let missing = format!("{}{}", &mark[..32], "f".repeat(16));
    assert_eq!(marked(&image, &[], &missing), "(record x14000000000000c0 -)\n");
}

#[test]
fn a_bookmark_that_does_not_fit_is_told() {
    let image = Image::planned("marked-past", Plan::sample());
    let mark = mark(&image, &[], [2, 3, 0]);
    let with = |at: usize, digits: &str| format!("{}{digits}{}", &mark[..at], &mark.trim_end()[at + digits.len()..]);
    let past = [with(0, "0f00000000000000"), with(16, "01100000"), with(40, "ffffffff"), with(0, &"f".repeat(48))];
    for mark in past {
        assert_eq!(image.told(&["marked"], &[&mark]), PASSES);
    }
    let at = "apfs: FILE: checkpoint 100000: bookmark: ";
    assert!(image.told(&["marked", "--checkpoint", "100000"], &[&"f".repeat(48)]).starts_with(at));
}

#[test]
fn bookmarks_are_of_the_partition() {
    let bytes = make(Plan::sample()).image;
    let (bare, table) = (Image::of("marked-bare", &bytes), Image::of("marked-table", &around(&bytes)));
    let of_bare = mark(&bare, &[], [2, 3, 0]);
    assert_eq!(mark(&table, &[], [2, 3, 0]), of_bare);
    assert_eq!(marked(&table, &[], &of_bare), marked(&bare, &[], &of_bare));
    // The stick goes on behind its partition.
    let behind = format!("{}{}", hex(&(bytes.len() as u64 / BLOCK as u64).to_le_bytes()), &of_bare.trim_end()[16..]);
    assert_eq!(table.told(&["marked"], &[&behind]), PASSES);
}

#[test]
fn bookmarks_of_an_earlier_checkpoint_lead_there_from_any() {
    let image = Image::of("marked-saved", &saved());
    let now = mark(&image, &["--checkpoint", "100000"], [19, 4, 0]);
    let then = mark(&image, &["--checkpoint", "99999"], [19, 4, 0]);
    assert_eq!(mark(&image, &[], [19, 4, 0]), now);
    assert!(now != then);
    for options in [&[][..], &["--checkpoint", "100000"], &["--checkpoint", "99999"]] {
        assert!(marked(&image, options, &now).ends_with(&format!("{})\n", hex(b"watch 7"))));
        assert!(marked(&image, options, &then).ends_with(&format!("{})\n", hex(b"watch 12"))));
    }
    for (command, path) in [("mark", &["2", "3", "0"][..]), ("marked", &[then.trim_end()])] {
        refused(image.run(&[command, "--checkpoint", "7"], path), 13);
    }
}

#[test]
fn a_bookmark_is_of_a_volume() {
    let mut plan = Plan::with_contents(large::directories(2), 3);
    let other = Volume { oid: 1027, first_node: 2000, contents: large::directories(3), ..plan.volumes[0].clone() };
    plan.volumes.push(other);
    plan.slots = vec![1026, 1027];
    let image = Image::planned("marked-volumes", plan);
    assert!(mark(&image, &[], [2, 3, 0]) != mark(&image, &["--volume", "1"], [2, 3, 0]));
    assert!(image.told(&["mark"], &["2", "9", "2"]).contains("there is no such record"));
    assert_eq!(mark(&image, &["--volume", "1"], [2, 9, 2]).len(), 49);
    assert!(image.told(&["mark", "--volume", "2"], &["2", "3", "0"]).contains("(refusal 4); the stick's volumes are"));
}

#[test]
fn what_bookmarks_do_not_take_is_told() {
    let image = Image::planned("marked-usage", Plan::sample());
    let usage = "usage: apfs mark IMAGE ID KIND PLACE [--volume N] [--checkpoint N] [--nodes]\n";
    let past = "18446744073709551616";
    for words in [&[][..], &["2", "3"], &["2", "3", "0", "0"], &["2", "256", "0"], &["x", "3", "0"], &["2", "3", past]]
    {
        assert_eq!(image.usage(&["mark"], words), usage, "{words:?}");
    }
    let usage = "usage: apfs marked IMAGE MARK [--checkpoint N] [--nodes]\n";
    let good = "0".repeat(48);
    for word in ["", "00", &good[1..], &format!("{good}0"), &"x".repeat(48), &format!("0x{}", &good[2..])] {
        assert_eq!(image.usage(&["marked"], &[word]), usage, "{word}");
    }
    for (words, rest) in [(&["marked"][..], &[][..]), (&["marked", "--volume", "0"], &[&good[..]])] {
        assert_eq!(image.usage(words, rest), usage);
    }
    assert!(image.usage(&["marked", "--block-size", "4096"], &[&good]).starts_with("usage: apfs marked "));
}
