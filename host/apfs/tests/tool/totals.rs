//! Request 08: that a print is whole is seen by its last line but one.

use sticks::contents::{Contents, Data, STREAM_FIELD};
use sticks::Plan;

use crate::image::{out, Image};

const STICKS: u64 = 150;

/// The last line but one by the lines of the print.
fn counted(text: &str) -> String {
    let starts = |form: &str| text.lines().filter(|l| l.starts_with(form)).count();
    let bytes = |l: &str| l.strip_prefix("(data x").and_then(|l| l.strip_suffix(')')).map_or(0, |hex| hex.len() / 2);
    let bytes: usize = text.lines().map(bytes).sum();
    format!("(total {} {bytes} {})", starts("(node "), starts("(attr "))
}

fn foot(text: &str) -> Vec<&str> {
    let lines: Vec<&str> = text.split('\n').collect();
    lines[lines.len() - 3..].to_vec()
}

#[test]
fn the_sample_is_counted() {
    let text = out(Image::planned("totals", Plan::sample()).run(&["list"], &[]));
    assert_eq!(foot(&text), ["(total 7 12395 3)", ")", ""]);
}

#[test]
fn drawn_sticks_are_counted() {
    let mut listed = 0;
    for plan in (0..STICKS).map(Plan::draw) {
        for volume in ["0", "1"] {
            let o = Image::planned("drawn-totals", plan.clone()).run(&["--volume", volume, "list"], &[]);
            if o.status.success() {
                let text = out(o);
                assert_eq!(foot(&text), [&counted(&text), ")", ""], "stick {}", plan.seed);
                listed += 1;
            }
        }
    }
    assert!(listed > 50, "{listed}");
}

/// The sample's contents, its log under a second name and its meter packed.
fn linked_and_packed() -> Contents {
    let mut c = Plan::sample().volumes[0].contents.clone();
    let of = |c: &Contents, id: u64| c.files.iter().position(|f| f.inode.id == id).expect("a file");
    let (rounds, notes, meter) = (of(&c, 16), of(&c, 17), of(&c, 20));
    let log = c.files[rounds].entries.iter().find(|e| e.id == 19).expect("an entry").clone();
    c.files[notes].entries.push(log);
    c.files[meter].inode.bsd |= 0x20;
    assert!(c.files[meter].inode.last(STREAM_FIELD).is_some());
    assert!(c.files[of(&c, 19)].attributes.iter().any(|a| matches!(a.data, Data::Stream { .. })));
    c
}

/// 70 bytes and two attributes once more, and 12,299 bytes not shown.
#[test]
fn a_second_name_counts_and_a_packed_file_does_not() {
    let text = out(Image::holding("linked", linked_and_packed()).run(&["list"], &[]));
    assert_eq!(foot(&text), ["(total 8 166 5)", ")", ""]);
    assert_eq!(counted(&text), "(total 8 166 5)");
}
