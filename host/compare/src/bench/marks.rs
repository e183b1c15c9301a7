//! The bookmark of a directory's last entry, and the record that it leads to, beside the Rust's scan for that record: it
//! has no bookmarks.

use std::hint::black_box;

use oracle::fs::{Volume, APFS_TYPE_DIR_REC};
use oracle::probe;
use sticks::plan::large;
use sticks::{make, Plan};

use crate::bench::calls::timed;
use crate::calls::call::Call;
use crate::calls::expected::{of_image, Answer};
use crate::calls::Port;
use crate::image::Image;

const WIDTHS: [u64; 3] = [10, 1000, 100_000];
const ROOT: u64 = 2;

fn scan(v: &Volume, place: u64) {
    let mut left = place;
    let scanned = probe::records(v, ROOT, APFS_TYPE_DIR_REC, &mut |key, value| {
        black_box((key, value));
        let on = left > 0;
        left = left.saturating_sub(1);
        Ok(on)
    });
    scanned.expect("a record");
}

fn rows(width: u64, port: Option<Port>) -> String {
    let (contents, place) = (large::spread(width, 0), width - 1);
    let mark = Call::Mark { id: ROOT, kind: APFS_TYPE_DIR_REC, place };
    let image = Image::of(make(Plan::with_contents(contents.clone(), 5)).image);
    let Answer::Bytes(bytes) = of_image(&image, 0, &mark).answer else { panic!("{mark}") };
    let by_oracle = |v: &Volume, _: &Call| scan(v, place);
    let row = |what: &str, call: Call| {
        timed(&format!("{what} of {width:>6} entries"), contents.clone(), &[call], &by_oracle, port)
    };
    row("the bookmark of the last", mark) + &row("the record that it leads to,", Call::Marked { mark: bytes })
}

/// Medians in lines of text; without a port, the oracle's alone.
pub fn run(port: Option<Port>) -> String {
    WIDTHS.into_iter().map(|width| rows(width, port)).collect()
}
