//! Request 06: the nodes that a listing goes through, cut at its lines, with a fault, and too long to measure.

use sticks::contents::{Contents, Data, Key};
use sticks::make;

use super::nodes::{list, listing, lookup, measure, on, rounds_image, INODE, IN_ROOT, LISTED, OPENED, ROOT_INODE};
use super::stick::{at_block, contents, directory, entry, file, image, sized, FILE, ROOT};
use super::Said::{Answered, Refused};
use super::{group, Group};
use crate::desks::edges::{rounds, wide, ABSENT, DIRECTORY, STREAMS};
use crate::desks::request as what;
use crate::image::Image;
use crate::list::walk;

/// Of sparse files: a line of more than 4,294,967,295 bytes.
const VAST: u64 = 1 << 31;

pub fn groups() -> Vec<Group> {
    vec![lines(), faults(), vast()]
}

/// Lines before the first entry's.
const OF_ROOT: usize = 6;

/// Nodes for each line of that listing, after the line before.
fn by_line() -> Vec<u64> {
    let file = [0, INODE, list(0) + list(0) + list(2), 0, 0];
    let root: [u64; OF_ROOT] = [0, ROOT_INODE, list(3) + list(4), list(1), list(1), list(0)];
    let dir = [0, INODE, list(0) + list(1) + list(0)];
    let link = [0, INODE, list(1) + list(0) + list(1), list(0), 0, 0];
    let packed = [0, INODE, list(0) + list(0), 0, 0];
    [&root[..], &file, &dir, &file, &[0, 0], &link, &packed, &[0, 0, 0]].concat()
}

/// 6 at every line up to the first file's, and at the last: its own reading is counted, and nothing after it.
fn lines() -> Group {
    let image = rounds_image();
    let text = walk::of_image(&Image::of(image.clone()), 0).text;
    let mut cases = Vec::new();
    let (mut end, mut n) = (0, OPENED);
    for (i, (line, more)) in text.split_inclusive(|&b| b == b'\n').zip(by_line()).enumerate() {
        (end, n) = (end + line.len(), n + more);
        if i < OF_ROOT + 3 || end == text.len() {
            cases.push(listing(n, Refused(6)).into_room(end - 1));
        }
    }
    cases.push(listing(n, Answered).into_room(end));
    group("nodes of a listing that is cut at each line", vec![(image, cases)])
}

fn with(change: fn(&mut Contents)) -> Vec<u8> {
    let mut c = rounds();
    change(&mut c);
    make(wide(c)).image
}

/// The root's line, attributes and entries.
const ROOT_LISTS: u64 = OPENED + ROOT_INODE + list(3) + list(4);

fn faults() -> Group {
    let both = |n: u64, number: u64| vec![listing(n, Refused(number)), measure(n, Refused(number))];
    let listed = |n: u64, number: u64| vec![listing(n, Refused(number))];
    let and_list =
        |n: u64, what: u64, of_list: u64| vec![listing(n, Refused(2)), on(what, ROOT, 0, OPENED + of_list, Refused(2))];
    // Up to the second record.
    let second = list(2);
    let lost = |c: &mut Contents, id: u64| {
        let stream = c.streams.iter_mut().find(|s| s.id == id).expect("a stream");
        stream.extents[0] = at_block(0, 4096, 1 << 30);
    };
    let of_stream = |id: u64| {
        let mut c = rounds();
        lost(&mut c, id);
        make(wide(c)).image
    };
    // A directory that holds itself, 64 deep; all is in the tree's root, and each node has four readings.
    let endless =
        image(contents(vec![directory(ROOT, &[("a", DIRECTORY)]), directory(DIRECTORY, &[("a", DIRECTORY)])]));
    let attribute = with(|c| c.files[0].attributes[1].data = Data::Embedded(vec![0; 3]));
    let key = with(|c| c.files[0].entries[1].key = Key::Wrong);
    let twice = with(|c| c.files.push(c.files[1].clone()));
    let absent = with(|c| c.files[0].entries.push(entry(Key::Hashed, "none", ABSENT)));
    let cases = vec![
        (attribute, and_list(OPENED + ROOT_INODE + second, what::XATTR, second)),
        (key, and_list(OPENED + ROOT_INODE + list(3) + second, what::ENTRIES, second)),
        (of_stream(STREAMS[0]), both(ROOT_LISTS + list(1), 2)),
        (of_stream(FILE), listed(ROOT_LISTS + 2 * list(1) + list(0) + INODE + 2 * list(0) + list(2), 2)),
        (absent, listed(LISTED + 2 + list(0), 4)),
        (endless, both(OPENED + 65 * 4, 10)),
        (twice, vec![lookup("data", IN_ROOT + INODE, Answered)]),
    ];
    group("nodes of listings and lists with a fault", cases)
}

/// A measurement goes through what a listing into 4,294,967,295 bytes does.
fn vast() -> Group {
    let mut c = sized(VAST, vec![at_block(0, 4096, 0)]);
    c.files[0] = directory(ROOT, &[("data", FILE), ("dir", DIRECTORY)]);
    c.files.push(file(DIRECTORY));
    // Two nodes of four readings each, all in the tree's root.
    let up_to = OPENED + 2 * 4;
    let cases = vec![measure(up_to, Refused(14)), listing(up_to, Refused(6))];
    group("nodes of a listing that is too long to measure", vec![(image(c), cases)])
}
