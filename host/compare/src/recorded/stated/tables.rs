//! Partition tables: request 01 of document 02.

use sticks::block::{put, put32, put64};
use sticks::gpt::{around, mend};

use super::stick::{empty, BLOCK, ROOT_LINE};
use super::Said::{Refused, Text};
use super::{group, Group, Stated, ROOM};

const SECTOR: usize = 512;
const PRIMARY: usize = SECTOR;
const ARRAY: usize = 2 * SECTOR;
const ARRAY_BYTES: usize = 128 * 128;
/// The container begins here.
const FIRST: usize = 40 * SECTOR;
/// A header's fields, then an entry's.
const LENGTH: usize = 12;
const OWN: usize = 24;
const ARRAY_SECTOR: usize = 72;
const COUNT: usize = 80;
const ENTRY_LENGTH: usize = 84;
const FIRST_SECTOR: usize = 32;
const LAST_SECTOR: usize = 40;

fn table() -> Vec<u8> {
    around(&empty())
}

fn backup(image: &[u8]) -> usize {
    image.len() - SECTOR
}

/// The container's line, the root's and the listing.
fn found() -> Vec<Stated> {
    let line = format!("(container 4096 {} 100000 1026)\n", empty().len() / BLOCK);
    let list = format!("(volume 1 0 x41\n{ROOT_LINE}(data x)\n)\n(total 1 0 0)\n)\n");
    vec![
        Stated::open(Text(line)),
        Stated::lookup("", Text(ROOT_LINE.into())),
        Stated::list(ROOM, Text(list)),
        Stated::list(40, Refused(6)),
        Stated::lookup("", Refused(4)).of_volume(1),
    ]
}

fn refused(number: u64) -> Vec<Stated> {
    let all = |room: usize| [Stated::open(Refused(number)).into_room(room), Stated::list(room, Refused(number))];
    let mut cases: Vec<Stated> = [0, 40].into_iter().flat_map(all).collect();
    cases.push(Stated::lookup("", Refused(number)));
    cases
}

/// The header at byte `at` changed, its sums mended.
fn changed(mut image: Vec<u8>, at: usize, change: &dyn Fn(&mut [u8])) -> Vec<u8> {
    change(&mut image[at..]);
    mend(&mut image, at);
    image
}

/// Both headers changed so.
fn both(change: &dyn Fn(&mut [u8])) -> Vec<u8> {
    let image = changed(table(), PRIMARY, change);
    let at = backup(&image);
    changed(image, at, change)
}

/// The first entry of both arrays changed so.
fn entry(change: &dyn Fn(&mut [u8])) -> Vec<u8> {
    let mut image = table();
    let arrays = [ARRAY, backup(&image) - ARRAY_BYTES];
    arrays.into_iter().for_each(|at| change(&mut image[at..]));
    mend(&mut image, PRIMARY);
    let at = backup(&image);
    mend(&mut image, at);
    image
}

fn spoiled(at: usize, image: Vec<u8>) -> Vec<u8> {
    let mut image = image;
    image[at] ^= 1;
    image
}

pub fn groups() -> Vec<Group> {
    vec![tables(), headers(), entries(), parts()]
}

fn tables() -> Group {
    let lost = spoiled(PRIMARY, table());
    let at = backup(&lost);
    let mut own = table();
    put(&mut own, 0, &empty()[..SECTOR]);
    let cases = vec![
        (table(), found()),
        (lost.clone(), found()),
        (spoiled(at, table()), found()),
        (spoiled(at, lost.clone()), refused(11)),
        (lost[..lost.len() - 1].to_vec(), refused(11)),
        ([&lost[..], &[0; 511]].concat(), found()),
        ([&lost[..], &[0; 512]].concat(), refused(11)),
        (own, vec![Stated::open(Refused(2))]),
    ];
    group("a partition table, its backup, and neither", cases)
}

fn headers() -> Group {
    let length = |n: u32| both(&move |b| put32(b, LENGTH, n));
    let entry_length = |n: u32| both(&move |b| put32(b, ENTRY_LENGTH, n));
    let array = |n: u64| both(&move |b| put64(b, ARRAY_SECTOR, n));
    let untested: [usize; 5] = [8, 20, 32, 40, 56];
    let mut cases = vec![
        (spoiled(PRIMARY + 88, spoiled(backup(&table()) + 88, table())), refused(11)),
        (both(&|b| put64(b, OWN, 7)), refused(11)),
        (length(91), refused(11)),
        (length(512), found()),
        (length(513), refused(11)),
        (entry_length(64), refused(11)),
        (entry_length(192), refused(11)),
        (array(1 << 55 | 2), refused(11)),
        (array(1 << 63 | 2), refused(11)),
        (array(1 << 40), refused(11)),
        (both(&|b| put32(b, COUNT, 1)), found()),
        (both(&|b| put32(b, COUNT, 0)), refused(12)),
        (both(&|b| put32(b, COUNT, u32::MAX)), refused(11)),
    ];
    cases.extend(untested.map(|at| (both(&move |b| b[at] ^= 1), found())));
    group("what makes a header intact", cases)
}

fn entries() -> Group {
    let sectors = table().len() / SECTOR;
    let last = |n: usize| entry(&move |b| put64(b, LAST_SECTOR, n as u64));
    let moved = |b: &mut [u8], n: usize| b.copy_within(..128, n * 128);
    let primary_alone = changed(spoiled(ARRAY, table()), PRIMARY, &|_| {});
    let later = entry(&move |b| {
        moved(b, 5);
        b[..16].fill(0);
    });
    let second = entry(&move |b| {
        moved(b, 1);
        put64(b, LAST_SECTOR, 0);
    });
    let cases = vec![
        (primary_alone, refused(12)),
        (entry(&|b| b[15] ^= 1), refused(12)),
        (later, found()),
        (second, refused(12)),
        (last(39), refused(12)),
        (last(sectors - 1), found()),
        (last(sectors), refused(12)),
        (entry(&|b| put64(b, FIRST_SECTOR, u64::MAX)), refused(12)),
        (last((1 << 55) - 1), refused(12)),
    ];
    group("the first entry of the type", cases)
}

fn parts() -> Group {
    let mut none = table();
    put32(&mut none, FIRST + 32, 0);
    let last = |n: usize| entry(&move |b| put64(b, LAST_SECTOR, n as u64));
    let end = (FIRST + empty().len()) / SECTOR - 1;
    let cases = vec![
        (none, refused(4)),
        (last(40), refused(1)),
        (last(46), refused(1)),
        (last(47), refused(1)),
        // The image has the block that the part is a sector short of.
        (last(end - 1), refused(1)),
        (last(end), found()),
    ];
    group("parts that hold no whole container", cases)
}
