//! Lookups in directories of several sizes, their entries a buffer after the other, and reads of files in few and many
//! extents. The port opens the container and the volume in each call; so does the oracle, and beside that it is timed
//! on a volume that was opened before.

use std::hint::black_box;
use std::sync::Arc;

use oracle::fs::Volume;
use sticks::contents::Contents;
use sticks::plan::large;
use sticks::random::Random;
use sticks::{make, Plan};

use crate::bench::{line, Timed};
use crate::calls::call::Call;
use crate::calls::check::Subject;
use crate::calls::directory::{Directories, Rule};
use crate::calls::expected::{self, of_image, Answer};
use crate::calls::Port;
use crate::image::Image;
use crate::opening::answer::container;

const WIDTHS: [u64; 3] = [10, 1000, 100_000];
const EXTENTS: [u64; 2] = [1, 1000];
const SIZE: u64 = 1 << 20;
const PIECE: usize = 1 << 16;
const FILE: u64 = 100;
const ROOT: u64 = 2;
/// Of entries, as the tool's `ls` has it.
const ROOM: usize = 1 << 20;

fn check(port: Option<Port>, image: &Arc<Vec<u8>>, call: &Call) {
    let want = of_image(&Image::of(Arc::clone(image)), 0, call);
    assert!(matches!(want.answer, Answer::Bytes(_)), "{call}: {want:?}");
    let checked = port.map(|port| Subject { port, image, volume: 0, call }.check(&want, &mut Random::new(1)));
    if let Some(Err(e)) = checked {
        panic!("{call}: {e}");
    }
}

/// Times the calls one after the other; `by_oracle` makes one of them on an open volume.
pub fn timed(
    what: &str,
    contents: Contents,
    calls: &[Call],
    by_oracle: &dyn Fn(&Volume, &Call),
    port: Option<Port>,
) -> String {
    let image = Arc::new(make(Plan::with_contents(contents, 5)).image);
    calls.iter().for_each(|call| check(port, &image, call));
    let mut fresh = || {
        for call in calls {
            let c = container(black_box(&image)).expect("a container");
            by_oracle(&c.volume(0).expect("a volume"), call);
        }
    };
    let c = container(&image).expect("a container");
    let v = c.volume(0).expect("a volume");
    let mut warm = || calls.iter().for_each(|call| by_oracle(&v, call));
    let mut buffer = vec![0; ROOM];
    let mut ours = || {
        for call in calls {
            let room = call.room().unwrap_or(PIECE);
            black_box(port.map(|p| p(black_box(&image), 0, call, &mut buffer[..room])));
        }
    };
    let ours: Option<Timed> = port.is_some().then_some(&mut ours);
    line(what, &mut fresh, Some(&mut warm), ours)
}

/// With regard to case, or without and in another case than the names'.
fn lookup(width: u64, sensitive: bool, port: Option<Port>) -> String {
    let (path, how) = if sensitive { ("next/next/last", "sensitive") } else { ("Next/NEXT/lasT", "insensitive") };
    let by_oracle = |v: &Volume, _: &Call| drop(black_box(v.lookup_path(path).expect("an inode")));
    let what = format!("lookup through three directories of {width:>6}, {how:11}");
    let call = Call::Lookup { path: path.into() };
    let mut contents = large::directories(width);
    contents.case_insensitive = !sensitive;
    contents.normalization_insensitive = !sensitive;
    contents.form_keys();
    timed(&what, contents, &[call], &by_oracle, port)
}

/// Up to the one past the last. The oracle too reads the directory in each call and writes the lines that fit.
fn entries(width: u64, port: Option<Port>) -> String {
    let contents = large::spread(width, 0);
    let image = Image::of(make(Plan::with_contents(contents.clone(), 5)).image);
    let (mut calls, mut place, mut last) = (Vec::new(), 0, false);
    while !last {
        let call = Call::Entries { id: ROOT, place, length: ROOM };
        let Answer::Bytes(text) = of_image(&image, 0, &call).answer else { panic!("{call}") };
        place += text.iter().filter(|&&b| b == b'\n').count() as u64;
        last = text.is_empty();
        calls.push(call);
    }
    let by_oracle = |v: &Volume, call: &Call| {
        let Call::Entries { id, place, length } = call else { unreachable!("entries alone") };
        black_box(expected::entries(&Directories::of(v, Rule::Length), *id, *place, *length).is_ok());
    };
    timed(&format!("a directory of {width:>6} entries, in buffers of 1 MiB"), contents, &calls, &by_oracle, port)
}

fn read(extents: u64, port: Option<Port>) -> String {
    let contents = large::file(SIZE, extents, 4096, &mut Random::new(7));
    let piece = |i: u64| Call::Read { id: FILE, offset: i * PIECE as u64, length: PIECE };
    let calls: Vec<Call> = (0..SIZE / PIECE as u64).map(piece).collect();
    let by_oracle = |v: &Volume, call: &Call| {
        let Call::Read { id, offset, length } = call else { unreachable!("reads alone") };
        let mut buffer = vec![0; *length];
        let inode = v.inode(*id).expect("an inode");
        black_box(v.read_at(&inode, *offset, &mut buffer).expect("bytes"));
    };
    let what = format!("reading 1 MiB in pieces of 64 KiB, {extents:>4} extents");
    timed(&what, contents, &calls, &by_oracle, port)
}

/// Medians in lines of text; without a port, the oracle's alone.
pub fn run(port: Option<Port>) -> String {
    let rules = [true, false].into_iter();
    let lookups = rules.flat_map(|sensitive| WIDTHS.map(|n| lookup(n, sensitive, port)));
    let entries = WIDTHS.into_iter().map(|n| entries(n, port));
    lookups.chain(entries).chain(EXTENTS.into_iter().map(|n| read(n, port))).collect()
}
