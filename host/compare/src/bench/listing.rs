//! Listings of flat and nested volumes of several sizes, of a file with data, and of nodes with attributes.
//! Both sides open the container and the volume for each listing. The Rust has no call that measures one: its measure
//! stands beside the port's own listing.

use std::hint::black_box;
use std::sync::Arc;

use sticks::contents::Contents;
use sticks::plan::large;
use sticks::random::Random;
use sticks::{make, Plan};

use crate::bench::{beside, line, Timed};
use crate::calls::directory::Rule;
use crate::list::trace::{End, Trace};
use crate::list::{walk, Port, Ports};
use crate::opening::answer::container;

const ENTRIES: [u64; 3] = [10, 1000, 100_000];
/// Below the root: one directory, or as many as can be listed with files in the last.
const DEPTHS: [(&str, u64); 2] = [("flat", 0), ("nested", 63)];
const ROOM: usize = 1 << 26;
const SIZE: u64 = 1 << 20;
const EXTENTS: [u64; 2] = [1, 1000];

fn by_oracle(image: &Arc<Vec<u8>>) -> Trace {
    let c = container(image).expect("a container");
    walk::with_room(image, &c, 0, ROOM, Rule::Length)
}

fn volume(what: &str, contents: Contents, port: Option<Port>) -> String {
    let image = Arc::new(make(Plan::with_contents(contents, 5)).image);
    let want = by_oracle(&image);
    let text = want.text;
    assert!(want.end == End::Whole, "{:?}", want.end);
    let mut buffer = vec![0; text.len()];
    let n = port.map(|p| p(&image, 0, &mut buffer));
    assert!(n.is_none_or(|n| n == text.len() as i64 && buffer == text), "{n:?} and not {}", text.len());
    let mut oracle = || drop(black_box(by_oracle(black_box(&image))));
    let mut ours = || {
        black_box(port.map(|p| p(black_box(&image), 0, &mut buffer)));
    };
    let ours: Option<Timed> = port.is_some().then_some(&mut ours);
    line(&format!("listing of {what}"), &mut oracle, None, ours)
}

/// In a buffer that it fills, and measured.
fn measured(what: &str, contents: Contents, ports: Ports) -> String {
    let image = make(Plan::with_contents(contents, 5)).image;
    let (mut buffer, mut room) = (vec![0; ROOM], [0; 64]);
    let length = (ports.list)(&image, 0, &mut buffer);
    let n = (ports.measure)(&image, 0, &mut room);
    let told = String::from_utf8_lossy(&room[..n.clamp(0, 64) as usize]).into_owned();
    assert!(told.starts_with(&format!("(measure {length} ")), "{n}: {told}, of {length} bytes");
    buffer.truncate(length as usize);
    let mut list = || {
        black_box((ports.list)(black_box(&image), 0, &mut buffer));
    };
    let mut measure = || {
        black_box((ports.measure)(black_box(&image), 0, &mut room));
    };
    beside(&format!("measuring the listing of {what}"), ("listing", &mut list), ("measuring", &mut measure))
}

fn file(extents: u64) -> (String, Contents) {
    let contents = large::file(SIZE, extents, 4096, &mut Random::new(7));
    (format!("a file of 1 MiB in {extents:>4} extents"), contents)
}

fn spread(n: u64, name: &str, depth: u64) -> (String, Contents) {
    (format!("{n:>6} entries, {name:6}"), large::spread(n, depth))
}

/// Medians in lines of text; without a port, the oracle's alone.
pub fn run(ports: Option<Ports>) -> String {
    let volumes: Vec<_> = DEPTHS.into_iter().flat_map(|(name, depth)| ENTRIES.map(|n| (n, name, depth))).collect();
    let attributed = ("  1000 nodes with attributes".to_string(), large::attributed(1000));
    let all = volumes.iter().map(|(n, name, depth)| spread(*n, name, *depth)).chain(EXTENTS.map(file));
    let listed = all.chain([attributed]).map(|(what, contents)| volume(&what, contents, ports.map(|p| p.list)));
    let large = volumes.iter().filter(|v| v.0 > ENTRIES[0]).map(|(n, name, depth)| spread(*n, name, *depth));
    let measured =
        large.chain([file(EXTENTS[1])]).filter_map(|(what, contents)| Some(measured(&what, contents, ports?)));
    listed.chain(measured).collect()
}
