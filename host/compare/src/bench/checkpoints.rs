//! The list of the checkpoints, and opening by number, beside the Rust's opening of the same container: it has neither.

use std::hint::black_box;
use std::sync::Arc;

use sticks::{make, Plan};

use crate::bench::line;
use crate::checkpoints::Ports;
use crate::opening::answer;

const RINGS: [u32; 3] = [8, 280, 4096];
const LATEST: u64 = 100_000;
const NO_CHECKPOINT: i64 = -13;

type Asked<'a> = &'a dyn Fn(&mut [u8]) -> i64;

fn ring(blocks: u32, ports: Ports) -> String {
    let image = Arc::new(make(Plan::with_ring(blocks, 5)).image);
    let count = i64::from(blocks / 2);
    let mut room = vec![0; 8 * blocks as usize];
    let row = |what: &str, room: &mut [u8], ask: Asked| {
        let mut by_oracle = || drop(black_box(answer::container(black_box(&image))));
        let mut ours = || {
            black_box(ask(room));
        };
        line(&format!("{what}, ring of {blocks:>4}"), &mut by_oracle, None, Some(&mut ours))
    };
    let list = |out: &mut [u8]| (ports.numbers)(black_box(&image), out);
    let latest = |out: &mut [u8]| (ports.open)(black_box(&image), LATEST, out);
    let none = |out: &mut [u8]| (ports.open)(black_box(&image), LATEST + 1, out);
    assert_eq!((list(&mut room), none(&mut room)), (count, NO_CHECKPOINT), "a ring of {blocks}");
    assert!(latest(&mut room) > 0, "a ring of {blocks}");
    [
        row("checkpoints, all", &mut room, &list),
        row("checkpoints, all, fitting", &mut vec![0; 8 * count as usize], &list),
        row("opening by number, the latest", &mut [0; 4096], &latest),
        row("opening by number, none", &mut [0; 4096], &none),
    ]
    .concat()
}

/// Medians for each ring, in lines of text, with a port alone.
pub fn run(ports: Option<Ports>) -> String {
    ports.map_or(String::new(), |ports| RINGS.into_iter().map(|blocks| ring(blocks, ports)).collect())
}
