//! What a partition table costs a call of the port: on a stick with a table, on the part of it, and on the container that
//! was put there.

use std::hint::black_box;
use std::time::Duration;

use sticks::gpt::{around, expected_part};
use sticks::plan::large;
use sticks::{make, Plan};

use crate::bench::{medians, Timed};
use crate::calls::call::Call;
use crate::parts::Ports;

const ROOM: usize = 4096;

type Asked<'a> = &'a dyn Fn(&[u8], &mut [u8]) -> i64;

/// The calls must answer alike on all three.
fn row(what: &str, images: [&[u8]; 3], ask: Asked) -> String {
    let said = images.map(|image| {
        let mut out = [0; ROOM];
        (ask(image, &mut out), out)
    });
    assert!(said[0].0 > 0 && said[0] == said[1] && said[0] == said[2], "{what}: {:?}", said.map(|s| s.0));
    let mut buffers = [[0; ROOM]; 3];
    let mut timed: Vec<Box<dyn FnMut() + '_>> = Vec::new();
    for (image, out) in images.into_iter().zip(&mut buffers) {
        timed.push(Box::new(move || {
            black_box(ask(black_box(image), out));
        }));
    }
    let mut runs: Vec<Timed> = timed.iter_mut().map(|run| run.as_mut() as Timed).collect();
    let [bare, part, table]: [Duration; 3] = medians(&mut runs).try_into().expect("three medians");
    let cost = table.saturating_sub(bare);
    format!(
        "{what}: container {bare:>9.2?}, its part {part:>9.2?}, with a table {table:>9.2?}, the table {cost:>9.2?}\n"
    )
}

/// Medians in lines of text, of the port alone.
pub fn run(ports: Option<Ports>) -> String {
    let Some(ports) = ports else { return String::new() };
    let container = make(Plan::with_contents(large::directories(10), 5)).image;
    let stick = around(&container);
    let (start, length) = expected_part(&stick).expect("a part");
    let images = [&container[..], &stick[start..start + length], &stick[..]];
    let lookup = Call::Lookup { path: b"next/next/last".to_vec() };
    let call = |image: &[u8], out: &mut [u8]| (ports.call)(image, 0, &lookup, out);
    let rows = [("opening, 128 entries", ports.open), ("lookup,  128 entries", &call)];
    rows.into_iter().map(|(what, ask)| row(what, images, ask)).collect()
}
