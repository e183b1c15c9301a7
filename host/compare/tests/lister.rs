//! The program `lister` prints the listing of an image on its standard input as the oracle's own calls give
//! it, or the refusal's number. `tools/archives.sh lister` makes the program.

#![cfg(all(oracle, feature = "calls"))]

use std::collections::BTreeMap;
use std::io::Write;
use std::process::{Command, Stdio};

use compare::image::Image;
use compare::list::trace::End;
use compare::list::walk;
use compare::opening::run::stick_seed;
use compare::recorded::read::of_cases;
use sticks::gpt::draw;
use sticks::Stick;

const LISTER: &str = concat!(env!("CARGO_MANIFEST_DIR"), "/../../target/bin/lister");
/// The longest input, and the longest listing.
const ROOM: usize = 65_536;
const STICKS: u64 = 20;
const TABLES: u64 = 60;

fn printed(image: &[u8]) -> Vec<u8> {
    let command = Command::new(LISTER).stdin(Stdio::piped()).stdout(Stdio::piped()).spawn();
    let mut lister = command.unwrap_or_else(|e| panic!("{LISTER}: {e}; `tools/archives.sh lister` makes it"));
    let mut input = lister.stdin.take().expect("a pipe");
    let image = image.to_vec();
    // Of an image that is too long the lister reads no more than it needs.
    let writer = std::thread::spawn(move || drop(input.write_all(&image)));
    let output = lister.wait_with_output().expect("its output");
    writer.join().expect("a writer");
    assert!(output.status.success());
    output.stdout
}

/// What must be printed, and its kind; nothing where neither the oracle nor document 01 tells.
fn expected(image: &[u8]) -> Option<(String, Vec<u8>)> {
    let refusal = |n: u64| (format!("refused {n}"), format!("(refused {n})\n").into_bytes());
    if image.len() > ROOM {
        return Some(refusal(7));
    }
    let trace = walk::of_image(&Image::of(image.to_vec()), 0);
    match (trace.refusal(ROOM), &trace.end) {
        (_, End::Open(_)) => None,
        (Some(n), _) => Some(refusal(n)),
        (None, End::Whole) => Some(("listed".into(), trace.text)),
        (None, end) => panic!("{end:?}"),
    }
}

/// Images of nothing, sticks that are longer than the lister takes, tables around nothing, and those of the recorded calls.
fn images() -> Vec<Vec<u8>> {
    let mut images: Vec<Vec<u8>> = [0, 1, 4095, 4096, ROOM, ROOM + 1, 3 * ROOM].map(|n| vec![0; n]).into();
    images.extend((0..STICKS).map(|i| Stick::from_seed(stick_seed(9, i)).image));
    images.extend((0..TABLES).map(|seed| draw(&[0; 4096], seed).image));
    images.extend(of_cases().expect("a whole file").into_iter().map(|r| r.image.to_vec()));
    images.dedup();
    images
}

#[test]
fn it_prints_what_the_oracle_lists() {
    let usual = std::panic::take_hook();
    std::panic::set_hook(Box::new(move |info| {
        if !info.to_string().ends_with("with overflow") {
            usual(info);
        }
    }));
    let mut seen: BTreeMap<String, u64> = BTreeMap::new();
    for image in images() {
        if let Some((kind, text)) = expected(&image) {
            assert_eq!(String::from_utf8_lossy(&printed(&image)), String::from_utf8_lossy(&text));
            *seen.entry(kind).or_default() += 1;
        }
    }
    println!("{seen:?}");
    assert!(seen.contains_key("listed"), "{seen:?}");
    for number in [1, 2, 3, 4, 6, 7, 8, 11, 12] {
        assert!(seen.contains_key(&format!("refused {number}")), "no image was refused with {number}: {seen:?}");
    }
}
