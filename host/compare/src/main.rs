//! Compares the port with the published Rust.
//!
//! In the repository, `tools/archives.sh leaves`; then, in host/:
//!
//! ```text
//! cargo run --release -p compare                    compare, and say how many cases of each kind agreed
//! cargo run --release -p compare -- --seed 7        the same with other drawn cases
//! cargo run --release -p compare -- record FILE     write a sample of the oracle's answers
//! cargo run --release -p compare -- replay FILE     hold the port against such a sample
//! cargo run --release -p compare -- record-calls FILE   write document 01's cases and a sample of calls on sticks
//! cargo run --release -p compare -- sticks          open containers, whole and damaged
//! cargo run --release -p compare -- sticks --seed 7 --count 20000
//! cargo run --release -p compare -- volumes         open their volumes
//! cargo run --release -p compare -- calls           the calls on their volumes, and bookmarks of their records
//! cargo run --release -p compare -- list            the listings of their volumes, and their measures
//! cargo run --release -p compare -- parts           all of these on images with a partition table
//! cargo run --release -p compare -- checkpoints     all of these at earlier checkpoints, and the list of those
//! cargo run --release -p compare -- pairs           two sticks at a time: the same contents, and one thing changed
//! cargo run --release -p compare -- maps            their object maps held against a walk over all entries
//! cargo run --release -p compare -- words           the lists of wrong words of failing objects
//! cargo run --release -p compare -- desks           the node counts of desks that make all of these calls
//! cargo run --release -p compare -- reach           every call of the oracle on sticks, and what became of it
//! cargo run --release -p compare -- open FILE..     open these images, and print each answer
//! ```
//!
//! After `tools/archives.sh apfs`, with `--features apfs`, `sticks`, `words` and `open` hold the port's opening and its lists
//! of wrong words against the oracle's, and with `--features calls` `volumes`, `calls`, `list`, `parts`, `checkpoints`,
//! `pairs` and `desks` do the same of its calls, its listings and its counts; without these features they ask the oracle
//! alone, as `maps` always does.
//! Timings of both:
//!
//! ```text
//! cargo run --profile speed --features calls -p compare -- bench
//! ```
//!
//! The exit status is 0 where all agree and every kind of case was seen, 1 where not, and 2 where
//! the arguments are wrong, a file cannot be used, or the published sources were not there when
//! this was built (`replay` does without them). WINAPFS_SRC and APFS_STATICLIB_DIR, read when this
//! is built, name other folders for the sources and the port's archives.

#[cfg_attr(not(oracle), path = "no_commands.rs")]
mod commands;

use std::process::exit;

use compare::record;

const DEFAULT_SEED: u64 = 20_261;
const DEFAULT_STICKS: u64 = 4000;
/// Each stick has some 360 calls made on it, most of them twice.
const DEFAULT_FOR_CALLS: u64 = 3000;
/// Each listing is a walk of the port through a whole volume, for each of two to ten buffers.
const DEFAULT_FOR_LISTS: u64 = 1600;
/// Each image with a table has some 40 calls made on it, one of four as many as a stick.
const DEFAULT_FOR_PARTS: u64 = 4000;
/// Each stick is asked about at up to five numbers.
const DEFAULT_FOR_CHECKPOINTS: u64 = 1000;
/// Each stick has a second one beside it, and others with one thing changed.
const DEFAULT_FOR_PAIRS: u64 = 300;
/// Each stick is damaged six times, and each of its maps asked about some 200 targets.
const DEFAULT_FOR_MAPS: u64 = 2000;
/// Objects of up to 16,384 bytes, of which the oracle sums all for each word.
const DEFAULT_FOR_WORDS: u64 = 20_000;
/// Each stick has some eight images, and some 60 calls are made on each volume of one, most of them twice.
const DEFAULT_FOR_DESKS: u64 = 200;
const USAGE: &str =
    "usage: compare [record FILE | record-calls FILE | replay FILE | sticks | volumes | calls | list | parts | checkpoints | pairs | maps | words | desks | reach | bench | open FILE..] \
                     [--seed N] [--count K]";

enum Command {
    Compare,
    Record(String),
    RecordCalls(String),
    Replay(String),
    Sticks,
    Volumes,
    Calls,
    List,
    Parts,
    Checkpoints,
    Pairs,
    Maps,
    Words,
    Desks,
    Reach,
    Bench,
    Open(Vec<String>),
}

struct Arguments {
    command: Command,
    seed: u64,
    count: u64,
}

fn stop(message: &str) -> ! {
    eprintln!("compare: {message}");
    exit(2)
}

fn arguments() -> Arguments {
    let (mut seed, mut count) = (DEFAULT_SEED, None);
    let mut words = Vec::new();
    let mut args = std::env::args().skip(1);
    while let Some(word) = args.next() {
        let mut number = || {
            let n = args.next().and_then(|n| n.parse().ok());
            n.unwrap_or_else(|| stop(&format!("{word} takes a number")))
        };
        match word.as_str() {
            "--seed" => seed = number(),
            "--count" => count = Some(number()),
            _ => words.push(word),
        }
    }
    let command = command(&words);
    let usual = match command {
        Command::Calls => DEFAULT_FOR_CALLS,
        Command::List => DEFAULT_FOR_LISTS,
        Command::Parts => DEFAULT_FOR_PARTS,
        Command::Checkpoints => DEFAULT_FOR_CHECKPOINTS,
        Command::Pairs => DEFAULT_FOR_PAIRS,
        Command::Maps => DEFAULT_FOR_MAPS,
        Command::Words => DEFAULT_FOR_WORDS,
        Command::Desks => DEFAULT_FOR_DESKS,
        _ => DEFAULT_STICKS,
    };
    Arguments { command, seed, count: count.unwrap_or(usual) }
}

fn command(words: &[String]) -> Command {
    match words.iter().map(String::as_str).collect::<Vec<_>>()[..] {
        [] => Command::Compare,
        ["record", file] => Command::Record(file.into()),
        ["record-calls", file] => Command::RecordCalls(file.into()),
        ["replay", file] => Command::Replay(file.into()),
        ["sticks"] => Command::Sticks,
        ["volumes"] => Command::Volumes,
        ["calls"] => Command::Calls,
        ["list"] => Command::List,
        ["parts"] => Command::Parts,
        ["checkpoints"] => Command::Checkpoints,
        ["pairs"] => Command::Pairs,
        ["maps"] => Command::Maps,
        ["words"] => Command::Words,
        ["desks"] => Command::Desks,
        ["reach"] => Command::Reach,
        ["bench"] => Command::Bench,
        ["open", _, ..] => Command::Open(words[1..].to_vec()),
        _ => stop(USAGE),
    }
}

fn replay(file: &str) {
    let bytes = std::fs::read(file).unwrap_or_else(|e| stop(&format!("{file}: {e}")));
    let records = record::decode(&bytes).unwrap_or_else(|e| stop(&format!("{file}: {e}")));
    let differ: Vec<usize> =
        (0..records.len()).filter(|&i| records[i].case().answer() != records[i].expected).collect();
    println!("{} agree, {} differ", records.len() - differ.len(), differ.len());
    if let Some(&first) = differ.first() {
        println!("first: record {first}, {:?}, got {}", records[first], records[first].case().answer());
        exit(1);
    }
}

fn main() {
    let Arguments { command, seed, count } = arguments();
    match command {
        Command::Compare => commands::compare_leaves(seed),
        Command::Record(file) => commands::record(&file, seed),
        Command::RecordCalls(file) => commands::record_calls(&file, seed),
        Command::Replay(file) => replay(&file),
        Command::Sticks => commands::sticks(seed, count),
        Command::Volumes => commands::volumes(seed, count),
        Command::Calls => commands::calls(seed, count),
        Command::List => commands::list(seed, count),
        Command::Parts => commands::parts(seed, count),
        Command::Checkpoints => commands::checkpoints(seed, count),
        Command::Pairs => commands::pairs(seed, count),
        Command::Maps => commands::maps(seed, count),
        Command::Words => commands::words(seed, count),
        Command::Desks => commands::desks(seed, count),
        Command::Reach => commands::reach(seed, count),
        Command::Bench => commands::bench(),
        Command::Open(files) => commands::open(&files),
    }
}
