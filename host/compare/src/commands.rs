//! The commands that need the oracle.

use std::path::Path;
use std::process::exit;

use compare::calls::{self, Port};
use compare::comparison::Comparison;
use compare::image::Image;
use compare::opening::run::{judge, Run};
use compare::opening::{answer, Open};
use compare::pairs::{self, by_oracle, Ports};
use compare::volumes::Volumes;
use compare::words;
use compare::{bench, cases, checkpoints, desks, list, maps, marks, parts, reach, record, recorded, sample};

use sticks::gpt::expected_part;

use crate::stop;

fn port() -> Option<Open<'static>> {
    #[cfg(feature = "apfs")]
    return Some(&compare::port::open);
    #[cfg(not(feature = "apfs"))]
    None
}

fn words_port() -> Option<Open<'static>> {
    #[cfg(feature = "apfs")]
    return Some(&compare::port::wrong_words);
    #[cfg(not(feature = "apfs"))]
    None
}

fn calls_port() -> Option<Port<'static>> {
    #[cfg(feature = "calls")]
    return Some(&calls::port);
    #[cfg(not(feature = "calls"))]
    None
}

#[cfg(feature = "calls")]
fn latest_list(image: &[u8], volume: u64, out: &mut [u8]) -> i64 {
    use compare::port::calls::{list, Which};
    list(image, Which::latest(volume), out)
}

#[cfg(feature = "calls")]
fn latest_measure(image: &[u8], volume: u64, out: &mut [u8]) -> i64 {
    use compare::port::calls::{measure, Which};
    measure(image, Which::latest(volume), out)
}

fn list_ports() -> Option<list::Ports<'static>> {
    #[cfg(feature = "calls")]
    return Some(list::Ports { list: &latest_list, measure: &latest_measure });
    #[cfg(not(feature = "calls"))]
    None
}

fn list_port() -> Option<list::Port<'static>> {
    list_ports().map(|p| p.list)
}

fn parts_ports() -> Option<parts::Ports<'static>> {
    #[cfg(feature = "calls")]
    return Some(parts::Ports {
        part: &compare::port::part,
        open: &compare::port::open,
        call: &calls::port,
        list: list::Ports { list: &latest_list, measure: &latest_measure },
    });
    #[cfg(not(feature = "calls"))]
    None
}

fn checkpoints_ports() -> Option<checkpoints::Ports<'static>> {
    #[cfg(feature = "calls")]
    {
        use compare::port::calls::{list, measure, Which};
        return Some(checkpoints::Ports {
            numbers: &compare::port::checkpoints,
            open: &compare::port::open_at,
            call: &|image, xid, volume, call, out| calls::port_of(image, Which::at(xid, volume), call, out),
            list: &|image, xid, volume, out| list(image, Which::at(xid, volume), out),
            measure: &|image, xid, volume, out| measure(image, Which::at(xid, volume), out),
        });
    }
    #[cfg(not(feature = "calls"))]
    None
}

fn desks_ports() -> Option<desks::Ports<'static>> {
    #[cfg(feature = "calls")]
    return Some(desks::port::PORTS);
    #[cfg(not(feature = "calls"))]
    None
}

/// One stick of so many has all its records asked for by their marks.
const OF_MARKS: u64 = 10;

fn finish(name: &str, good: bool, words: &str) {
    if !good {
        println!("{name}: FAILED");
        exit(1);
    }
    println!("{name}: {words}");
}

/// Whether a run that is good so far saw every kind of case; says which it did not.
fn saw_all(good: bool, missing: Vec<String>) -> bool {
    if good && !missing.is_empty() {
        println!("never seen: {}", missing.join(", "));
    }
    good && missing.is_empty()
}

pub fn compare_leaves(seed: u64) {
    let mut comparison = Comparison::new();
    cases::all(seed, &mut |c| comparison.case(c));
    print!("seed {seed}\n{}", comparison.report());
    finish("compare", comparison.good(), "all agree");
}

pub fn record(file: &str, seed: u64) {
    let records = sample::sample(seed);
    let bytes = record::encode(&records);
    if let Err(e) = std::fs::write(file, &bytes) {
        stop(&format!("{file}: {e}"));
    }
    println!("{} records, {} bytes", records.len(), bytes.len());
}

pub fn record_calls(file: &str, seed: u64) {
    answer::silence_panics();
    let bytes = recorded::recorded(seed).unwrap_or_else(|e| stop(&e));
    if let Err(e) = std::fs::write(file, &bytes) {
        stop(&format!("{file}: {e}"));
    }
    println!("{} bytes", bytes.len());
}

pub fn sticks(seed: u64, count: u64) {
    answer::silence_panics();
    let run = Run::over(seed, count, port());
    println!("seed {seed}, {count} sticks\nwhole   {}\ndamaged {}", run.whole, run.damaged);
    let mut good = !run.report_failure(Path::new("target"));
    if good {
        for (name, kinds) in [("whole", run.whole.missing()), ("damaged", run.damaged.missing())] {
            if !kinds.is_empty() {
                println!("never seen of {name} sticks: {}", kinds.join(", "));
                good = false;
            }
        }
    }
    finish("sticks", good, if port().is_some() { "all agree" } else { "the oracle alone was asked" });
}

pub fn volumes(seed: u64, count: u64) {
    answer::silence_panics();
    let run = Volumes::over(seed, count, calls_port());
    println!("seed {seed}, {count} sticks");
    for (answer, n) in &run.seen {
        println!("{} {n}", if *answer == 0 { "opened".into() } else { format!("refused with {answer}") });
    }
    println!("overflow, outside the domain {}", run.overflow);
    let missing: Vec<_> = (0..5).filter(|n| !run.seen.contains_key(n)).collect();
    if !missing.is_empty() {
        println!("never seen: {missing:?}");
    }
    if let Some(e) = &run.failure {
        println!("{e}");
    }
    let words = if calls_port().is_some() { "all agree" } else { "the oracle alone was asked" };
    finish("volumes", run.failure.is_none() && missing.is_empty(), words);
}

/// Tells what became of images about 2^34 bytes long, where they were asked about.
fn vast(checked: Option<Result<Option<u64>, String>>) -> bool {
    match checked {
        Some(Ok(None)) => println!("images over 2^34 bytes: no room for one"),
        Some(Ok(Some(n))) => println!("images of 2^34 bytes and one more: {n} calls agree"),
        Some(Err(e)) => {
            println!("{e}");
            return false;
        }
        None => {}
    }
    true
}

pub fn calls(seed: u64, count: u64) {
    answer::silence_panics();
    let run = calls::run::Run::over(seed, count, calls_port());
    println!("seed {seed}, {count} sticks, {} images, {} calls", run.images, run.tally.calls());
    print!("{}{}", run.tally, run.met);
    let missing = [run.tally.missing(), run.met.missing()].concat();
    let mut good = saw_all(!run.report_failure(calls_port(), Path::new("target")), missing);
    good &= marks(seed, count / OF_MARKS);
    good &= vast(calls_port().map(calls::vast::check));
    finish("calls", good, if calls_port().is_some() { "all agree" } else { "the oracle alone was asked" });
}

/// Bookmarks of the records of sticks, and others that are handed in.
fn marks(seed: u64, count: u64) -> bool {
    let run = marks::run::Run::over(seed, count, calls_port());
    print!("marks of {count} sticks, {} images, {} calls\n{}", run.images, run.tally.calls(), run.tally);
    saw_all(!run.report_failure(calls_port(), Path::new("target")), run.tally.missing())
}

pub fn list(seed: u64, count: u64) {
    answer::silence_panics();
    let mut run = list::run::Run::over(seed, count, list_ports());
    if run.failure.is_none() {
        run.edges(list_ports());
    }
    print!("seed {seed}, {count} sticks, {} images, {}", run.images, run.tally);
    let mut good = saw_all(!run.report_failure(list_ports(), Path::new("target")), run.tally.missing());
    good &= vast(list_ports().map(list::edges::vast));
    finish("list", good, if list_ports().is_some() { "all agree" } else { "the oracle alone was asked" });
}

pub fn pairs(seed: u64, count: u64) {
    answer::silence_panics();
    let ports = Ports { list: list_port().unwrap_or(&by_oracle::list), call: calls_port().unwrap_or(&by_oracle::call) };
    let run = pairs::run::Run::over(seed, count, ports);
    print!("seed {seed}, {count} sticks\n{}", run.tally);
    let good = saw_all(!run.report_failure(Path::new("target")), run.tally.missing());
    finish("pairs", good, if calls_port().is_some() { "all as they must be" } else { "the oracle alone was asked" });
}

pub fn parts(seed: u64, count: u64) {
    answer::silence_panics();
    let run = parts::run::Run::over(seed, count, parts_ports());
    print!("seed {seed}, {count} images with a table\n{}", run.tally);
    let mut good = saw_all(!run.report_failure(Path::new("target")), run.tally.missing());
    good &= vast(parts_ports().map(|p| parts::run::vast(p.part)));
    finish("parts", good, if parts_ports().is_some() { "all agree" } else { "the oracle alone was asked" });
}

pub fn checkpoints(seed: u64, count: u64) {
    answer::silence_panics();
    let run = checkpoints::run::Run::over(seed, count, checkpoints_ports());
    print!("seed {seed}, {}", run.tally);
    let good = saw_all(!run.report_failure(Path::new("target")), run.tally.missing());
    finish("checkpoints", good, if checkpoints_ports().is_some() { "all agree" } else { "the oracle alone was asked" });
}

pub fn maps(seed: u64, count: u64) {
    answer::silence_panics();
    let run = maps::run::Run::over(seed, count, maps::USUAL);
    print!("seed {seed}, {count} sticks, {} images\n{}", run.images, run.tally);
    let good = saw_all(!run.report_failure(Path::new("target")), run.tally.missing());
    finish("maps", good, "all agree");
}

pub fn words(seed: u64, count: u64) {
    let run = words::run::Run::over(seed, count, words_port());
    print!("seed {seed}, {count} objects\n{}", run.tally);
    let good = saw_all(!run.report_failure(Path::new("target")), run.tally.missing());
    finish("words", good, if words_port().is_some() { "all agree" } else { "the account alone was tried" });
}

pub fn desks(seed: u64, count: u64) {
    answer::silence_panics();
    let run = desks::run::Run::over(seed, count, desks_ports());
    print!("seed {seed}, {count} sticks, {} images\n{}", run.images, run.tally);
    let missing = if desks_ports().is_some() { run.tally.missing() } else { Vec::new() };
    let mut good = saw_all(!run.report_failure(desks_ports(), Path::new("target")), missing);
    good &= vast(desks_ports().map(desks::run::vast));
    finish("desks", good, if desks_ports().is_some() { "all agree" } else { "the oracle alone was asked" });
}

pub fn reach(seed: u64, count: u64) {
    answer::silence_panics();
    print!("{}", reach::Reach::over(seed, count).report());
}

pub fn bench() {
    answer::silence_panics();
    print!("{}", bench::opening::run(port()));
    print!("{}", bench::calls::run(calls_port()));
    print!("{}", bench::marks::run(calls_port()));
    print!("{}", bench::listing::run(list_ports()));
    print!("{}", bench::parts::run(parts_ports()));
    print!("{}", bench::checkpoints::run(checkpoints_ports()));
    print!("{}", bench::words::run(words_port()));
}

pub fn open(files: &[String]) {
    answer::silence_panics();
    let mut agree = true;
    for file in files {
        let image = Image::of(std::fs::read(file).unwrap_or_else(|e| stop(&format!("{file}: {e}"))));
        println!("{file}\n  part:   {}", part(&image));
        println!("  oracle: {}", answer::of_image(&image));
        if let Some(port) = port() {
            println!("  port:   {}", said(port, &image.whole));
            agree &= judge(&image, Some(port), None).map_err(|m| println!("  differ: {}", m.got)).is_ok();
        }
    }
    exit(if agree { 0 } else { 1 })
}

/// What the oracle is given, by document 02.
fn part(image: &Image) -> String {
    match expected_part(&image.whole) {
        Ok((offset, length)) => format!("{length} bytes from byte {offset} on"),
        Err(number) => format!("refused with {number}"),
    }
}

fn said(port: Open, image: &[u8]) -> String {
    let mut buffer = [0; 4096];
    let n = port(image, &mut buffer);
    if n < 0 {
        return format!("refused with {}", -n);
    }
    String::from_utf8_lossy(&buffer[..buffer.len().min(n as usize)]).trim_end().to_string()
}
