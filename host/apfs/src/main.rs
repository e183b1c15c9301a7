//! Reads files off an image by the port's exported calls alone.
//!
//! ```text
//! apfs sample FILE                writes a small stick to try the others on
//! apfs ls IMAGE [PATH]            what a directory holds: kind, size, name
//! apfs stat IMAGE [PATH]          the container and its volumes; with a path, an inode's fields
//! apfs cat IMAGE PATH             a file's bytes
//! apfs xattr IMAGE PATH [NAME]    the attributes; with a name, its bytes
//! apfs list IMAGE                 the listing of a whole volume
//! apfs measure IMAGE              how many bytes that listing has, and its greatest depth, the root's being 0
//! apfs mark IMAGE ID KIND PLACE   the bookmark of the record after PLACE others of an id and a kind
//! apfs marked IMAGE MARK          the key and the value that a bookmark leads to
//! apfs words IMAGE BLOCK          of a block that fails its checksum, each place where one other word would mend it
//! apfs checkpoints IMAGE          the transaction numbers of the checkpoints, one a line, the latest first
//! ```
//!
//! An image is of a stick with a GUID partition table, or of an APFS partition alone. `--volume N` names another volume
//! than the first, which is 0, and `--checkpoint N` another checkpoint than the latest, so that the stick is read as it
//! was then; `--block-size N` says how long the block of `words` is, which is else 4,096. `--nodes` says on standard error
//! how many nodes of the stick's trees the calls went through, those that were refused too. Refusals go to standard error,
//! and the exit status is then 1; it is 2 where the arguments are wrong. A listing is measured first, and has as much
//! room as it needs; sparse files may ask for more than 4,294,967,295 bytes, which is refusal 14.
//!
//! Behind a name of which bytes are damaged `ls`, `stat` and `xattr` say how many parts of it are shown as U+FFFD, as in
//! `(2 damaged)`; a U+FFFD that was typed is none of them.

mod tool;

use std::cell::RefCell;
use std::ffi::OsString;
use std::io::{stdout, BufWriter, ErrorKind, Write};
use std::process::exit;
use std::str::FromStr;

use apfs::calls::Which;
use apfs::desks::Dock;
use tool::ask::{Asked, DESK};
use tool::failure::Failure;
use tool::marks::Record;
use tool::{cat, checkpoints, list, ls, marks, measure, sample, stat, usage, words, xattr};

/// Of a block, where it is not said.
const BLOCK: u64 = 4096;

#[derive(Default)]
struct Arguments {
    checkpoint: Option<u64>,
    volume: Option<u64>,
    block_size: Option<u64>,
    nodes: bool,
    words: Vec<OsString>,
}

fn arguments() -> Option<Arguments> {
    let number = |word: Option<OsString>| word?.to_str()?.parse().ok();
    let (mut out, mut args) = (Arguments::default(), std::env::args_os().skip(1));
    while let Some(word) = args.next() {
        match word.to_str() {
            Some("--checkpoint") => out.checkpoint = Some(number(args.next())?),
            Some("--block-size") => out.block_size = Some(number(args.next())?),
            Some("--volume") => out.volume = Some(number(args.next())?),
            Some("--nodes") => out.nodes = true,
            Some(option) if option.starts_with("--") && option != "--help" => return None,
            _ => out.words.push(word),
        }
    }
    Some(out)
}

/// A number that a command takes.
fn number<T: FromStr>(word: &OsString, command: &str) -> Result<T, Failure> {
    word.to_str().and_then(|w| w.parse().ok()).ok_or_else(|| Failure::Usage(usage::of(command)))
}

fn record(id: &OsString, kind: &OsString, place: &OsString) -> Result<Record, Failure> {
    let of = "mark";
    Ok(Record { id: number(id, of)?, kind: number(kind, of)?, place: number(place, of)? })
}

fn bookmark(word: &OsString) -> Result<Vec<u8>, Failure> {
    marks::read(word).ok_or_else(|| Failure::Usage(usage::of("marked")))
}

fn run(a: &Arguments, dock: &RefCell<Dock>, out: &mut dyn Write) -> Result<(), Failure> {
    let which = Which { checkpoint: a.checkpoint, volume: a.volume.unwrap_or(0) };
    let asked = |image: &OsString| Asked::of(image, which, dock);
    let at_latest = a.checkpoint.is_none() && a.volume.is_none() && !a.nodes;
    let plain = at_latest && a.block_size.is_none();
    let (name, words) = a.words.split_first().ok_or_else(|| Failure::Usage(usage::all()))?;
    match (name.to_str().unwrap_or_default(), words) {
        ("help" | "--help", []) => Ok(writeln!(out, "{}", usage::all())?),
        ("sample", [file]) if plain => sample::run(file, out),
        ("checkpoints", [image]) if plain => checkpoints::run(image, out),
        ("words", [image, block]) if at_latest => {
            words::run(image, number(block, "words")?, a.block_size.unwrap_or(BLOCK), out)
        }
        (name, _) if a.block_size.is_some() => Err(Failure::Usage(usage::of(name))),
        ("ls", [image]) => ls::run(&asked(image)?, b"", out),
        ("ls", [image, path]) => ls::run(&asked(image)?, path.as_encoded_bytes(), out),
        ("stat", [image]) => stat::container(&asked(image)?, a.volume.is_some(), out),
        ("stat", [image, path]) => stat::run(&asked(image)?, path.as_encoded_bytes(), out),
        ("cat", [image, path]) => cat::run(&asked(image)?, path.as_encoded_bytes(), out),
        ("xattr", [image, path]) => xattr::run(&asked(image)?, path.as_encoded_bytes(), out),
        ("xattr", [image, path, name]) => {
            xattr::bytes(&asked(image)?, path.as_encoded_bytes(), name.as_encoded_bytes(), out)
        }
        ("list", [image]) => list::run(&asked(image)?, out),
        ("measure", [image]) => measure::run(&asked(image)?, out),
        ("mark", [image, id, kind, place]) => {
            let record = record(id, kind, place)?;
            marks::run(&asked(image)?, &record, out)
        }
        ("marked", [image, word]) if a.volume.is_none() => {
            let mark = bookmark(word)?;
            marks::marked(&asked(image)?, &mark, out)
        }
        (name, _) => Err(Failure::Usage(usage::of(name))),
    }
}

fn written(a: &Arguments) -> Result<(), Failure> {
    let (mut out, dock) = (BufWriter::new(stdout().lock()), RefCell::new(Dock::new()));
    let done = run(a, &dock, &mut out).and_then(|()| Ok(out.flush()?));
    if a.nodes && !matches!(done, Err(Failure::Usage(_))) {
        eprintln!("{} nodes", dock.borrow().counts()[DESK as usize]);
    }
    done
}

fn main() {
    let done = arguments().ok_or_else(|| Failure::Usage(usage::all())).and_then(|a| written(&a));
    match done {
        Ok(()) => {}
        // Whoever reads has had enough.
        Err(Failure::Output(e)) if e.kind() == ErrorKind::BrokenPipe => {}
        Err(Failure::Usage(words)) => {
            eprintln!("{words}");
            exit(2);
        }
        Err(e) => {
            eprintln!("apfs: {e}");
            exit(1);
        }
    }
}
