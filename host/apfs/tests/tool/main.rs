//! The command line tool on small images.

#![cfg(feature = "calls")]

mod checkpoints;
mod damaged;
mod errors;
mod image;
mod marks;
mod measure;
mod nodes;
mod partitioned;
mod sample;
mod totals;
mod words;

use std::io::Read;
use std::path::Path;
use std::process::{Command, Output, Stdio};

use image::{out, refused, Image};
use sticks::contents::{Contents, Source};
use sticks::plan::large;
use sticks::random::Random;

const SIZE: u64 = 300_000;

fn file() -> (Contents, Vec<u8>) {
    let contents = large::file(SIZE, 7, 4096, &mut Random::new(1));
    let bytes = contents.bytes(100, SIZE);
    assert!(contents.streams[0].extents.iter().all(|e| matches!(e.source, Source::Bytes(_))));
    (contents, bytes)
}

#[test]
fn directories_are_listed() {
    let image = Image::holding("ls", large::directories(3));
    let mut lines: Vec<String> = out(image.run(&["ls"], &[])).lines().map(String::from).collect();
    lines.sort();
    assert_eq!(
        lines,
        ["dir                 - next", "file                0 entry-000001", "file                0 entry-000002"]
    );
    assert_eq!(out(image.run(&["ls"], &["NEXT\\next"])).lines().count(), 3);
    assert_eq!(out(image.run(&["ls"], &["next/next/last"])), "file                0 next/next/last\n");
}

#[test]
fn a_directory_past_one_buffer_is_listed_whole() {
    const ENTRIES: u64 = 40_000;
    let image = Image::holding("wide", large::spread(ENTRIES, 0));
    let text = out(image.run(&["ls"], &[]));
    let mut names: Vec<&str> = text.lines().filter_map(|l| l.strip_prefix("file                0 ")).collect();
    names.sort();
    assert!(names.iter().zip(0..ENTRIES).all(|(name, i)| *name == format!("entry-{i:06}")));
    assert_eq!(names.len() as u64, ENTRIES);
}

#[test]
fn sizes_are_the_files_own() {
    let image = Image::holding("size", file().0);
    assert_eq!(out(image.run(&["ls"], &["/"])), "file           300000 data\n");
    let stat = out(image.run(&["stat"], &["data"]));
    for line in ["id               100", "kind             file", "mode             0755", "size             300000"] {
        assert!(stat.lines().any(|l| l == line), "{line} in {stat}");
    }
    let root = out(image.run(&["stat"], &["/"]));
    assert!(root.starts_with("id               2\n") && root.contains("kind             dir\n"), "{root}");
}

#[test]
fn bytes_are_written() {
    let (contents, bytes) = file();
    let image = Image::holding("cat", contents);
    let o = image.run(&["cat"], &["/data"]);
    assert!(o.status.success() && o.stdout == bytes);
}

#[test]
fn refusals_have_words_and_a_number() {
    let image = Image::holding("refused", file().0);
    refused(image.run(&["ls"], &["nowhere"]), 4);
    refused(image.run(&["--volume", "1", "stat"], &[]), 4);
    refused(Image::of("empty", b"").run(&["ls"], &[]), 1);
    refused(Image::of("none", &[0; 8192]).run(&["ls"], &[]), 11);
    let o = image.run(&["cat"], &["/"]);
    assert_eq!(o.status.code(), Some(1), "{o:?}");
}

#[cfg(unix)]
#[test]
fn a_path_of_any_bytes_is_handed_on() {
    use std::os::unix::ffi::OsStrExt;
    let image = Image::holding("path", file().0);
    let path = std::ffi::OsStr::from_bytes(b"a\xff");
    let o = Command::new(env!("CARGO_BIN_EXE_apfs")).arg("stat").arg(&image.0).arg(path).output();
    refused(o.expect("the tool"), 5);
}

#[test]
fn a_volume_is_listed_whole() {
    let (contents, bytes) = file();
    let text = out(Image::holding("list", contents).run(&["list"], &[]));
    let lines: Vec<&str> = text.lines().collect();
    let [volume, root, empty, entry, node, data, ")", ")", ")", total, ")"] = lines[..] else {
        panic!("{}", lines.len())
    };
    assert_eq!((volume, empty, entry), ("(volume 1 1 x6c61726765", "(data x)", "(entry 100 0 8 x64617461"));
    assert_eq!(root, "(node 2 2 2 0 0 0 0 0 1 0 0 0 16877 - -");
    assert_eq!(node, "(node 100 2 100 0 0 0 0 0 1 0 0 0 33261 - 300000,300000");
    let hex: String = bytes.iter().map(|b| format!("{b:02x}")).collect();
    assert!(data == format!("(data x{hex})"));
    assert_eq!(total, "(total 2 300000 0)");
}

#[test]
fn a_listing_is_refused_in_words() {
    let image = Image::holding("deep", large::chain(65, 1));
    refused(image.run(&["list"], &[]), 10);
    refused(image.run(&["--volume", "1", "list"], &[]), 4);
    assert_eq!(out(Image::holding("64", large::chain(64, 1)).run(&["list"], &[])).lines().count(), 3 * 65 + 64 * 2 + 3);
    refused(Image::of("list-empty", b"").run(&["list"], &[]), 1);
}

/// What becomes of the tool when its reader leaves after some bytes.
fn left_early(image: &Image, words: &[&str], path: &[&str]) -> Output {
    let mut command = Command::new(env!("CARGO_BIN_EXE_apfs"));
    command.args(words).arg(&image.0).args(path).stdout(Stdio::piped()).stderr(Stdio::piped());
    let mut child = command.spawn().expect("the tool");
    let mut pipe = child.stdout.take().expect("a pipe");
    pipe.read_exact(&mut [0; 10]).expect("some bytes");
    drop(pipe);
    child.wait_with_output().expect("an end")
}

#[test]
fn a_closed_pipe_ends_quietly() {
    let image = Image::holding("pipe", large::file(4 * SIZE, 3, 4096, &mut Random::new(2)));
    let wide = Image::holding("wide-pipe", large::spread(4000, 0));
    for (image, words, path) in [(&image, "cat", &["data"][..]), (&image, "list", &[]), (&wide, "ls", &[])] {
        let o = left_early(image, &[words], path);
        assert!(o.status.success() && o.stderr.is_empty(), "{words} {o:?}");
    }
}

#[test]
fn a_file_gets_what_a_pipe_gets() {
    let image = Image::holding("redirected", file().0);
    let text = Image::of("text", b"");
    let to = std::fs::File::create(&text.0).expect("a file");
    let mut command = Command::new(env!("CARGO_BIN_EXE_apfs"));
    let status = command.arg("list").arg(&image.0).stdout(to).status().expect("the tool");
    let written = std::fs::read_to_string(&text.0).expect("a text");
    assert!(status.success() && written == out(image.run(&["list"], &[])));
}

#[cfg(target_os = "linux")]
#[test]
fn output_that_has_no_room_is_told() {
    let image = Image::holding("full", file().0);
    for (name, path) in [("list", &[][..]), ("ls", &[]), ("cat", &["data"])] {
        let full = std::fs::OpenOptions::new().write(true).open("/dev/full").expect("a device");
        let mut command = Command::new(env!("CARGO_BIN_EXE_apfs"));
        let o = command.arg(name).arg(&image.0).args(path).stdout(full).output().expect("the tool");
        let words = String::from_utf8_lossy(&o.stderr).into_owned();
        assert_eq!(o.status.code(), Some(1), "{name} {o:?}");
        assert!(words.starts_with("apfs: writing: "), "{name} {words}");
    }
}

#[test]
fn an_image_over_the_bound_is_refused_before_it_is_read() {
    let image = Image::of("vast", b"");
    let sparse = std::fs::OpenOptions::new().write(true).open(&image.0).expect("a file");
    if sparse.set_len((1 << 34) + 1).is_ok() {
        refused(image.run(&["list"], &[]), 7);
        refused(image.run(&["ls"], &[]), 7);
    }
}

#[test]
fn a_file_that_cannot_be_read_is_told() {
    let image = Image(Path::new(env!("CARGO_TARGET_TMPDIR")).join("nowhere.img"));
    let folder = Image(env!("CARGO_TARGET_TMPDIR").into());
    for image in [&image, &folder] {
        let o = image.run(&["list"], &[]);
        assert!(o.status.code() == Some(1) && o.stderr.starts_with(b"apfs: ") && o.stdout.is_empty(), "{o:?}");
    }
}
