//! Images in files, and the tool run on them.

use std::path::{Path, PathBuf};
use std::process::{Command, Output};

use sticks::contents::Contents;
use sticks::{make, Plan};

/// An image in a file that goes with the value.
pub struct Image(pub PathBuf);

impl Image {
    /// A file that is not there yet.
    pub fn none(name: &str) -> Image {
        Image(Path::new(env!("CARGO_TARGET_TMPDIR")).join(format!("{name}-{}.img", std::process::id())))
    }

    pub fn of(name: &str, bytes: &[u8]) -> Image {
        let image = Image::none(name);
        std::fs::write(&image.0, bytes).expect("an image");
        image
    }

    pub fn planned(name: &str, plan: Plan) -> Image {
        Image::of(name, &make(plan).image)
    }

    pub fn holding(name: &str, contents: Contents) -> Image {
        Image::planned(name, Plan::with_contents(contents, 3))
    }

    pub fn run(&self, words: &[&str], path: &[&str]) -> Output {
        let mut command = Command::new(env!("CARGO_BIN_EXE_apfs"));
        command.args(words).arg(&self.0).args(path).output().expect("the tool")
    }

    /// What the tool writes to standard error, without the file's folder.
    pub fn told(&self, words: &[&str], path: &[&str]) -> String {
        let o = self.run(words, path);
        assert_eq!((o.status.code(), o.stdout.len()), (Some(1), 0), "{o:?}");
        String::from_utf8(o.stderr).expect("text").replace(&*self.0.to_string_lossy(), "FILE")
    }

    /// How the tool is to be called, where it was not.
    pub fn usage(&self, words: &[&str], path: &[&str]) -> String {
        let o = self.run(words, path);
        assert_eq!((o.status.code(), o.stdout.len()), (Some(2), 0), "{words:?} {o:?}");
        String::from_utf8(o.stderr).expect("text")
    }
}

impl Drop for Image {
    fn drop(&mut self) {
        let _ = std::fs::remove_file(&self.0);
    }
}

pub fn out(o: Output) -> String {
    assert!(o.status.success() && o.stderr.is_empty(), "{o:?}");
    String::from_utf8(o.stdout).expect("text")
}

pub fn refused(o: Output, number: u64) {
    assert_eq!((o.status.code(), o.stdout.len()), (Some(1), 0), "{o:?}");
    let words = String::from_utf8_lossy(&o.stderr).into_owned();
    assert!(words.contains(&format!("(refusal {number})")) && words.starts_with("apfs: "), "{words}");
}
