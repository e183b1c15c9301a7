//! A run over many objects.

use std::path::Path;

use oracle::checksum::verify;
use sticks::block::put32;
use sticks::random::Random;

use crate::opening::check::{call, TOO_SHORT};
use crate::opening::run::stick_seed;
use crate::opening::Open;
use crate::words::account::mends;
use crate::words::draw::{draw, Drawn};
use crate::words::tally::Tally;
use crate::words::{bytes, Mend};

pub struct Failure {
    pub seed: u64,
    /// The object's place in the run.
    pub place: u64,
    pub kind: &'static str,
    pub words: String,
    pub object: Vec<u8>,
}

#[derive(Default)]
pub struct Run {
    pub tally: Tally,
    pub failure: Option<Failure>,
}

impl Run {
    /// Over `count` objects; without a port the account alone is tried. Stops at the first failure.
    pub fn over(seed: u64, count: u64, port: Option<Open>) -> Run {
        let mut run = Run::default();
        for place in 0..count {
            let mut random = Random::new(stick_seed(seed, place));
            let drawn = draw(&mut random);
            if let Err(words) = run.one(&drawn, port, &mut random) {
                run.failure = Some(Failure { seed, place, kind: drawn.kind, words, object: drawn.object });
                return run;
            }
        }
        run
    }

    fn one(&mut self, drawn: &Drawn, port: Option<Open>, random: &mut Random) -> Result<(), String> {
        let list = mends(&drawn.object);
        self.tally.object(drawn.kind, &list);
        list.iter().try_for_each(|mend| sound(&drawn.object, mend))?;
        self.planted(drawn, &list)?;
        port.map_or(Ok(()), |port| check(port, &drawn.object, &list, random))
    }

    /// A word that was changed is listed, unless the sum can't tell the two apart.
    fn planted(&mut self, drawn: &Drawn, list: &[Mend]) -> Result<(), String> {
        let Some(mend) = drawn.planted.filter(|_| !verify(&drawn.object)) else { return Ok(()) };
        self.tally.planted += 1;
        if list.contains(&mend) {
            Ok(())
        } else {
            Err(format!("{mend:?}, which was changed, is not in the account"))
        }
    }

    /// Prints the failure, if there was one, and writes its object to a file in `folder`.
    pub fn report_failure(&self, folder: &Path) -> bool {
        let Some(f) = &self.failure else { return false };
        let file = folder.join(format!("words-{}-{}.bin", f.seed, f.place));
        println!("seed {}, object {}, {}: {}", f.seed, f.place, f.kind, f.words);
        match std::fs::create_dir_all(folder).and_then(|()| std::fs::write(&file, &f.object)) {
            Ok(()) => println!("{} bytes that show it: {}", f.object.len(), file.display()),
            Err(e) => println!("{}: {e}", file.display()),
        }
        true
    }
}

/// The Rust takes the object with the word replaced.
fn sound(object: &[u8], mend: &Mend) -> Result<(), String> {
    let mut mended = object.to_vec();
    put32(&mut mended, mend.0 as usize, mend.1);
    if verify(&mended) {
        Ok(())
    } else {
        Err(format!("{mend:?} does not make it sound"))
    }
}

/// Into buffers that fit, are longer, and are too short.
fn check(port: Open, object: &[u8], list: &[Mend], random: &mut Random) -> Result<(), String> {
    let text = bytes(list);
    let (n, want) = (text.len(), list.len() as i64);
    call(port, object, n, want, &text)?;
    call(port, object, n + 1 + random.place(40), want, &text)?;
    if n == 0 {
        return Ok(());
    }
    [n - 1, random.place(n), 0].into_iter().try_for_each(|room| call(port, object, room, TOO_SHORT, b""))
}
