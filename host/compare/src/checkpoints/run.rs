//! A run over many sticks.

use std::path::Path;
use std::sync::Arc;

use sticks::random::Random;
use sticks::sums::crc32c;
use sticks::{gpt, make, Plan, Stick};

use crate::calls;
use crate::calls::met::Met;
use crate::checkpoints::spoiled::{candidates, found, image_at, keeping, numbers, Candidate, Found};
use crate::checkpoints::tally::{self, Tally};
use crate::checkpoints::Ports;
use crate::image::Image;
use crate::list;
use crate::list::walk;
use crate::marks::trial::{self as marks, Share};
use crate::marks::Mark;
use crate::opening;
use crate::opening::check::{any, call, TOO_SHORT};
use crate::opening::outside::outside;
use crate::opening::run::{judge, stick_seed};

/// Larger containers are left out: each number takes several openings of its own.
const LARGEST: usize = 1 << 19;
/// Of an image, so many numbers are asked for at most.
const NUMBERS: usize = 5;
/// Most bytes that a list has at a ring without end.
const LONGEST: usize = 1 << 16;

pub struct Failure {
    pub seed: u64,
    /// The stick's place in the run.
    pub stick: u64,
    pub words: String,
    pub image: Arc<Vec<u8>>,
}

#[derive(Default)]
pub struct Run {
    pub tally: Tally,
    pub failure: Option<Failure>,
}

type Checked = Result<(), String>;

/// A stick that was saved several times, or one that was not, and is not too large.
fn small(random: &mut Random) -> Stick {
    loop {
        let plan = Plan::draw(random.draw());
        let stick = make(if random.chance(7, 8) { plan.saved() } else { plan });
        if stick.image.len() <= LARGEST {
            return stick;
        }
    }
}

/// The stick's container, whole or damaged, and in a table or not.
fn image(stick: &Stick, random: &mut Random) -> Image {
    let seed = random.draw();
    let container = match random.below(4) {
        0 => opening::run::damaged(&stick.image, seed, 1),
        1 => calls::run::damaged(&stick.image, seed, 1),
        _ => stick.image.clone(),
    };
    Image::of(if random.chance(1, 8) { gpt::draw(&container, seed).image } else { container })
}

/// The stick as it was at a number, for drawing calls by.
fn as_of(stick: &Stick, xid: u64) -> Stick {
    let save = stick.plan.saves.iter().find(|s| s.xid == xid);
    let volumes = save.map_or(&stick.plan.volumes, |s| &s.volumes).clone();
    let plan = Plan { volumes, ..stick.plan.clone() };
    Stick { plan, image: Vec::new(), block_count: stick.block_count }
}

impl Run {
    /// Over `count` sticks; without a port the oracle is asked alone. Stops at the first failure.
    pub fn over(seed: u64, count: u64, ports: Option<Ports>) -> Run {
        let mut run = Run::default();
        for place in 0..count {
            let mut random = Random::new(stick_seed(seed, place));
            let stick = small(&mut random);
            let image = image(&stick, &mut random);
            run.tally.images += 1;
            let mut trial = Trial { image: &image, ports, random, strange: Vec::new(), tally: &mut run.tally };
            if let Err(words) = trial.all(&stick) {
                run.failure = Some(Failure { seed, stick: place, words, image: image.whole });
                return run;
            }
        }
        run
    }

    /// Prints the failure, if there was one, and writes its image to a file in `folder`.
    pub fn report_failure(&self, folder: &Path) -> bool {
        let Some(f) = &self.failure else { return false };
        let file = folder.join(format!("checkpoints-{}-{}.img", f.seed, f.stick));
        println!("seed {}, stick {}: {}", f.seed, f.stick, f.words);
        match std::fs::create_dir_all(folder).and_then(|()| std::fs::write(&file, &**f.image)) {
            Ok(()) => println!("{} bytes that show it: {}", f.image.len(), file.display()),
            Err(e) => println!("{}: {e}", file.display()),
        }
        true
    }
}

/// One image, asked about.
struct Trial<'a> {
    image: &'a Image,
    ports: Option<Ports<'a>>,
    random: Random,
    /// Marks of the number before.
    strange: Vec<Mark>,
    tally: &'a mut Tally,
}

impl Trial<'_> {
    fn all(&mut self, stick: &Stick) -> Checked {
        let told = match &self.image.part {
            Ok(part) if outside(part).is_some() => return Ok(()),
            Ok(part) => numbers(part),
            Err(number) => Some(Err(*number)),
        };
        self.list(&told).map_err(|e| format!("numbers: {told:?} expected\nthe port: {e}"))?;
        for xid in self.asked() {
            self.number(xid, &told);
            self.at(stick, xid)?;
        }
        Ok(())
    }

    fn candidates(&self) -> Vec<Candidate> {
        self.image.part.as_ref().map_or(Vec::new(), |part| candidates(part))
    }

    /// Numbers of candidates, and one that may be of none.
    fn asked(&mut self) -> Vec<u64> {
        let mut out: Vec<u64> = self.candidates().iter().map(|c| c.xid).collect();
        out.sort();
        out.dedup();
        self.random.shuffle(&mut out);
        let near = out.first().copied().unwrap_or(7);
        out.truncate(NUMBERS - 1);
        out.push(self.random.pick(&[near.wrapping_add(1), near.wrapping_sub(1), near ^ 1 << 32, 0, u64::MAX]));
        out
    }

    /// The list, into buffers that have room for a number of every block of the ring, for those there are, and for less.
    fn list(&mut self, told: &Option<Result<Vec<u64>, u64>>) -> Checked {
        self.count(told);
        let Some(ports) = self.ports else { return Ok(()) };
        let (port, image) = (ports.numbers, &self.image.whole);
        match told {
            None => any(port, image, &[]),
            Some(Err(number)) => {
                let want = -(*number as i64);
                call(port, image, LONGEST, want, b"")?;
                call(port, image, 0, want, b"")
            }
            Some(Ok(list)) => {
                let bytes: Vec<u8> = list.iter().flat_map(|n| n.to_le_bytes()).collect();
                let (n, want) = (bytes.len(), list.len() as i64);
                for room in [n, n + 1 + self.random.place(40), LONGEST] {
                    call(port, image, room, want, &bytes)?;
                }
                for room in [n - 1, self.random.place(n), 0] {
                    call(port, image, room, TOO_SHORT, b"")?;
                }
                Ok(())
            }
        }
    }

    fn count(&mut self, told: &Option<Result<Vec<u64>, u64>>) {
        let sound = self.candidates().len();
        match told {
            None => self.tally.untold += 1,
            Some(Err(n)) => *self.tally.refused.entry(*n).or_default() += 1,
            Some(Ok(list)) => {
                self.tally.list(if list.len() == 1 { tally::ONE } else { tally::SEVERAL });
                let kinds = [
                    (tally::REPEATS, list.windows(2).any(|w| w[0] == w[1])),
                    (tally::UNACCEPTED, list.len() < sound),
                    (tally::UNOPENED, !matches!(self.image.part.as_ref().map(found), Ok(Found::Taken))),
                ];
                kinds.iter().filter(|k| k.1).for_each(|k| self.tally.list(k.0));
            }
        }
    }

    /// What kind of number is asked for.
    fn number(&mut self, xid: u64, told: &Option<Result<Vec<u64>, u64>>) {
        let (Some(Ok(list)), Ok(part)) = (told, &self.image.part) else { return };
        let of: Vec<Candidate> = candidates(part).into_iter().filter(|c| c.xid == xid).collect();
        let times = list.iter().filter(|n| **n == xid).count();
        self.tally.number(match (of.len(), times) {
            (0, _) => tally::NO_CANDIDATE,
            (_, 0) => tally::NONE_ACCEPTED,
            _ if list[0] == xid => tally::LATEST,
            _ => tally::EARLIER,
        });
        if times > 1 {
            self.tally.number(tally::OF_EQUALS);
        }
        let first = |c: &Candidate| found(&keeping(part, &|d| d == c, 1)) == Found::None;
        if times > 0 && of.len() > 1 && first(&of[0]) {
            self.tally.number(tally::FIRST_UNACCEPTED);
        }
    }

    /// Every call at a number. Where the answer is another as other bits are spoiled, a spoiled block shows in it, and the
    /// Rust can't tell.
    fn at(&mut self, stick: &Stick, xid: u64) -> Checked {
        let random = self.random.fork();
        let Err(words) = self.spoiled(stick, xid, 1, random.clone()) else { return Ok(()) };
        if self.spoiled(stick, xid, 2, random).is_err_and(|again| again == words) {
            return Err(format!("checkpoint {xid}: {words}"));
        }
        self.tally.showing += 1;
        Ok(())
    }

    fn spoiled(&mut self, stick: &Stick, xid: u64, bit: u8, mut random: Random) -> Checked {
        let image = image_at(self.image, xid, bit);
        self.open(&image, xid)?;
        self.calls(&image, &as_of(stick, xid), xid, random.fork())?;
        self.listing(&image, xid, random.clone())?;
        self.marks(&image, xid, random)
    }

    fn open(&mut self, image: &Image, xid: u64) -> Checked {
        let ports = self.ports;
        let at = |image: &[u8], out: &mut [u8]| ports.map_or(0, |p| (p.open)(image, xid, out));
        let open: Option<opening::Open> = if ports.is_some() { Some(&at) } else { None };
        judge(image, open, Some(&mut self.tally.opening))
            .map_err(|m| format!("opening: the oracle: {}\nthe port: {}", m.expected, m.got))
    }

    fn calls(&mut self, image: &Image, stick: &Stick, xid: u64, random: Random) -> Checked {
        let ports = self.ports;
        let at = |image: &[u8], volume: u64, call: &calls::call::Call, out: &mut [u8]| {
            ports.map_or(0, |p| (p.call)(image, xid, volume, call, out))
        };
        let port: Option<calls::Port> = if ports.is_some() { Some(&at) } else { None };
        let (tally, met) = (&mut self.tally.calls, &mut Met::default());
        let mut trial = calls::run::Trial { image: image.clone(), port, random, tally, met };
        let thorough = trial.random.chance(1, 2);
        let checked = if thorough { trial.stick(stick) } else { trial.each(0) };
        checked.map_err(|m| m.to_string())
    }

    fn marks(&mut self, image: &Image, xid: u64, random: Random) -> Checked {
        let ports = self.ports;
        let at = |image: &[u8], volume: u64, call: &calls::call::Call, out: &mut [u8]| {
            ports.map_or(0, |p| (p.call)(image, xid, volume, call, out))
        };
        let port: Option<calls::Port> = if ports.is_some() { Some(&at) } else { None };
        let (strange, tally) = (&self.strange, &mut self.tally.marks);
        let mut trial = marks::Trial { image, port, random, share: Share::Some, strange, found: Vec::new(), tally };
        let thorough = trial.random.chance(1, 2);
        let checked = if thorough { trial.all() } else { trial.each(0) };
        let found = trial.found;
        checked.map_err(|m| m.to_string())?;
        if thorough {
            self.strange = found;
        }
        Ok(())
    }

    fn listing(&mut self, image: &Image, xid: u64, random: Random) -> Checked {
        if walk::of_image(image, 0).text != walk::of_image(self.image, 0).text && image.part.is_ok() {
            self.tally.number(tally::OTHERWISE);
        }
        let ports = self.ports;
        let list = |image: &[u8], volume: u64, out: &mut [u8]| ports.map_or(0, |p| (p.list)(image, xid, volume, out));
        let measure =
            |image: &[u8], volume: u64, out: &mut [u8]| ports.map_or(0, |p| (p.measure)(image, xid, volume, out));
        let at = ports.map(|_| list::Ports { list: &list, measure: &measure });
        let mut run = list::run::Run { tally: std::mem::take(&mut self.tally.list), ..Default::default() };
        let checked = run.image(image, at, random);
        self.tally.list = run.tally;
        checked.map_err(|(volume, m)| {
            // The sum tells texts apart that differ far behind what is shown of a line.
            let sum = crc32c(!0, &walk::of_image(image, volume).text);
            format!("volume {volume}, of the sum {sum:08x}, {m}")
        })
    }
}
