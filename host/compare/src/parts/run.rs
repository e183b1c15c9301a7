//! A run over many images.

use std::path::Path;
use std::sync::Arc;

use sticks::gpt::{draw, expected_part, Drawn, Kind};
use sticks::random::Random;
use sticks::{make, Stick};

use crate::calls::met::Met;
use crate::calls::{self, vast};
use crate::image::Image;
use crate::list;
use crate::marks::trial::{self as marks, Share};
use crate::opening;
use crate::opening::answer::Answer;
use crate::opening::check::check;
use crate::opening::run::{judge, stick_seed};
use crate::opening::Open;
use crate::parts::tally::Tally;
use crate::parts::Ports;

/// Larger containers are left out, as a table is about what stands around them.
const LARGEST: usize = 1 << 18;
/// One image of so many has all calls made on it, the others one of each kind.
const THOROUGH: u64 = 4;
/// One stick of so many is made once more with directory keys about the edges of their forms.
const AT_EDGES: u64 = 8;

pub struct Failure {
    pub seed: u64,
    /// The image's place in the run.
    pub place: u64,
    pub kinds: Vec<Kind>,
    pub words: String,
    pub image: Arc<Vec<u8>>,
}

#[derive(Default)]
pub struct Run {
    pub tally: Tally,
    pub failure: Option<Failure>,
}

type Checked = Result<(), String>;

/// A stick that is not too large.
fn small(random: &mut Random) -> Stick {
    loop {
        let stick = Stick::from_seed(random.draw());
        if stick.image.len() <= LARGEST {
            return stick;
        }
    }
}

/// The stick's container, whole or damaged, in a table.
fn tabled(stick: &Stick, random: &mut Random) -> Drawn {
    let seed = random.draw();
    let container = match random.below(6) {
        0 => opening::run::damaged(&stick.image, seed, 1),
        1 => calls::run::damaged(&stick.image, seed, 1),
        _ => stick.image.clone(),
    };
    draw(&container, seed)
}

/// The line that `apfs_part` must write, or its refusal.
pub fn told(part: &Result<(usize, usize), u8>) -> Answer {
    match part {
        Ok((offset, length)) => Answer::Text(format!("(part {offset} {length})\n")),
        Err(number) => Answer::Refused((*number).into()),
    }
}

impl Run {
    /// Over `count` images; without a port the oracle is asked alone. Stops at the first failure.
    pub fn over(seed: u64, count: u64, ports: Option<Ports>) -> Run {
        let mut run = Run::default();
        for place in 0..count {
            let mut random = Random::new(stick_seed(seed, place));
            let stick = small(&mut random);
            let at_edges = place.is_multiple_of(AT_EDGES).then(|| make(stick.plan.at_edges()));
            for stick in [&stick].into_iter().chain(&at_edges) {
                run.failure = run.image((seed, place), stick, random.clone(), ports);
                if run.failure.is_some() {
                    return run;
                }
            }
        }
        run
    }

    /// The stick in a table.
    fn image(
        &mut self,
        (seed, place): (u64, u64),
        stick: &Stick,
        mut random: Random,
        ports: Option<Ports>,
    ) -> Option<Failure> {
        let Drawn { image, part, kinds } = tabled(stick, &mut random);
        let image = Image::with(Arc::new(image), part);
        self.tally.image(&part, &kinds);
        let mut trial = Trial { image: &image, ports, random, tally: &mut self.tally };
        let words = trial.all(&part, stick).err()?;
        Some(Failure { seed, place, kinds, words, image: image.whole })
    }

    /// Prints the failure, if there was one, and writes its image to a file in `folder`.
    pub fn report_failure(&self, folder: &Path) -> bool {
        let Some(f) = &self.failure else { return false };
        let file = folder.join(format!("parts-{}-{}.img", f.seed, f.place));
        let kinds: Vec<String> = f.kinds.iter().map(|(what, kind)| format!("{what} {kind}")).collect();
        println!("seed {}, image {}: {}\n{}", f.seed, f.place, kinds.join("; "), f.words);
        match std::fs::create_dir_all(folder).and_then(|()| std::fs::write(&file, &**f.image)) {
            Ok(()) => println!("{} bytes that show it: {}", f.image.len(), file.display()),
            Err(e) => println!("{}: {e}", file.display()),
        }
        true
    }
}

/// How many calls agreed on images about 2^34 bytes long.
pub fn vast(part: Open) -> Result<Option<u64>, String> {
    vast::over(&|image, number| {
        check(part, image, &Answer::Refused(number)).map_err(|e| format!("an image of {} bytes: {e}", image.len()))?;
        Ok(1)
    })
}

/// One image, asked about.
struct Trial<'a> {
    image: &'a Image,
    ports: Option<Ports<'a>>,
    random: Random,
    tally: &'a mut Tally,
}

impl Trial<'_> {
    fn all(&mut self, part: &Result<(usize, usize), u8>, stick: &Stick) -> Checked {
        let read = expected_part(&self.image.whole);
        if read != *part {
            return Err(format!("the drawer knows {part:?}, document 02 tells {read:?}"));
        }
        self.part(&self.image.whole, part)?;
        let open = self.ports.map(|p| p.open);
        judge(self.image, open, Some(&mut self.tally.opening))
            .map_err(|m| format!("opening: the oracle: {}\nthe port: {}", m.expected, m.got))?;
        self.own()?;
        self.calls(stick)?;
        self.list()?;
        self.marks()
    }

    fn part(&self, image: &[u8], part: &Result<(usize, usize), u8>) -> Checked {
        let Some(ports) = self.ports else { return Ok(()) };
        let want = told(part);
        check(ports.part, image, &want).map_err(|e| format!("part: {want} expected\nthe port: {e}"))
    }

    /// A part that has NXSB is its own part, and opens as it does in its image.
    fn own(&mut self) -> Checked {
        let Ok(part) = &self.image.part else { return Ok(()) };
        if part.len() < 4096 || part[32..36] != *b"NXSB" {
            return Ok(());
        }
        self.tally.own += 1;
        let alone = Image::with(Arc::clone(part), Ok((0, part.len())));
        let open = self.ports.map(|p| p.open);
        judge(&alone, open, None)
            .map_err(|m| format!("the part opened: {} expected\nthe port: {}", m.expected, m.got))?;
        self.part(part, &Ok((0, part.len())))
    }

    fn calls(&mut self, stick: &Stick) -> Checked {
        let thorough = self.random.chance(1, THOROUGH);
        let mut trial = calls::run::Trial {
            image: self.image.clone(),
            port: self.ports.map(|p| p.call),
            random: self.random.fork(),
            tally: &mut self.tally.calls,
            met: &mut Met::default(),
        };
        let checked = if thorough { trial.stick(stick) } else { trial.each(0) };
        checked.map_err(|m| m.to_string())
    }

    fn marks(&mut self) -> Checked {
        let thorough = self.random.chance(1, THOROUGH);
        let mut trial = marks::Trial {
            image: self.image,
            port: self.ports.map(|p| p.call),
            random: self.random.fork(),
            share: Share::Some,
            strange: &[],
            found: Vec::new(),
            tally: &mut self.tally.marks,
        };
        let checked = if thorough { trial.all() } else { trial.each(0) };
        checked.map_err(|m| m.to_string())
    }

    fn list(&mut self) -> Checked {
        let mut run = list::run::Run { tally: std::mem::take(&mut self.tally.list), ..Default::default() };
        let checked = run.image(self.image, self.ports.map(|p| p.list), self.random.fork());
        self.tally.list = run.tally;
        checked.map_err(|(volume, m)| format!("volume {volume}, {m}"))
    }
}
