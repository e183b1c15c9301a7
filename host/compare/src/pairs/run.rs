//! A run over many pairs.

use std::path::Path;

use sticks::contents::Contents;
use sticks::random::Random;
use sticks::{make, Stick};

use crate::opening::run::stick_seed;
use crate::pairs::pair::{Pair, Said, LISTING};
use crate::pairs::tally::Tally;
use crate::pairs::{change, layout, mark, planned, questions, Ports};

/// How many changes are tried on each volume.
const CHANGES: usize = 8;
/// One stick of so many is made once more with directory keys about the edges of their forms.
const AT_EDGES: u64 = 4;
/// Bytes of the shortest key that the Rust reads.
const SHORTEST: usize = 12;

pub struct Failure {
    pub seed: u64,
    /// The stick's place in the run.
    pub stick: u64,
    pub volume: usize,
    pub words: String,
    pub images: [Vec<u8>; 2],
}

#[derive(Default)]
pub struct Run {
    pub tally: Tally,
    pub failure: Option<Failure>,
}

/// What went wrong, and both images.
type Wrong = (String, [Vec<u8>; 2]);
type Checked<T> = Result<T, Wrong>;

impl Run {
    /// Over `count` sticks. Stops at the first failure.
    pub fn over(seed: u64, count: u64, ports: Ports) -> Run {
        let mut run = Run::default();
        for stick in 0..count {
            let drawn = Stick::from_seed(stick_seed(seed, stick));
            if !drawn.plan.opens() {
                continue;
            }
            let at_edges = stick.is_multiple_of(AT_EDGES).then(|| make(drawn.plan.at_edges()));
            let tried = [&drawn].into_iter().chain(&at_edges).try_for_each(|first| run.stick(first, ports));
            if let Err((volume, (words, images))) = tried {
                run.failure = Some(Failure { seed, stick, volume, words, images });
                return run;
            }
        }
        run
    }

    /// Each regular volume; an error has its place.
    fn stick(&mut self, first: &Stick, ports: Ports) -> Result<(), (usize, Wrong)> {
        let volumes = first.plan.volumes.iter().enumerate();
        for (volume, _) in volumes.filter(|(_, v)| v.is_regular()) {
            let random = Random::new(first.plan.seed ^ volume as u64);
            let mut trial = Trial { ports, first, volume, random, tally: &mut self.tally };
            trial.volume().map_err(|wrong| (volume, wrong))?;
        }
        Ok(())
    }

    /// Prints the failure, if there was one, and writes its images to files in `folder`.
    pub fn report_failure(&self, folder: &Path) -> bool {
        let Some(f) = &self.failure else { return false };
        println!("seed {}, stick {}, volume {}: {}", f.seed, f.stick, f.volume, f.words);
        for (image, which) in f.images.iter().zip(["a", "b"]) {
            let file = folder.join(format!("pair-{}-{}-{which}.img", f.seed, f.stick));
            match std::fs::create_dir_all(folder).and_then(|()| std::fs::write(&file, image)) {
                Ok(()) => println!("{}", file.display()),
                Err(e) => println!("{}: {e}", file.display()),
            }
        }
        true
    }
}

/// One volume of a stick.
struct Trial<'a> {
    ports: Ports<'a>,
    first: &'a Stick,
    volume: usize,
    random: Random,
    tally: &'a mut Tally,
}

impl<'a> Trial<'a> {
    fn contents(&self) -> &'a Contents {
        &self.first.plan.volumes[self.volume].contents
    }

    fn volume(&mut self) -> Checked<()> {
        let listed = self.alike()?;
        // Of a listing that is refused, what comes after the refusal does not show.
        if let Ok(planned) = planned::listing(self.contents(), LISTING) {
            (0..CHANGES).try_for_each(|_| self.changed(&listed, &planned))?;
        }
        self.marked()
    }

    fn pair<'p>(&'p self, second: &'p Stick) -> Pair<'p> {
        let images = [&self.first.image[..], &second.image];
        Pair { ports: self.ports, images, volume: self.volume as u64 }
    }

    /// The listing of the volume, which a second stick of the same contents shares.
    fn alike(&mut self) -> Checked<Said> {
        let second = make(self.first.plan.relaid(self.random.draw()));
        let calls = questions::drawn(self.contents(), &mut self.random);
        let pair = self.pair(&second);
        let told = |words: String| (words, [self.first.image.clone(), second.image.clone()]);
        let listed = pair.same_list().map_err(told)?;
        let said: Result<Vec<Said>, String> = calls.iter().map(|call| pair.same_call(call)).collect();
        let said = said.map_err(told)?;
        self.tally.alike += 1;
        let mut entries = self.contents().files.iter().flat_map(|f| &f.entries);
        self.tally.short += u64::from(entries.any(|e| e.key.length(&e.name) < SHORTEST));
        self.tally.calls += 1 + calls.len() as u64;
        self.tally.layout(&layout::differences(self.first, &second, self.volume));
        self.tally.answer("list", listed.n);
        calls.iter().zip(said).for_each(|(call, said)| self.tally.answer(call.name(), said.n));
        Ok(listed)
    }

    /// A second stick with one thing changed, stored much as the first or otherwise.
    fn changed(&mut self, listed: &Said, planned: &[u8]) -> Checked<()> {
        let Some((kind, contents)) = change::drawn(self.contents(), &mut self.random) else { return Ok(()) };
        if planned::listing(&contents, LISTING).as_deref() == Ok(planned) {
            self.tally.hidden += 1;
            return Ok(());
        }
        let mut plan = self.first.plan.clone();
        plan.volumes[self.volume].contents = contents;
        if self.random.chance(1, 2) {
            plan = plan.relaid(self.random.draw());
        }
        let second = make(plan);
        let pair = self.pair(&second);
        let images = || [self.first.image.clone(), second.image.clone()];
        pair.other_list(listed).map_err(|words| (format!("{kind} changed: {words}"), images()))?;
        self.tally.change(kind);
        Ok(())
    }

    /// Two sticks as the first, but for a name in which U+FFFD was typed or that is damaged there.
    fn marked(&mut self) -> Checked<()> {
        let Some(m) = mark::drawn(self.contents(), &mut self.random) else { return Ok(()) };
        let images = [&m.typed, &m.damaged].map(|contents| {
            let mut plan = self.first.plan.clone();
            plan.volumes[self.volume].contents = contents.clone();
            make(plan).image
        });
        let calls = questions::drawn(&m.typed, &mut self.random);
        let pair = Pair { ports: self.ports, images: [&images[0], &images[1]], volume: self.volume as u64 };
        let checked = pair.marked(&m, &calls, &mut self.random);
        checked.map_err(|words| (format!("{} typed and damaged: {words}", m.what), images))?;
        self.tally.mark(m.what);
        Ok(())
    }
}
