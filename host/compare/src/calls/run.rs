//! A run over many sticks.

use std::fmt;
use std::path::Path;
use std::sync::Arc;

use oracle::nx::Container;
use oracle::probe;
use sticks::contents::Contents;
use sticks::random::Random;
use sticks::{damage_at, make, Aim, Stick};

use crate::calls::call::Call;
use crate::calls::check::Subject;
use crate::calls::directory::{Directories, Rule};
use crate::calls::expected::{self, Answer, Expected};
use crate::calls::lists::Lists;
use crate::calls::met::Met;
use crate::calls::tally::Tally;
use crate::calls::{draw, replaced, Port};
use crate::image::Image;
use crate::opening::answer::{self, caught};
use crate::opening::run::stick_seed;
use crate::opening::shrink::shrink;

/// How often each stick is damaged.
const DAMAGES: u64 = 4;
/// One stick of so many is made once more with patched names, and that one is damaged once.
const PATCHED: u64 = 24;
/// So with directory keys about the edges of their forms.
const AT_EDGES: u64 = 8;
/// Of a damaged superblock's volumes, no more are asked about.
const VOLUMES: u64 = 5;

pub struct Mismatch {
    pub volume: u64,
    pub call: Call,
    pub expected: Expected,
    pub got: String,
}

impl fmt::Display for Mismatch {
    fn fmt(&self, f: &mut fmt::Formatter) -> fmt::Result {
        let (kind, got) = (self.expected.kind, &self.got);
        write!(f, "volume {}, {}: {kind} expected\nthe port: {got}", self.volume, self.call)
    }
}

pub struct Failure {
    pub seed: u64,
    /// The stick's place in the run.
    pub stick: u64,
    /// Which damage, from 1; 0 for the stick as it was made, and past the last damage those made once more.
    pub damage: u64,
    pub mismatch: Box<Mismatch>,
    pub image: Arc<Vec<u8>>,
}

#[derive(Default)]
pub struct Run {
    pub images: u64,
    pub tally: Tally,
    pub met: Met,
    pub failure: Option<Failure>,
}

pub type Checked = Result<(), Box<Mismatch>>;

/// In three cases of four what the volumes' trees hold is spoiled.
pub fn damaged(image: &[u8], seed: u64, k: u64) -> Vec<u8> {
    let aim = if k == DAMAGES { Aim::Anywhere } else { Aim::Files };
    damage_at(image, aim, seed.wrapping_mul(DAMAGES).wrapping_add(k))
}

impl Run {
    /// Over `count` sticks; without a port the oracle is asked alone. Stops at the first failure.
    pub fn over(seed: u64, count: u64, port: Option<Port>) -> Run {
        let mut run = Run::default();
        // The last image is kept until there is a next one, so that two in a row never have one address.
        let mut kept = Image::of(Vec::new());
        for i in 0..count {
            let whole = Stick::from_seed(stick_seed(seed, i));
            let patched = i.is_multiple_of(PATCHED).then(|| make(whole.plan.patched()));
            let at_edges = i.is_multiple_of(AT_EDGES).then(|| make(whole.plan.at_edges()));
            let again = patched.iter().chain(&at_edges).flat_map(|stick| [(stick, 0), (stick, 1)]);
            for (n, (stick, k)) in (0..).zip((0..=DAMAGES).map(|k| (&whole, k)).chain(again)) {
                let of = whole.plan.seed;
                let image = if k == 0 { stick.image.clone() } else { damaged(&stick.image, of, k) };
                let random = Random::new(of.wrapping_mul(31).wrapping_add(n));
                let (tally, met) = (&mut run.tally, &mut run.met);
                let mut trial = Trial { image: Image::of(image), port, random, tally, met };
                let checked = trial.stick(stick).and_then(|()| if k == 0 { trial.names(stick) } else { Ok(()) });
                let before = std::mem::replace(&mut kept, trial.image);
                drop(before);
                run.images += 1;
                if let Err(mismatch) = checked {
                    let image = kept.whole;
                    run.failure = Some(Failure { seed, stick: i, damage: n, mismatch, image });
                    return run;
                }
            }
        }
        run
    }

    /// Prints the failure, if there was one, and writes its image, made smaller, to a file in `folder`.
    pub fn report_failure(&self, port: Option<Port>, folder: &Path) -> bool {
        self.failure.as_ref().is_some_and(|f| f.report("calls", port, folder))
    }
}

impl Failure {
    /// True, so that a run tells that there was one.
    pub fn report(&self, run: &str, port: Option<Port>, folder: &Path) -> bool {
        let m = &self.mismatch;
        let file = folder.join(format!("{run}-{}-{}-{}.img", self.seed, self.stick, self.damage));
        println!("seed {}, stick {}, damage {}, volume {}: {}", self.seed, self.stick, self.damage, m.volume, m.call);
        println!("expected: {}\nthe port: {}", shown(&m.expected), m.got);
        let image = smaller(&self.image, m, port);
        match std::fs::create_dir_all(folder).and_then(|()| std::fs::write(&file, &image)) {
            Ok(()) => println!("{} bytes that show it: {}", image.len(), file.display()),
            Err(e) => println!("{}: {e}", file.display()),
        }
        true
    }
}

fn shown(e: &Expected) -> String {
    match &e.answer {
        Answer::Bytes(b) => {
            format!("{} bytes, \"{}\" ({})", b.len(), b[..b.len().min(300)].escape_ascii(), e.kind)
        }
        _ => e.kind.to_string(),
    }
}

/// The image with all gone that the failure, of the same kind, can do without.
fn smaller(image: &Arc<Vec<u8>>, m: &Mismatch, port: Option<Port>) -> Vec<u8> {
    let Some(port) = port else { return image.to_vec() };
    let fails = |b: &[u8]| {
        let want = expected::of_image(&Image::of(b.to_vec()), m.volume, &m.call);
        let subject = Subject { port, image: b, volume: m.volume, call: &m.call };
        want.kind == m.expected.kind && (0..8).any(|k| subject.check(&want, &mut Random::new(k)).is_err())
    };
    if fails(image) {
        shrink(image.to_vec(), &fails)
    } else {
        image.to_vec()
    }
}

/// One image, asked about.
pub struct Trial<'a> {
    pub image: Image,
    pub port: Option<Port<'a>>,
    pub random: Random,
    pub tally: &'a mut Tally,
    pub met: &'a mut Met,
}

impl Trial<'_> {
    pub fn stick(&mut self, whole: &Stick) -> Checked {
        let Some((part, c)) = answer::opened(&self.image) else { return self.each(0) };
        let slots = (c.sb.fs_oids.len() as u64).min(VOLUMES);
        for i in 0..slots {
            let plan = whole.plan.volumes.get(i as usize).or(whole.plan.volumes.first());
            match plan {
                Some(plan) => self.volume(&part, &c, i, &plan.contents)?,
                None => self.each(i)?,
            }
        }
        let none = self.random.pick(&[slots, u64::MAX]);
        self.each(none)
    }

    /// One call of each kind on what may be no volume.
    pub fn each(&mut self, volume: u64) -> Checked {
        let mut calls = draw::each(&mut self.random);
        calls.push(self.name());
        for call in calls {
            let want = expected::of_image(&self.image, volume, &call);
            self.judge(volume, call, want)?;
        }
        Ok(())
    }

    /// A name of some kind, or of none.
    fn name(&mut self) -> Call {
        let all = draw::each_name(&mut self.random);
        self.random.pick(&all)
    }

    fn volume(&mut self, part: &[u8], c: &Container, i: u64, plan: &Contents) -> Checked {
        let Ok(Ok(v)) = caught(|| c.volume(i as usize)) else { return self.each(i) };
        let dirs = Directories::of(&v, Rule::Kind);
        let mut calls = draw::lookups(plan, &mut self.random);
        calls.push(self.name());
        for call in calls {
            let want = expected::of_volume(part, c, &dirs, &call);
            self.judge(i, call, want)?;
        }
        for id in draw::ids(plan, &mut self.random) {
            let lists = Lists::of(&dirs, id);
            self.met.count(&lists, probe::block_count(c), c.block_size().into());
            let mut calls = draw::on(&lists, id, c.block_size().into(), &mut self.random);
            calls.extend(draw::in_one_call(&lists, id, &mut self.random));
            let name = draw::name(&lists, id, &mut self.random);
            calls.extend(self.random.chance(1, 2).then_some(name));
            for call in calls {
                let want = expected::of_volume(part, c, &dirs, &call);
                self.judge(i, call, want)?;
            }
        }
        Ok(())
    }

    /// Every name of the regular volumes of a stick as it was made, by its plan.
    fn names(&mut self, stick: &Stick) -> Checked {
        let regular = (0..).zip(&stick.plan.volumes).filter(|(_, v)| stick.plan.opens() && v.is_regular());
        for (i, v) in regular {
            replaced::planned(&v.contents).into_iter().try_for_each(|(call, want)| self.judge(i, call, want))?;
        }
        Ok(())
    }

    fn judge(&mut self, volume: u64, call: Call, want: Expected) -> Checked {
        self.tally.count(&call, want.kind);
        self.tally.account(&call, &want);
        judged(self.port, &self.image.whole, (volume, call), want, &mut self.random)
    }
}

/// Holds a call on an image and a volume against what is expected; without a port the oracle is asked alone.
pub fn judged(
    port: Option<Port>,
    image: &[u8],
    (volume, call): (u64, Call),
    want: Expected,
    random: &mut Random,
) -> Checked {
    let checked = match (port, &want.answer) {
        (Some(port), _) => Subject { port, image, volume, call: &call }.check(&want, random),
        (None, Answer::Panic(m)) => Err(format!("the oracle panicked: {m}")),
        (None, _) => Ok(()),
    };
    checked.map_err(|got| Box::new(Mismatch { volume, call, expected: want, got }))
}
