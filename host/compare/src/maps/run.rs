//! A run over many sticks.

use std::fmt;
use std::path::Path;
use std::sync::Arc;

use oracle::nx::Container;
use oracle::probe;
use sticks::random::Random;
use sticks::volume::Lost;
use sticks::{damage_at, Aim, Plan, Stick};

use crate::image::Image;
use crate::maps::damage::spoiled;
use crate::maps::tally::Tally;
use crate::maps::targets::targets;
use crate::maps::walk::{kept, said, Entry, Kind, Map};
use crate::maps::{Key, Lookup, Place, Sides};
use crate::opening::answer::{self, caught};
use crate::opening::run::stick_seed;

/// How often each stick is damaged.
const DAMAGES: u64 = 6;
/// Of a damaged superblock's volumes, no more are asked about.
const VOLUMES: usize = 5;

/// Whose map it is.
#[derive(Clone, Copy, Debug, PartialEq, Eq)]
pub enum Whose {
    Container,
    Volume(usize),
}

impl fmt::Display for Whose {
    fn fmt(&self, f: &mut fmt::Formatter) -> fmt::Result {
        match self {
            Whose::Container => write!(f, "the container's map"),
            Whose::Volume(i) => write!(f, "the map of volume {i}"),
        }
    }
}

pub struct Failure {
    pub seed: u64,
    /// The stick's place in the run.
    pub stick: u64,
    /// Which damage, from 1; 0 for the stick as it was made.
    pub damage: u64,
    pub whose: Whose,
    pub words: String,
    pub image: Arc<Vec<u8>>,
}

#[derive(Default)]
pub struct Run {
    pub images: u64,
    pub tally: Tally,
    pub failure: Option<Failure>,
}

/// The maps that can be found, and the block of each.
fn maps(c: &Container) -> Vec<(Whose, u64)> {
    let volumes = c.sb.fs_oids.iter().take(VOLUMES).enumerate();
    let of_volume = |(i, &oid): (usize, &u64)| {
        let block = caught(|| probe::volume_map(c, oid)).ok()?.ok()?;
        Some((Whose::Volume(i), block))
    };
    [(Whose::Container, c.sb.omap_oid)].into_iter().chain(volumes.filter_map(of_volume)).collect()
}

/// Whether all maps of a stick as it was made have entries: index nodes above an empty leaf have keys of no bytes.
fn fills_maps(plan: &Plan) -> bool {
    !plan.volumes.is_empty() && plan.volumes.iter().all(|v| v.lost != Some(Lost::Missing))
}

/// A node of some map is spoiled, or what opening reads, or any block; none where there is no such node.
fn damaged(image: &[u8], seed: u64, k: u64) -> Option<Vec<u8>> {
    let seed = seed.wrapping_mul(DAMAGES).wrapping_add(k);
    match k {
        1 => Some(damage_at(image, Aim::Opening, seed)),
        2 => Some(damage_at(image, Aim::Anywhere, seed)),
        _ => spoiled_map(image, &mut Random::new(seed)),
    }
}

fn spoiled_map(image: &[u8], random: &mut Random) -> Option<Vec<u8>> {
    let (part, c) = answer::opened(&Image::of(image.to_vec()))?;
    let (_, block) = random.pick(&maps(&c));
    spoiled(&part, &Map::read(&part, block).ok()?, random)
}

impl Run {
    /// Over `count` sticks. Stops at the first failure.
    pub fn over(seed: u64, count: u64, sides: Sides) -> Run {
        let mut run = Run::default();
        for stick in 0..count {
            run.stick(seed, stick, sides);
            if run.failure.is_some() {
                break;
            }
        }
        run
    }

    /// As it was made, and damaged.
    fn stick(&mut self, seed: u64, stick: u64, sides: Sides) {
        let made = Stick::from_seed(stick_seed(seed, stick));
        let of = made.plan.seed;
        for damage in 0..=DAMAGES {
            let image = if damage == 0 { Some(made.image.clone()) } else { damaged(&made.image, of, damage) };
            let Some(image) = image.map(Image::of) else { continue };
            let sound = damage == 0 && fills_maps(&made.plan);
            let random = Random::new(of.wrapping_mul(31).wrapping_add(damage));
            if let Err((whose, words)) = self.image(&image, sound, random, sides) {
                self.failure = Some(Failure { seed, stick, damage, whose, words, image: image.whole });
                return;
            }
        }
    }

    fn image(&mut self, image: &Image, sound: bool, random: Random, sides: Sides) -> Result<(), (Whose, String)> {
        self.images += 1;
        let Some((part, c)) = answer::opened(image) else { return Ok(()) };
        let mut trial = Trial { sound, sides, random, tally: &mut self.tally };
        for (whose, block) in maps(&c) {
            trial.map(Place { image: &part, container: &c, block }).map_err(|words| (whose, words))?;
        }
        Ok(())
    }

    /// Prints the failure, if there was one, and writes its image to a file in `folder`.
    pub fn report_failure(&self, folder: &Path) -> bool {
        let Some(f) = &self.failure else { return false };
        let file = folder.join(format!("maps-{}-{}-{}.img", f.seed, f.stick, f.damage));
        println!("seed {}, stick {}, damage {}, {}: {}", f.seed, f.stick, f.damage, f.whose, f.words);
        match std::fs::create_dir_all(folder).and_then(|()| std::fs::write(&file, &**f.image)) {
            Ok(()) => println!("{} bytes that show it: {}", f.image.len(), file.display()),
            Err(e) => println!("{}: {e}", file.display()),
        }
        true
    }
}

/// The maps of one image.
struct Trial<'a> {
    /// Whether they must be well-formed.
    sound: bool,
    sides: Sides<'a>,
    random: Random,
    tally: &'a mut Tally,
}

impl Trial<'_> {
    fn map(&mut self, place: Place) -> Result<(), String> {
        let read = Map::read(place.image, place.block).map(|map| map.tree);
        let judged = read.and_then(|tree| (self.sides.well_formed)(&tree).map(|()| tree));
        self.tally.map(judged.as_ref().map_err(|fault| *fault));
        let tree = match judged {
            Ok(tree) => tree,
            Err(fault) if self.sound => return Err(format!("not well-formed as it was made: {fault}")),
            Err(_) => return Ok(()),
        };
        let lookup = (self.sides.load)(place).map_err(|a| format!("well-formed, and not loaded: {a}"))?;
        let entries = tree.entries();
        targets(&entries, &mut self.random).into_iter().try_for_each(|target| self.target(&entries, &lookup, target))
    }

    fn target(&mut self, entries: &[&Entry], lookup: &Lookup, target: Key) -> Result<(), String> {
        let kept = kept(entries, target);
        let (want, got) = (said(kept, target.0), lookup(target));
        self.tally.lookup(Kind::of(kept, target.0));
        if got == want {
            return Ok(());
        }
        let (oid, xid) = target;
        Err(format!("object {oid} at transaction {xid}\nthe walk: {want}\nthe lookup: {got}"))
    }
}
