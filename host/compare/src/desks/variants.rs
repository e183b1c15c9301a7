//! What becomes of a stick: images of it, whole and damaged, some of them in a partition table, and the checkpoints that
//! are asked for.

use std::sync::Arc;

use sticks::random::Random;
use sticks::volume::Volume;
use sticks::{gpt, make, Plan, Stick};

use crate::calls::run::damaged;
use crate::checkpoints::spoiled::candidates;
use crate::desks::trial::read_part;
use crate::image::Image;
use crate::opening;

/// Larger sticks are left out: a call on one takes as long as many on others.
const LARGEST: usize = 1 << 18;
/// How often each stick is damaged.
const DAMAGES: u64 = 4;
/// One stick of so many is made once more with directory keys about the edges of their forms.
const AT_EDGES: u64 = 4;
/// One image of so many is in a table.
const TABLED: u64 = 8;
/// Of an image, so many numbers of checkpoints.
const NUMBERS: usize = 2;

pub struct Variant {
    pub image: Image,
    /// By which calls are drawn.
    pub volumes: Arc<Vec<Volume>>,
    /// Whether it was saved several times.
    saved: bool,
}

fn small(random: &mut Random, change: fn(Plan) -> Plan) -> Stick {
    loop {
        let stick = make(change(Plan::draw(random.draw())));
        if stick.image.len() <= LARGEST {
            return stick;
        }
    }
}

/// A drawn stick and another that was saved several times.
pub fn drawn(random: &mut Random) -> Vec<Variant> {
    let (stick, seed) = (small(random, |plan| plan), random.draw());
    let mut images: Vec<Vec<u8>> = (1..=DAMAGES).map(|k| damaged(&stick.image, seed, k)).collect();
    images.push(opening::run::damaged(&stick.image, seed, 1));
    let at_edges = random.chance(1, AT_EDGES).then(|| make(stick.plan.at_edges()));
    let at_edges = at_edges.filter(|edges| edges.image.len() <= LARGEST);
    let saved = small(random, |plan| plan.saved());
    let spoiled = damaged(&saved.image, seed, 1);
    images.push(stick.image);
    let mut out = variants(stick.plan, images, false, random);
    out.extend(at_edges.into_iter().flat_map(|edges| variants(edges.plan, vec![edges.image], false, random)));
    out.extend(variants(saved.plan, vec![spoiled, saved.image], true, random));
    out
}

fn variants(plan: Plan, images: Vec<Vec<u8>>, saved: bool, random: &mut Random) -> Vec<Variant> {
    let volumes = Arc::new(plan.volumes);
    let variant = |image: Vec<u8>| {
        let image = if random.chance(1, TABLED) { gpt::draw(&image, random.draw()).image } else { image };
        Variant { image: Image::of(image), volumes: Arc::clone(&volumes), saved }
    };
    images.into_iter().map(variant).collect()
}

impl Variant {
    /// The latest; of a stick that was saved several times also earlier ones, and one that there may not be.
    pub fn checkpoints(&self, random: &mut Random) -> Vec<Option<u64>> {
        let mut numbers: Vec<u64> = candidates(read_part(&self.image)).iter().map(|c| c.xid).collect();
        random.shuffle(&mut numbers);
        let near = numbers.first().map_or(7, |n| n ^ 1 << random.below(2));
        numbers.truncate(if self.saved { NUMBERS } else { 0 });
        let other = (self.saved || random.chance(1, 8)).then_some(near);
        [None].into_iter().chain(numbers.into_iter().chain(other).map(Some)).collect()
    }
}
