//! The cases of a comparison: short inputs exhaustively, longer ones drawn from a seed.

mod checksums;
mod fields;
mod names;
mod texts;

use crate::leaf::Case;
use crate::random::Random;

pub type Sink<'s> = &'s mut dyn FnMut(Case);

pub fn all(seed: u64, sink: Sink) {
    let mut random = Random::new(seed);
    fields::numbers(&mut random, sink);
    fields::slices(sink);
    fields::headers(&mut random, sink);
    fields::reads(&mut random, sink);
    texts::short(&mut random, sink);
    texts::characters(sink);
    texts::drawn(&mut random, sink);
    checksums::short(&mut random, sink);
    checksums::blocks(&mut random, sink);
    names::short(sink);
    names::drawn(&mut random, sink);
    names::not_covered(&mut random, sink);
    checksums::unaligned(&mut random, sink);
}
