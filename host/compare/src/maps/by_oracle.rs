//! The Rust's `Omap::load`, `lookup_le` and `Omap::lookup`.

use oracle::error::Result as Told;
use oracle::omap::OmapVal;
use oracle::probe;

use crate::maps::{Lookup, Mapping, Place, Said};
use crate::opening::answer::{caught, Answer};

fn asked<T>(f: impl FnOnce() -> Told<T>) -> Result<T, Answer> {
    caught(f)?.map_err(|e| Answer::Refused(probe::class(&e)))
}

fn mapping(value: OmapVal) -> Mapping {
    Mapping { flags: value.flags, size: value.size, block: value.paddr }
}

pub fn load(place: Place) -> Result<Lookup, Answer> {
    let c = place.container;
    let map = asked(|| probe::map(c, place.block))?;
    Ok(Box::new(move |target| Said {
        hit: asked(|| probe::lookup_le(c, &map, target)),
        mapping: asked(|| probe::map_lookup(c, &map, target)).map(|value| value.map(mapping)),
    }))
}
