//! Opening a volume: slots, encryption, sealing, maps and root.

use sticks::block::{put32, put64};
use sticks::make;
use sticks::volume::{Lost, FAR};

use super::stick::{changed, contents, empty, file, image, plan, ROOT, ROOT_LINE, VOLUME};
use super::Said::{Refused, Text};
use super::{group, Group, Said, Stated};

fn root(said: Said) -> Vec<Stated> {
    vec![Stated::lookup("", said)]
}

fn lost(how: Lost, spare: u64) -> Vec<u8> {
    let mut plan = plan(contents(vec![file(ROOT)]));
    plan.volumes[0].lost = Some(how);
    (plan.spare, plan.counted_blocks_present) = (spare, spare == 0);
    make(plan).image
}

fn flagged(encrypted: bool, sealed: bool) -> Vec<u8> {
    let mut c = contents(vec![file(ROOT)]);
    (c.encrypted, c.sealed) = (encrypted, sealed);
    image(c)
}

pub fn groups() -> Vec<Group> {
    vec![indexes(), kinds(), roots()]
}

fn indexes() -> Group {
    let of = |volume: u64, said: Said| Stated::lookup("", said).of_volume(volume);
    let cases = vec![of(0, Text(ROOT_LINE.into())), of(1, Refused(4)), of(99, Refused(4)), of(u64::MAX, Refused(4))];
    group("volume indexes", vec![(empty(), cases)])
}

fn kinds() -> Group {
    let nowhere = |image: &[u8]| changed(image, VOLUME, |b| put64(b, 128, 0));
    let cases = vec![
        (flagged(true, false), root(Refused(3))),
        (flagged(false, true), root(Refused(3))),
        (flagged(true, true), root(Refused(3))),
        (nowhere(&flagged(true, false)), root(Refused(3))),
        (nowhere(&flagged(false, true)), root(Refused(3))),
        (nowhere(&empty()), root(Refused(2))),
        (changed(&empty(), VOLUME, |b| put32(b, 32, 0)), root(Refused(2))),
    ];
    group("encryption, then sealing, then the maps", cases)
}

fn roots() -> Group {
    let cases = vec![
        (lost(Lost::Missing, 0), root(Refused(2))),
        (lost(Lost::Ghost, 0), root(Refused(2))),
        (lost(Lost::Deleted, 0), root(Refused(2))),
        (lost(Lost::Far, 0), root(Refused(2))),
        (lost(Lost::Far, 2 * FAR), root(Refused(8))),
    ];
    group("a root that the map has not", cases)
}
