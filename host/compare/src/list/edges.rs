//! Volumes and images that no seed draws.

use sticks::contents::{Contents, Extent, Key, Source};
use sticks::plan::large;
use sticks::random::Random;
use sticks::{make, Plan};

use crate::calls::vast;
use crate::list::check::Subject;
use crate::list::trace::{End, Trace};
use crate::list::Ports;

/// Depth below the root, and how often each directory is entered.
const CHAINS: [(u64, u64); 9] = [(0, 1), (1, 3), (8, 2), (30, 2), (63, 1), (64, 1), (65, 1), (66, 1), (66, 2)];

/// Bytes of a file before the extents below, which are holes: starts and lengths.
const SOUND: u64 = 8192;
const HOLES: [&[(u64, u64)]; 7] = [
    &[(8192, 4096), (12288, 1)],
    &[(8192, 4096), (12287, 0)],
    &[(8192, 4096), (9000, 1)],
    &[(8192, 0), (8192, 4096)],
    &[(9000, 0), (8192, 0)],
    &[(u64::MAX - 10, 20)],
    &[(u64::MAX - 10, 20), (u64::MAX, 0)],
];
const SIZES: [u64; 5] = [0, SOUND, 9001, 1 << 40, u64::MAX];

pub fn images() -> Vec<Vec<u8>> {
    let chains = CHAINS.into_iter().map(|(depth, times)| large::chain(depth, times));
    let astray = [63, 64].into_iter().map(astray);
    let files = HOLES.into_iter().flat_map(|holes| SIZES.into_iter().map(|size| file(holes, size)));
    let keys = [Key::BarePlain, Key::Bare].map(sensitive);
    chains.chain(astray).chain(files).chain(keys).map(|c| make(Plan::with_contents(c, 5)).image).collect()
}

/// A chain one directory deeper, where that one has no inode.
fn astray(depth: u64) -> Contents {
    let mut contents = large::chain(depth + 1, 1);
    contents.files.pop();
    contents
}

/// Directories of a volume whose keys are plain, under names of no byte and of one.
fn sensitive(key: Key) -> Contents {
    let mut contents = large::chain(3, 2);
    (contents.case_insensitive, contents.normalization_insensitive) = (false, false);
    for (i, e) in contents.files.iter_mut().flat_map(|f| &mut f.entries).enumerate() {
        (e.key, e.name) = (key, vec![b'a'; i % 2]);
    }
    contents
}

/// A file said to have `size` bytes.
fn file(holes: &[(u64, u64)], size: u64) -> Contents {
    let mut contents = large::file(SOUND, 2, 4096, &mut Random::new(size));
    let hole = |&(logical, length): &(u64, u64)| Extent { logical, length, source: Source::Hole };
    contents.streams[0].extents.extend(holes.iter().map(hole));
    contents.files[1].inode.fields[0].data[..8].copy_from_slice(&size.to_le_bytes());
    contents
}

/// How many calls agreed on images about 2^34 bytes long.
pub fn vast(ports: Ports) -> Result<Option<u64>, String> {
    vast::over(&|image, number| {
        let (lengths, of) = ([0, 1, 300], |port| Subject { port, image, volume: 0 });
        let trace = Trace::only(End::Refused(number));
        for n in lengths {
            let checked = of(ports.list).check(&trace, n).and_then(|()| of(ports.measure).measures(&trace.measured, n));
            checked.map_err(|m| format!("an image of {} bytes, {m}", image.len()))?;
        }
        Ok(2 * lengths.len() as u64)
    })
}
