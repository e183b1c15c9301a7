//! One image: its records asked for by their marks, and marks handed in.

use oracle::fs::Volume;
use oracle::nx::Container;
use oracle::probe;
use sticks::random::Random;

use crate::calls::call::Call;
use crate::calls::expected::{self, Answer, Expected, Kind};
use crate::calls::run::{judged, Checked, Mismatch};
use crate::calls::Port;
use crate::image::Image;
use crate::marks::draw::{self, Drawn, Ground};
use crate::marks::handed;
use crate::marks::records::Records;
use crate::marks::tally::Tally;
use crate::marks::walk;
use crate::marks::Mark;
use crate::opening::answer::{self, caught};
use crate::trees::Head;

/// Of a damaged superblock's volumes, no more are asked about.
const VOLUMES: u64 = 5;
/// Of a smaller share, so many ids and kinds of a volume, and so many records of each.
const HEADS: usize = 3;
const PLACES: usize = 2;
/// So many marks are handed in, where it is not one of each kind.
const HANDED: usize = 6;

/// How much of an image is asked about.
#[derive(Clone, Copy, Debug, PartialEq, Eq)]
pub enum Share {
    /// Every record.
    All,
    Some,
}

pub struct Trial<'a> {
    pub image: &'a Image,
    pub port: Option<Port<'a>>,
    pub random: Random,
    pub share: Share,
    /// Marks of another image.
    pub strange: &'a [Mark],
    /// Those of this one.
    pub found: Vec<Mark>,
    pub tally: &'a mut Tally,
}

impl Trial<'_> {
    /// Every volume, one that is not there, and marks handed in.
    pub fn all(&mut self) -> Checked {
        let Some((part, c)) = answer::opened(self.image) else { return self.each(0) };
        let (slots, mut ghosts) = (c.sb.fs_oids.len() as u64, Vec::new());
        for i in 0..slots.min(VOLUMES) {
            match caught(|| c.volume(i as usize)) {
                Ok(Ok(v)) => ghosts.extend(self.volume(&part, &c, (i, &v))?),
                _ => self.each(i)?,
            }
        }
        let none = self.random.pick(&[slots, u64::MAX]);
        self.each(none)?;
        self.handed(&part, &c, &ghosts)
    }

    /// One call of each on what may be no volume.
    pub fn each(&mut self, volume: u64) -> Checked {
        for call in draw::each(&mut self.random) {
            let want = expected::of_image(self.image, volume, &call);
            self.judge(volume, call, want)?;
        }
        Ok(())
    }

    /// The records of the ids and kinds that there are, and of others. The marks of entries without a value.
    fn volume(&mut self, part: &[u8], c: &Container, (i, v): (u64, &Volume)) -> Result<Vec<Mark>, Box<Mismatch>> {
        let survey = walk::survey(part, c, v);
        let mut heads: Vec<Head> = survey.heads.iter().copied().collect();
        let absent = draw::absent(&heads, &mut self.random);
        if self.share == Share::Some {
            self.random.shuffle(&mut heads);
            heads.truncate(HEADS);
        }
        for head in heads.into_iter().chain(absent) {
            let records = caught(|| Records::of(part, c, v, head)).map_err(|a| stopped(i, head, a))?;
            self.records(part, c, (i, head), &records)?;
        }
        self.tally.ghosts += survey.ghosts.len() as u64;
        Ok(survey.ghosts)
    }

    /// Each record by its mark, and places past the last.
    fn records(&mut self, part: &[u8], c: &Container, (volume, (id, kind)): (u64, Head), records: &Records) -> Checked {
        let most = if self.share == Share::All { usize::MAX } else { PLACES };
        for (place, (mark, line)) in (0..).zip(records.list.iter().take(most)) {
            self.tally.record(mark, c.block_size().into(), walk::is_root(part, mark.block));
            self.judge(volume, Call::Mark { id, kind, place }, records.told(place).into())?;
            let answer = Answer::Bytes(line.clone().into_bytes());
            let want = Expected { answer, ..handed::told(part, c, &mark.bytes()).into() };
            self.judge(volume, Call::Marked { mark: mark.bytes() }, want)?;
            self.found.push(*mark);
        }
        let n = records.list.len() as u64;
        let place = self.random.pick(&[n, n, n, n + 1, n + 1000, 1 << 32, u64::MAX]);
        self.judge(volume, Call::Mark { id, kind, place }, records.told(place).into())
    }

    fn handed(&mut self, part: &[u8], c: &Container, ghosts: &[Mark]) -> Checked {
        let (size, count) = (c.block_size().into(), probe::block_count(c));
        let (records, strange) = (&self.found, self.strange);
        let ground = Ground { size, count, length: part.len() as u64, records, ghosts, strange };
        let mut drawn = ground.all(&mut self.random);
        if self.share == Share::Some {
            self.random.shuffle(&mut drawn);
            drawn.truncate(HANDED);
        }
        for Drawn { kind, mark } in drawn {
            let want: Expected = handed::told(part, c, &mark).into();
            self.tally.handed(kind, matches!(want.answer, Answer::Bytes(_)));
            let volume = self.random.pick(&[0, u64::MAX]);
            self.judge(volume, Call::Marked { mark }, want)?;
        }
        Ok(())
    }

    fn judge(&mut self, volume: u64, call: Call, want: Expected) -> Checked {
        self.tally.count(&call, want.kind);
        judged(self.port, &self.image.whole, (volume, call), want, &mut self.random)
    }
}

/// The scan and the walk differ, or the oracle stopped.
fn stopped(volume: u64, (id, kind): Head, a: answer::Answer) -> Box<Mismatch> {
    let expected = Expected::new(Answer::Panic(a.to_string()), Kind::Open("panic"));
    Box::new(Mismatch { volume, call: Call::Mark { id, kind, place: 0 }, expected, got: a.to_string() })
}
