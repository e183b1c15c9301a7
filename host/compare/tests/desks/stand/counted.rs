//! How many nodes a call goes through.

use compare::desks::account::MEASURED;
use compare::desks::request::{self as what, Request, NO_CALL};
use oracle::error::{Error, Result};

use super::list::{Listing, Stop};
use super::slip::Slip as S;
use super::source::Source;
use super::volume::{Container, Volume};

pub fn counted(source: &Source, r: &Request, room: usize) -> u64 {
    let goes = match r.what {
        what::CHECKPOINTS | what::PART | what::WRONG_WORDS => source.has(S::NoNodesOpen),
        _ => r.name() != NO_CALL || source.has(S::NoCallOpens),
    };
    if !goes {
        return 0;
    }
    match called(source, r, room) {
        Err(_) if source.has(S::RefusedDropped) => 0,
        Err(e) if source.has(S::CountedAfterLevel) && is_level(&e) => source.count() - 1,
        _ => source.count(),
    }
}

fn is_level(e: &Error) -> bool {
    matches!(e, Error::Corrupt(words) if words.contains("has a child at level"))
}

fn called(source: &Source, r: &Request, room: usize) -> Result<()> {
    let opened = opened(source, r);
    if opened.is_err() && source.has(S::RefusedOpeningDropped) {
        source.set(0);
    }
    let Some(volume) = opened? else { return Ok(()) };
    if source.has(S::OpeningDropped) {
        source.set(0);
    }
    source.unless(source.has(S::NoNodesButOpening), || on_volume(&volume, r, room))
}

/// The volume, where one is asked for.
fn opened<'s>(source: &'s Source, r: &Request) -> Result<Option<Volume<'s>>> {
    let container = Container::open(source, r)?;
    match r.what {
        what::MARKED if source.has(S::MarkedOpensVolume) => container.volume(r.volume).map(|_| None),
        what::OPEN | what::MARKED | what::CHECKPOINTS.. => Ok(None),
        _ => container.volume(r.volume).map(Some),
    }
}

fn on_volume(v: &Volume, r: &Request, room: usize) -> Result<()> {
    let room = room as u64;
    match r.what {
        what::LIST => listed(v, room),
        what::MEASURE => {
            let before = v.source.count();
            let measured = listed(v, if v.has(S::MeasuredByRoom) { room } else { MEASURED });
            let walked = v.source.count() - before;
            match v.source.slip {
                S::MeasuredTwice if measured.is_ok() => v.source.set(before + 2 * walked),
                S::MeasureNotCounted => v.source.set(before),
                _ => {}
            }
            measured
        }
        _ => v.called(r),
    }
}

fn listed(v: &Volume, room: u64) -> Result<()> {
    let mut listing = Listing::into(v, room);
    match listing.volume() {
        Ok(()) => Ok(()),
        Err(Stop::Refused(e)) => Err(e),
        Err(Stop::Short) => {
            match v.source.slip {
                S::ShortListDropped => v.source.set(0),
                S::ShortLineNotRead => v.source.set(listing.at_line),
                _ => {}
            }
            Ok(())
        }
    }
}
