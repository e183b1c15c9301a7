//! What a call must answer.

use std::fmt;

use crate::calls::call::Call;
use crate::calls::directory::{Account, Rule};
use crate::calls::expected::{self, Answer};
use crate::checkpoints::spoiled::{self, image_at};
use crate::desks::request as what;
use crate::image::Image;
use crate::list::measure::Measured;
use crate::list::trace::End;
use crate::list::walk;
use crate::opening::answer;
use crate::opening::outside::outside;
use crate::recorded::at_desk::AtDesk;
use crate::words;

const TOO_SHORT: u64 = 6;
/// A transaction number has so many bytes.
const NUMBER: usize = 8;
/// So many a place and its word.
const MEND: usize = 12;

#[derive(Clone, Debug, PartialEq, Eq)]
pub enum Asked {
    Open,
    Call(Call),
    List,
    Measure,
    /// The numbers of the checkpoints.
    Checkpoints,
    /// The same at the checkpoint of a number.
    At(u64, Box<Asked>),
    /// The wrong words of an object, whatever the image.
    WrongWords(Vec<u8>),
    /// A call by a desk.
    Desk(Box<AtDesk>),
}

#[derive(Clone, Debug, PartialEq, Eq)]
pub struct Question {
    pub volume: u64,
    pub asked: Asked,
    /// The buffer's length.
    pub room: usize,
}

#[derive(Clone, Debug, PartialEq, Eq)]
pub enum Told {
    Bytes(Vec<u8>),
    Refused(u64),
}

impl Asked {
    pub fn name(&self) -> &'static str {
        match self {
            Asked::Open => "open",
            Asked::Call(call) => call.name(),
            Asked::List => "list",
            Asked::Measure => "measure",
            Asked::Checkpoints => "checkpoints",
            Asked::WrongWords(_) => "wrong_words",
            Asked::Desk(_) => "desk",
            Asked::At(_, asked) => match asked.name() {
                "open" => "open_at",
                "lookup" => "lookup_at",
                "read" => "read_at",
                "list" => "list_at",
                "measure" => "measure_at",
                "mark" => "mark_at",
                "marked" => "marked_at",
                name => unreachable!("{name} is not recorded at a checkpoint"),
            },
        }
    }

    /// How many of what the result counts there are in so many bytes.
    pub fn count(&self, bytes: usize) -> usize {
        match self {
            Asked::Checkpoints => bytes / NUMBER,
            Asked::WrongWords(_) => bytes / MEND,
            Asked::Desk(d) if d.request.what == what::CHECKPOINTS => bytes / NUMBER,
            Asked::Desk(d) if d.request.what == what::WRONG_WORDS => bytes / MEND,
            _ => bytes,
        }
    }

    pub fn is_list(&self) -> bool {
        match self {
            Asked::List => true,
            Asked::Desk(d) => d.request.what == what::LIST,
            Asked::At(_, asked) => asked.is_list(),
            _ => false,
        }
    }
}

impl fmt::Display for Asked {
    fn fmt(&self, f: &mut fmt::Formatter) -> fmt::Result {
        match self {
            Asked::Call(call) => call.fmt(f),
            Asked::At(xid, asked) => write!(f, "{asked} at checkpoint {xid}"),
            Asked::Desk(d) => write!(f, "desk {} from {}: {}", d.desk, d.from, d.request),
            other => f.write_str(other.name()),
        }
    }
}

impl fmt::Display for Question {
    fn fmt(&self, f: &mut fmt::Formatter) -> fmt::Result {
        write!(f, "volume {}, {}", self.volume, self.asked)?;
        write!(f, ", into {} bytes", self.room)
    }
}

pub(super) fn within(bytes: Vec<u8>, room: usize) -> Told {
    if bytes.len() > room {
        Told::Refused(TOO_SHORT)
    } else {
        Told::Bytes(bytes)
    }
}

/// None where neither the oracle nor the papers tell.
pub fn told(image: &Image, q: &Question) -> Option<Told> {
    told_by(Rule::Kind, image, q)
}

pub fn told_by(rule: Rule, image: &Image, q: &Question) -> Option<Told> {
    match &q.asked {
        Asked::Open => open(image, q.room),
        Asked::Call(call) => match expected::told_by(rule, image, q.volume, call).answer {
            Answer::Bytes(bytes) => Some(within(bytes, q.room)),
            Answer::Refused(n) => Some(Told::Refused(n)),
            Answer::Any | Answer::Panic(_) => None,
        },
        Asked::List => list(rule, image, q.volume, q.room),
        Asked::Measure => measure(rule, image, q.volume, q.room),
        Asked::Checkpoints => numbers(image, q.room),
        Asked::WrongWords(object) => Some(within(words::bytes(&words::account::mends(object)), q.room)),
        Asked::At(xid, asked) => told_by(rule, &image_at(image, *xid, 1), &Question { asked: (**asked).clone(), ..*q }),
        Asked::Desk(d) => d.told(rule, image, q),
    }
}

/// Of the directories that the call reads.
pub fn account(rule: Rule, image: &Image, q: &Question) -> Account {
    match &q.asked {
        Asked::Open | Asked::Checkpoints | Asked::WrongWords(_) | Asked::Desk(_) => Account::None,
        Asked::Call(call) => expected::told_by(rule, image, q.volume, call).account,
        Asked::List | Asked::Measure => walk::told_by(rule, image, q.volume).account,
        Asked::At(xid, asked) => account(rule, &image_at(image, *xid, 1), &Question { asked: (**asked).clone(), ..*q }),
    }
}

fn open(image: &Image, room: usize) -> Option<Told> {
    if image.part.as_ref().is_ok_and(|part| outside(part).is_some()) {
        return None;
    }
    match answer::of_image(image) {
        answer::Answer::Text(text) => Some(within(text.into_bytes(), room)),
        answer::Answer::Refused(n) => Some(Told::Refused(n)),
        answer::Answer::Overflow | answer::Answer::Panic(_) => None,
    }
}

fn numbers(image: &Image, room: usize) -> Option<Told> {
    let numbers = match &image.part {
        Ok(part) if outside(part).is_some() => return None,
        Ok(part) => spoiled::numbers(part)?,
        Err(number) => Err(*number),
    };
    Some(match numbers {
        Ok(list) => within(list.iter().flat_map(|n| n.to_le_bytes()).collect(), room),
        Err(number) => Told::Refused(number),
    })
}

fn list(rule: Rule, image: &Image, volume: u64, room: usize) -> Option<Told> {
    let trace = walk::told_by(rule, image, volume);
    match (trace.refusal(room), trace.end) {
        (Some(n), _) => Some(Told::Refused(n)),
        (None, End::Whole) => Some(Told::Bytes(trace.text)),
        _ => None,
    }
}

fn measure(rule: Rule, image: &Image, volume: u64, room: usize) -> Option<Told> {
    match walk::told_by(rule, image, volume).measured {
        Measured::Got(m) => Some(within(m.to_string().into_bytes(), room)),
        Measured::Refused(n) => Some(Told::Refused(n)),
        Measured::Open(_) | Measured::Vast => None,
    }
}
