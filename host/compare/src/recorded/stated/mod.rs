//! Document 01's cases and those of partition tables, patched names, directory keys, checkpoints, wrong words, a
//! listing's totals and its measure, bookmarks and desks, each with what the papers say of it, and small sticks that show
//! them.

mod checkpoints;
mod desks;
mod keys;
mod listed;
mod listing;
mod marked;
mod marks;
mod measure;
mod names;
mod nodes;
mod opening;
mod paths;
mod reads;
mod records;
pub mod stick;
mod tables;
mod totals;
mod trees;
mod volumes;
mod words;

use crate::calls::call::Call;
use crate::desks::add;
use crate::desks::request::Request;
use crate::image::Image;
use crate::recorded::asked::{told, Asked, Question, Told};
use crate::recorded::at_desk::AtDesk;
use crate::recorded::file::File;

/// What document 01 says.
pub enum Said {
    Refused(u64),
    /// This text, of a call that writes one.
    Text(String),
    /// These bytes, of a read.
    Bytes(Vec<u8>),
    /// Some answer: what it is the oracle says.
    Answered,
}

pub struct Stated {
    pub question: Question,
    pub said: Said,
}

/// Cases under one title, each with its image.
pub struct Group {
    pub title: &'static str,
    pub cases: Vec<(Vec<u8>, Vec<Stated>)>,
}

/// Long enough for any answer here but a listing's of a deep volume.
pub const ROOM: usize = 4096;

impl Stated {
    fn new(asked: Asked, room: usize, said: Said) -> Stated {
        Stated { question: Question { volume: 0, asked, room }, said }
    }

    pub fn open(said: Said) -> Stated {
        Stated::new(Asked::Open, ROOM, said)
    }

    pub fn list(room: usize, said: Said) -> Stated {
        Stated::new(Asked::List, room, said)
    }

    pub fn measure(said: Said) -> Stated {
        Stated::new(Asked::Measure, ROOM, said)
    }

    pub fn lookup(path: impl Into<Vec<u8>>, said: Said) -> Stated {
        Stated::call(Call::Lookup { path: path.into() }, said)
    }

    pub fn call(call: Call, said: Said) -> Stated {
        let room = call.room().unwrap_or(ROOM);
        Stated::new(Asked::Call(call), room, said)
    }

    pub fn checkpoints(said: Said) -> Stated {
        Stated::new(Asked::Checkpoints, ROOM, said)
    }

    pub fn wrong_words(object: Vec<u8>, said: Said) -> Stated {
        Stated::new(Asked::WrongWords(object), ROOM, said)
    }

    /// From a dock whose counts are all `from`; the call goes through so many nodes.
    pub fn desk(desk: u64, request: Request, from: u64, nodes: u64, said: Said) -> Stated {
        let (volume, mut after) = (request.volume, [from; 8]);
        add(&mut after, desk, nodes);
        let stated = Stated::new(Asked::Desk(Box::new(AtDesk { desk, request, from, after })), ROOM, said);
        stated.of_volume(volume)
    }

    pub fn refused(self, number: u64) -> Stated {
        Stated { said: Said::Refused(number), ..self }
    }

    /// The same at the checkpoint of a number.
    pub fn at(mut self, xid: u64) -> Stated {
        self.question.asked = Asked::At(xid, Box::new(self.question.asked));
        self
    }

    pub fn of_volume(mut self, volume: u64) -> Stated {
        self.question.volume = volume;
        self
    }

    pub fn into_room(mut self, room: usize) -> Stated {
        self.question.room = room;
        self
    }

    /// By the account, a desk's counts must come to what is stated.
    fn counted(&self, image: &Image) -> Result<(), String> {
        let Asked::Desk(d) = &self.question.asked else { return Ok(()) };
        match d.counts(image, self.question.room) {
            Some(counts) if counts == d.after => Ok(()),
            other => Err(format!("{}: {:?} are stated, {other:?} counted", self.question, d.after)),
        }
    }

    /// The answer to record. The oracle must say what the paper says, where it says anything.
    fn answer(self, image: &Image) -> Result<(Question, Told), String> {
        self.counted(image)?;
        let by_oracle = told(image, &self.question);
        let said = match (self.said, &by_oracle) {
            (Said::Refused(n), _) => Told::Refused(n),
            (Said::Text(text), _) => Told::Bytes(text.into_bytes()),
            (Said::Bytes(bytes), _) => Told::Bytes(bytes),
            (Said::Answered, Some(Told::Bytes(bytes))) => Told::Bytes(bytes.clone()),
            (Said::Answered, other) => return Err(format!("{}: {other:?} is no answer", self.question)),
        };
        match by_oracle {
            Some(other) if other != said => Err(format!("{}: {said:?} is stated, {other:?} given", self.question)),
            _ => Ok((self.question, said)),
        }
    }
}

pub fn groups() -> Vec<Group> {
    [
        opening::groups(),
        tables::groups(),
        volumes::groups(),
        trees::groups(),
        records::groups(),
        paths::groups(),
        reads::groups(),
        listing::groups(),
    ]
    .into_iter()
    .flatten()
    .collect()
}

/// Those of request 02.
pub fn of_names() -> Vec<Group> {
    names::groups()
}

/// Those of request 03.
pub fn of_keys() -> Vec<Group> {
    keys::groups()
}

/// Those of request 04.
pub fn of_checkpoints() -> Vec<Group> {
    checkpoints::groups()
}

/// Those of request 13.
pub fn of_words() -> Vec<Group> {
    words::groups()
}

/// Those of request 08.
pub fn of_totals() -> Vec<Group> {
    totals::groups()
}

/// Those of request 09.
pub fn of_measures() -> Vec<Group> {
    measure::groups()
}

/// Those of request 10.
pub fn of_marks() -> Vec<Group> {
    [marks::groups(), marked::groups()].into_iter().flatten().collect()
}

/// Those of request 06.
pub fn of_desks() -> Vec<Group> {
    [nodes::groups(), listed::groups(), desks::groups()].into_iter().flatten().collect()
}

/// An error tells each case that the oracle answers otherwise.
pub fn write(groups: Vec<Group>, file: &mut File) -> Result<(), String> {
    let mut wrong = Vec::new();
    for group in groups {
        file.title(group.title);
        for (image, cases) in group.cases {
            file.image(&image);
            let image = Image::of(image);
            for case in cases {
                match case.answer(&image) {
                    Ok((question, told)) => file.call(&question, &told),
                    Err(e) => wrong.push(format!("{}: {e}", group.title)),
                }
            }
        }
    }
    if wrong.is_empty() {
        Ok(())
    } else {
        Err(wrong.join("\n"))
    }
}

fn group(title: &'static str, cases: Vec<(Vec<u8>, Vec<Stated>)>) -> Group {
    Group { title, cases }
}
