//! A call by a desk, and what the dock's counts come to.

use sticks::gpt::expected_part;

use crate::calls::directory::Rule;
use crate::desks::account::Account;
use crate::desks::request::{self as what, Request};
use crate::desks::trial::read_part;
use crate::desks::{add, Counts};
use crate::image::Image;
use crate::opening::answer::Answer;
use crate::parts;
use crate::recorded::asked::{told_by, within, Asked, Question, Told};

const NO_SUCH_CALL: u64 = 4;

#[derive(Clone, Debug, PartialEq, Eq)]
pub struct AtDesk {
    pub desk: u64,
    /// Of the question's volume. An object stands in the image's place.
    pub request: Request,
    /// Each of the dock's counts before the call.
    pub from: u64,
    /// What they come to.
    pub after: Counts,
}

impl AtDesk {
    /// The call by itself; none where it is no call, or asks for a part.
    fn plain(&self, image: &Image, room: usize) -> Option<Asked> {
        let r = &self.request;
        let asked = match r.what {
            what::OPEN => Asked::Open,
            what::LIST => Asked::List,
            what::MEASURE => Asked::Measure,
            what::CHECKPOINTS => return Some(Asked::Checkpoints),
            what::WRONG_WORDS => return Some(Asked::WrongWords(image.whole.to_vec())),
            _ => Asked::Call(r.call(room)?),
        };
        Some(match r.checkpoint() {
            Some(xid) => Asked::At(xid, Box::new(asked)),
            None => asked,
        })
    }

    /// What the counts come to by the account; none where it does not tell.
    pub fn counts(&self, image: &Image, room: usize) -> Option<Counts> {
        let path = Account::of(read_part(image), Rule::Kind).path(&self.request, room as u64)?;
        let mut counts = [self.from; 8];
        add(&mut counts, self.desk, path.len() as u64);
        Some(counts)
    }

    pub fn told(&self, rule: Rule, image: &Image, q: &Question) -> Option<Told> {
        match self.plain(image, q.room) {
            Some(asked) => told_by(rule, image, &Question { asked, ..*q }),
            None if self.request.what == what::PART => match parts::run::told(&expected_part(&image.whole)) {
                Answer::Text(text) => Some(within(text.into_bytes(), q.room)),
                Answer::Refused(n) => Some(Told::Refused(n)),
                Answer::Overflow | Answer::Panic(_) => None,
            },
            None => Some(Told::Refused(NO_SUCH_CALL)),
        }
    }
}
