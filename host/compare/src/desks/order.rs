//! Calls of all desks in one order and in another: "What one desk's count shows depends on that desk's calls and images
//! only".

use std::sync::Arc;

use sticks::random::Random;

use crate::desks::request::Request;
use crate::desks::tally::{Tally, ALONE, ORDERS};
use crate::desks::{add, Counts, Desk};

/// A call that was made, and the nodes that it goes through.
pub struct Made {
    pub image: Arc<Vec<u8>>,
    pub desk: u64,
    pub request: Request,
    pub room: usize,
    pub nodes: u64,
}

/// What the desks' counts come to, from 0.
fn counted<'m>(made: impl Iterator<Item = &'m Made>, desk: Desk) -> Counts {
    let mut counts = Counts::default();
    for m in made {
        desk(&mut counts, m.desk, &m.request, &m.image, &mut vec![0; m.room]);
    }
    counts
}

/// As they were made, in another order, and those of one desk without the others'.
pub fn check(made: &[Made], desk: Desk, random: &mut Random, tally: &mut Tally) -> Result<(), String> {
    let mut want = Counts::default();
    made.iter().for_each(|m| add(&mut want, m.desk, m.nodes));
    let mut shuffled: Vec<&Made> = made.iter().collect();
    random.shuffle(&mut shuffled);
    for (order, got) in [("one", counted(made.iter(), desk)), ("another", counted(shuffled.into_iter(), desk))] {
        if got != want {
            return Err(format!("{} calls in {order} order: {got:?}, not {want:?}", made.len()));
        }
    }
    tally.note(ORDERS);
    let one = random.below(want.len() as u64);
    let got = counted(made.iter().filter(|m| m.desk == one), desk);
    let mut alone = Counts::default();
    alone[one as usize] = want[one as usize];
    if got != alone {
        return Err(format!("desk {one} alone: {got:?}, not {alone:?}"));
    }
    tally.note(ALONE);
    Ok(())
}
