//! Two sticks at a time, the third demand by running: contents stored in two ways must list alike and
//! answer every call alike, and contents with one thing changed must list otherwise. A name that is damaged is told from
//! one in which U+FFFD was typed by its number alone, which is no part of what is compared.

pub mod by_oracle;
pub mod change;
pub mod layout;
pub mod mark;
pub mod pair;
pub mod planned;
pub mod questions;
pub mod run;
pub mod tally;

use crate::{calls, list};

/// The port or a stand-in.
#[derive(Clone, Copy)]
pub struct Ports<'p> {
    pub list: list::Port<'p>,
    pub call: calls::Port<'p>,
}
