//! Object maps, request 14 by running: on sticks drawn from a seed, whole and damaged, each map is walked leaf after
//! leaf. Where it is well-formed, the Rust's lookup must give what the walk over all entries keeps.

pub mod by_oracle;
pub mod damage;
pub mod node;
pub mod run;
pub mod tally;
pub mod targets;
pub mod walk;

use std::fmt;

use oracle::nx::Container;

use crate::opening::answer::Answer;
use walk::{Fault, Tree};

/// The numbers of an object and of a transaction, which a key begins with.
pub type Key = (u64, u64);

/// The bytes of an entry's key, and of its value if it has one.
pub type Hit = (Vec<u8>, Option<Vec<u8>>);

/// What a map says of an object.
#[derive(Clone, Copy, Debug, PartialEq, Eq)]
pub struct Mapping {
    pub flags: u32,
    pub size: u32,
    pub block: u64,
}

/// What is said of a target.
#[derive(Clone, Debug, PartialEq, Eq)]
pub struct Said {
    /// The last entry that is not above it.
    pub hit: Result<Option<Hit>, Answer>,
    /// Its object's mapping.
    pub mapping: Result<Option<Mapping>, Answer>,
}

impl fmt::Display for Said {
    fn fmt(&self, f: &mut fmt::Formatter) -> fmt::Result {
        match &self.hit {
            Ok(None) => write!(f, "no entry"),
            Ok(Some((key, None))) => write!(f, "key {key:02x?} without a value"),
            Ok(Some((key, Some(value)))) => write!(f, "key {key:02x?}, value {value:02x?}"),
            Err(a) => write!(f, "{a}"),
        }?;
        match &self.mapping {
            Ok(None) => write!(f, "; no mapping"),
            Ok(Some(m)) => write!(f, "; {m:?}"),
            Err(a) => write!(f, "; {a}"),
        }
    }
}

/// Where a map stands.
#[derive(Clone, Copy)]
pub struct Place<'a> {
    pub image: &'a [u8],
    pub container: &'a Container,
    pub block: u64,
}

/// Lookups in one map.
pub type Lookup<'a> = Box<dyn Fn(Key) -> Said + 'a>;
/// Loads a map.
pub type Load<'p> = &'p dyn for<'a> Fn(Place<'a>) -> Result<Lookup<'a>, Answer>;
/// Tells whether a tree that was read whole is well-formed.
pub type WellFormed<'p> = &'p dyn Fn(&Tree) -> Result<(), Fault>;

/// What a run is made of: these, or stand-ins.
#[derive(Clone, Copy)]
pub struct Sides<'p> {
    pub well_formed: WellFormed<'p>,
    pub load: Load<'p>,
}

/// The request's words and the Rust's lookups.
pub const USUAL: Sides = Sides { well_formed: &walk::well_formed, load: &by_oracle::load };
