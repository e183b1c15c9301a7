//! The parts of the command line tool.

mod answer;
pub mod ask;
mod attribute;
pub mod cat;
pub mod checkpoints;
mod container;
mod date;
pub mod failure;
mod image;
pub mod list;
pub mod ls;
pub mod marks;
pub mod measure;
mod name;
mod node;
mod part;
pub mod sample;
mod shown;
mod size;
pub mod stat;
mod stick;
pub mod usage;
pub mod words;
pub mod xattr;
