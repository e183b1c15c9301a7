//! Makes container images from a seed, whole or damaged.
//!
//! [`plan::Plan`] says what a stick holds, [`container::make`] writes its image, and
//! [`damage::damage`] spoils one; [`gpt::draw`] puts a partition table around it. All of it depends on the seed alone.

pub mod block;
pub mod checkpoint;
pub mod container;
pub mod contents;
pub mod damage;
mod disk;
pub mod gpt;
mod node;
mod omap;
pub mod plan;
pub mod random;
mod record;
pub mod sums;
mod superblock;
mod tree;
pub mod volume;

pub use container::{make, Stick};
pub use damage::{damage, damage_at, Aim};
pub use plan::Plan;
