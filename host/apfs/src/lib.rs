//! The calls that the port exports, made safe. Each answers how many bytes it wrote to `out`, or
//! minus the refusal's number; `checkpoints` and `wrong_words` answer how many entries.
//!
//! Without a feature the crate is empty: `open` has opening, its checkpoints, the part that is opened and what is said of
//! an object, `calls` also the calls on a volume and on bookmarks, and all of them by the desks of a dock.

#[cfg(feature = "calls")]
pub mod calls;
#[cfg(feature = "calls")]
pub mod desks;
#[cfg(feature = "calls")]
pub mod marks;
#[cfg(feature = "open")]
mod object;
#[cfg(feature = "open")]
mod opening;
pub mod refusal;

#[cfg(feature = "open")]
pub use object::wrong_words;
#[cfg(feature = "open")]
pub use opening::{checkpoints, open, open_at, part};
