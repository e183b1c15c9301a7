//! What the oracle answers.

use std::fmt;
use std::panic::{catch_unwind, AssertUnwindSafe};
use std::sync::Arc;

use oracle::dev::Shared;
use oracle::nx::Container;
use oracle::probe;

use crate::image::Image;
use crate::opening::outside::outside;

#[derive(Clone, Debug, PartialEq, Eq)]
pub enum Answer {
    Text(String),
    Refused(u64),
    /// A sum or product passed the end of its type, which lies outside the comparison.
    Overflow,
    /// Any other panic.
    Panic(String),
}

impl fmt::Display for Answer {
    fn fmt(&self, f: &mut fmt::Formatter) -> fmt::Result {
        match self {
            Answer::Text(t) => write!(f, "{}", t.trim_end()),
            Answer::Refused(n) => write!(f, "refused with {n}"),
            Answer::Overflow => write!(f, "an overflow"),
            Answer::Panic(m) => write!(f, "a panic: {m}"),
        }
    }
}

pub fn text(c: &Container) -> String {
    let mut t = format!("(container {} {} {}", c.block_size(), probe::block_count(c), c.xid());
    for oid in &c.sb.fs_oids {
        t += &format!(" {oid}");
    }
    t + ")\n"
}

pub fn container(image: &Arc<Vec<u8>>) -> oracle::error::Result<Container> {
    Container::open(Box::new(Shared(Arc::clone(image))))
}

/// The image's part and the container in it, where the oracle can be asked and opens it.
pub fn opened(image: &Image) -> Option<(Arc<Vec<u8>>, Container)> {
    let part = image.part.as_ref().ok().filter(|part| outside(part).is_none())?;
    let c = caught(|| container(part)).ok()?.ok()?;
    Some((Arc::clone(part), c))
}

/// What `f` answers, or what became of it.
pub fn caught<T>(f: impl FnOnce() -> T) -> Result<T, Answer> {
    catch_unwind(AssertUnwindSafe(f)).map_err(|payload| {
        let message = match (payload.downcast_ref::<&str>(), payload.downcast_ref::<String>()) {
            (Some(m), _) => m.to_string(),
            (_, Some(m)) => m.clone(),
            _ => "of no text".into(),
        };
        if message.starts_with("attempt to") && message.ends_with("with overflow") {
            Answer::Overflow
        } else {
            Answer::Panic(message)
        }
    })
}

/// Of a part, or of an image that is its own.
pub fn open(part: &Arc<Vec<u8>>) -> Answer {
    caught(|| match container(part) {
        Ok(c) => Answer::Text(text(&c)),
        Err(e) => Answer::Refused(probe::class(&e)),
    })
    .unwrap_or_else(|a| a)
}

/// Of an image whose part the oracle can be asked about.
pub fn of_image(image: &Image) -> Answer {
    match &image.part {
        Ok(part) => open(part),
        Err(number) => Answer::Refused(*number),
    }
}

/// The oracle's panics are caught and counted; their messages need not be printed.
pub fn silence_panics() {
    std::panic::set_hook(Box::new(|_| {}));
}
