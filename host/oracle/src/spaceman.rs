//! Absent from the published sources. nx.rs names it in `Container::space_manager` alone, which
//! no reading call uses.

use crate::error::{unsupported, Result};

pub struct Spaceman;

impl Spaceman {
    pub fn parse(_object: &[u8]) -> Result<Self> {
        Err(unsupported("spaceman"))
    }
}
