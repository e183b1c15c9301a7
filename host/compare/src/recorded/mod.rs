//! A file of calls on sticks with their answers, for replay without any Rust (`crates/cases`): document 01's cases, a
//! sample of calls on drawn sticks, and the cases of requests 02, 03, 04, 13, 08, 09, 10 and 06. An answer is the oracle's, or
//! the papers' where the oracle can't tell; never the port's.

pub mod asked;
pub mod at_desk;
pub mod drawn;
pub mod file;
pub mod read;
pub mod stated;

/// All of the file; an error says which case the oracle answers otherwise than the papers.
pub fn recorded(seed: u64) -> Result<Vec<u8>, String> {
    let mut file = file::File::default();
    stated::write(stated::groups(), &mut file)?;
    drawn::write(seed, &drawn::MIXED, &mut file);
    // At the end, so that the records before them stay as they were.
    stated::write(stated::of_names(), &mut file)?;
    stated::write(stated::of_keys(), &mut file)?;
    drawn::write(seed, &drawn::AT_EDGES, &mut file);
    stated::write(stated::of_checkpoints(), &mut file)?;
    stated::write(stated::of_words(), &mut file)?;
    stated::write(stated::of_totals(), &mut file)?;
    stated::write(stated::of_measures(), &mut file)?;
    stated::write(stated::of_marks(), &mut file)?;
    stated::write(stated::of_desks(), &mut file)?;
    Ok(file.finish())
}
