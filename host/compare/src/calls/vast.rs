//! Images about 2^34 bytes long, all zeros: one byte more is refused before anything is read.

use std::alloc::{alloc_zeroed, dealloc, Layout};

use crate::calls::check::Subject;
use crate::calls::draw;
use crate::calls::expected::{Answer, Expected, Kind};
use crate::calls::Port;
use crate::marks;
use sticks::random::Random;

const LARGEST: usize = 1 << 34;
const NO_PARTITION_TABLE: u64 = 11;
const TOO_LARGE: u64 = 7;

/// How many calls on an image are refused with the number, as they must be.
pub type Agreed<'f> = &'f dyn Fn(&[u8], u64) -> Result<u64, String>;

/// How many calls agreed; none where so much memory, though hardly touched, is not to be had.
pub fn check(port: Port) -> Result<Option<u64>, String> {
    over(&|image, number| on(port, image, number))
}

/// Of an image at the bound and one over it, each with the refusal's number, how many calls agreed.
pub fn over(on: Agreed) -> Result<Option<u64>, String> {
    let layout = Layout::array::<u8>(LARGEST + 1).expect("a layout");
    // Zeroed memory of this size is given out page by page, when first touched.
    let memory = unsafe { alloc_zeroed(layout) };
    if memory.is_null() {
        return Ok(None);
    }
    let all = unsafe { std::slice::from_raw_parts(memory, LARGEST + 1) };
    let agreed = on(&all[..LARGEST], NO_PARTITION_TABLE).and_then(|n| Ok(n + on(all, TOO_LARGE)?));
    unsafe { dealloc(memory, layout) };
    agreed.map(Some)
}

fn on(port: Port, image: &[u8], number: u64) -> Result<u64, String> {
    let mut random = Random::new(number);
    let want = Expected::new(Answer::Refused(number), Kind::Added(number));
    let calls = [draw::each(&mut random), draw::each_name(&mut random), marks::draw::each(&mut random)].concat();
    for call in &calls {
        let checked = Subject { port, image, volume: 0, call }.check(&want, &mut random);
        checked.map_err(|e| format!("an image of {} bytes, {call}: {e}", image.len()))?;
    }
    Ok(calls.len() as u64)
}
