//! Lengths of buffers, about the ends of the text, of its foot's two lines and of one of the others.

use sticks::random::Random;

use crate::list::totals;
use crate::list::trace::{End, Trace};

/// Of a listing that takes longer, fewer lengths are tried.
const HEAVY: u64 = 1 << 17;
const LONG: usize = 1 << 14;

pub fn lengths(t: &Trace, r: &mut Random) -> Vec<usize> {
    let n = t.text.len();
    let after = if n == 0 { 40 } else { line_end(&t.text, r) };
    let fits = [n, n + 1, n + 2 + r.place(5000)];
    let short = [n.saturating_sub(1), r.place(n + 1), after - 1, after, after + 1];
    let mut all = if t.weight > HEAVY || n > LONG {
        let one = if r.chance(1, 2) { r.pick(&short) } else { r.pick(&[0, 1]) };
        vec![one, if t.end == End::More { n - 1 } else { r.pick(&fits) }]
    } else {
        [&[0, 1], &fits[..], &short[..]].concat()
    };
    match t.end {
        End::More => all.retain(|&k| k < n),
        // None, the longest that is too short, the shortest that is not, and a longer one: as request 09 has them.
        End::Whole => all.extend(foot(&t.text, r).into_iter().chain([0, n - 1, n, fits[2]])),
        _ => {}
    }
    all.sort();
    all.dedup();
    all
}

/// Of a whole listing: up to the totals, into them, up to the last bracket, into it, and all.
fn foot(text: &[u8], r: &mut Random) -> Vec<usize> {
    let n = text.len();
    let Some(start) = totals::start(text) else { return Vec::new() };
    let bracket = n - 2;
    vec![start, start + 1, start + 1 + r.place(bracket - start - 1), bracket - 1, bracket, n - 1, n]
}

/// The place after some line of the text.
fn line_end(text: &[u8], r: &mut Random) -> usize {
    let from = r.place(text.len());
    text[from..].iter().position(|&b| b == b'\n').map_or(text.len(), |i| from + i + 1)
}
