//! The oracle in the port's place.

use crate::calls::call::Call;
use crate::calls::expected::{self, Answer};
use crate::image::Image;
use crate::list::measure::Measured;
use crate::list::walk;

fn refused(out: &mut [u8], number: u64, wiped: bool) -> i64 {
    if wiped {
        out.fill(0);
    }
    -(number as i64)
}

fn fill(out: &mut [u8], bytes: &[u8]) -> i64 {
    out[..bytes.len()].copy_from_slice(bytes);
    bytes.len() as i64
}

pub fn list(image: &[u8], volume: u64, out: &mut [u8]) -> i64 {
    let trace = walk::of_image(&Image::of(image.to_vec()), volume);
    match trace.refusal(out.len()) {
        Some(number) => refused(out, number, true),
        None => fill(out, &trace.text),
    }
}

pub fn call(image: &[u8], volume: u64, call: &Call, out: &mut [u8]) -> i64 {
    match expected::of_image(&Image::of(image.to_vec()), volume, call).answer {
        Answer::Bytes(b) if b.len() > out.len() => refused(out, 6, false),
        Answer::Bytes(b) => fill(out, &b),
        Answer::Refused(number) => refused(out, number, false),
        other => panic!("{call}: {other:?}"),
    }
}

pub fn measure(image: &[u8], volume: u64, out: &mut [u8]) -> i64 {
    measure_of(&Image::of(image.to_vec()), volume, out)
}

/// Of an image whose part is known.
pub fn measure_of(image: &Image, volume: u64, out: &mut [u8]) -> i64 {
    match walk::of_image(image, volume).measured {
        Measured::Got(m) => match m.to_string() {
            line if line.len() > out.len() => refused(out, 6, false),
            line => fill(out, line.as_bytes()),
        },
        Measured::Refused(number) => refused(out, number, false),
        Measured::Open(_) | Measured::Vast => refused(out, 8, false),
    }
}
