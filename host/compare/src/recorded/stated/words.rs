//! Request 13: every single word that may be the wrong one.

use sticks::block::{get32, put32, put64, seal};
use sticks::random::Random;

use super::Said::{Bytes, Refused};
use super::{group, Group, Said, Stated};
use crate::words::{bytes, Mend};

/// An object over its modulus.
const MODULUS: u64 = 0xffff_ffff;

pub fn groups() -> Vec<Group> {
    vec![none(), one(), many(), buffers()]
}

fn listed(list: &[Mend]) -> Said {
    Bytes(bytes(list))
}

/// Sound, with this word at 8.
fn sealed(n: usize, word: u32) -> Vec<u8> {
    let mut object = vec![0; n];
    put32(&mut object, 8, word);
    seal(&mut object);
    object
}

fn with(mut object: Vec<u8>, place: usize, word: u32) -> Vec<u8> {
    put32(&mut object, place, word);
    object
}

/// The image does not count.
fn asked(cases: Vec<(Vec<u8>, Said)>) -> Vec<(Vec<u8>, Vec<Stated>)> {
    vec![(Vec::new(), cases.into_iter().map(|(object, said)| Stated::wrong_words(object, said)).collect())]
}

fn none() -> Group {
    let halves = |low: u32, high: u32| {
        let mut object = sealed(32, 1);
        put64(&mut object, 0, u64::from(high) << 32 | u64::from(low));
        with(object, 8, 0)
    };
    let sound = sealed(32, 1);
    let half = get32(&sound, 4);
    let mut cases: Vec<_> = [0, 1, 8, 28, 31, 33, 34, 35].map(|n| (vec![7; n], listed(&[]))).into();
    cases.extend([
        (sound.clone(), listed(&[])),
        (with(sealed(4096, 0), 100, u32::MAX), listed(&[])),
        (halves(0, half), listed(&[])),
        (halves(get32(&sound, 0), 0), listed(&[])),
        (with(with(sealed(64, 5), 12, 9), 40, 3), listed(&[])),
    ]);
    group("objects without a wrong word: sound, of no length, a half of 0, two words", asked(cases))
}

fn one() -> Group {
    let drawn = |n: usize, place: usize| {
        let mut object = Random::new(n as u64).bytes(n);
        seal(&mut object);
        let word = get32(&object, place);
        // No factor of the modulus: one place alone passes.
        let other = ((u64::from(word) + 2) % MODULUS) as u32;
        (with(object, place, other), listed(&[(place as u64, word)]))
    };
    let cases = vec![
        (with(sealed(32, 1), 8, 0), listed(&[(8, 1)])),
        (with(sealed(32, 1), 8, u32::MAX), listed(&[(8, 1)])),
        (with(sealed(32, 0), 8, 1), listed(&[(8, 0), (8, u32::MAX)])),
        (with(sealed(32, u32::MAX), 8, 1), listed(&[(8, 0), (8, u32::MAX)])),
        drawn(32, 8),
        drawn(32, 28),
        drawn(4096, 8),
        drawn(4096, 4092),
        drawn(8192, 4096),
    ];
    group("one word changed", asked(cases))
}

/// A word that is off by a third, or a fifth, of the modulus: every third, or fifth, place passes.
fn many() -> Group {
    let off = |n: usize, factor: u64| {
        let third = (MODULUS / factor) as u32;
        let list: Vec<Mend> = (8..n as u64)
            .step_by(4 * factor as usize)
            .flat_map(
                |place| if place == 8 { vec![(8, 0), (8, u32::MAX)] } else { vec![(place, MODULUS as u32 - third)] },
            )
            .collect();
        (with(sealed(n, 0), 8, third), listed(&list))
    };
    let cases = vec![off(32, 3), off(128, 3), off(128, 5), off(1024, 17), off(4096, 257), off(600, 3)];
    group("a word off by a part of the modulus", asked(cases))
}

fn buffers() -> Group {
    let object = with(sealed(32, 0), 8, 1);
    let list = || listed(&[(8, 0), (8, u32::MAX)]);
    let into = |room: usize, said: Said| Stated::wrong_words(object.clone(), said).into_room(room);
    let empty = Stated::wrong_words(sealed(32, 1), listed(&[])).into_room(0);
    let cases = vec![
        into(0, Refused(6)),
        into(12, Refused(6)),
        into(23, Refused(6)),
        into(24, list()),
        into(25, list()),
        empty,
    ];
    group("a list of wrong words into buffers", vec![(Vec::new(), cases)])
}
