//! The account of wrong words agrees with the Rust, and each mistake that a port might make in the list is found.

#![cfg(oracle)]

use compare::words::account::mends;
use compare::words::run::Run;
use compare::words::{bytes, Mend};
use oracle::checksum::verify;
use sticks::block::{get32, put32, put64, seal};

const ENOUGH: u64 = 1000;

#[derive(Clone, Copy, Debug, PartialEq, Eq)]
enum Mistake {
    None,
    CountOfBytes,
    ShortFirst,
    ShortByOne,
    HalfWritten,
    OnePast,
    PlaceInWords,
    PlaceFrom8,
    BigEndian,
    WordFirst,
    Descending,
    FirstAlone,
    OnePerPlace,
    HigherFirst,
    NotTheStored,
    LastWordLeftOut,
    LengthFree,
    ShortTaken,
    PresentWordListed,
}

use Mistake as M;

const ALL: [Mistake; 18] = [
    M::CountOfBytes,
    M::ShortFirst,
    M::ShortByOne,
    M::HalfWritten,
    M::OnePast,
    M::PlaceInWords,
    M::PlaceFrom8,
    M::BigEndian,
    M::WordFirst,
    M::Descending,
    M::FirstAlone,
    M::OnePerPlace,
    M::HigherFirst,
    M::NotTheStored,
    M::LastWordLeftOut,
    M::LengthFree,
    M::ShortTaken,
    M::PresentWordListed,
];

fn listed(object: &[u8], m: Mistake) -> Vec<Mend> {
    let mut list = match m {
        M::LengthFree if object.len() > 35 && object.len() % 4 != 0 => mends(&object[..object.len() / 4 * 4]),
        _ => mends(object),
    };
    match m {
        M::PlaceInWords => list.iter_mut().for_each(|e| e.0 /= 4),
        M::PlaceFrom8 => list.iter_mut().for_each(|e| e.0 -= 8),
        M::Descending => list.reverse(),
        M::FirstAlone => list.truncate(1),
        M::OnePerPlace => list.dedup_by_key(|e| e.0),
        M::HigherFirst => list.sort_by_key(|e| (e.0, u32::MAX - e.1)),
        M::NotTheStored if object.len() >= 8 && get32(object, 0) > get32(object, 4) => list.clear(),
        M::LastWordLeftOut => list.retain(|e| e.0 as usize + 4 < object.len()),
        M::ShortTaken if (12..32).contains(&object.len()) => list.push((8, 0)),
        M::PresentWordListed if verify(object) => list.push((8, get32(object, 8))),
        _ => {}
    }
    list
}

fn apfs_wrong_words(object: &[u8], out: &mut [u8], m: Mistake) -> i64 {
    let list = listed(object, m);
    let text = match m {
        M::BigEndian => list.iter().flat_map(|e| [&e.0.to_be_bytes()[..], &e.1.to_be_bytes()].concat()).collect(),
        M::WordFirst => list.iter().flat_map(|e| [&e.1.to_le_bytes()[..], &e.0.to_le_bytes()].concat()).collect(),
        _ => bytes(&list),
    };
    if m == M::ShortFirst && out.is_empty() {
        return -6;
    }
    if text.len() + usize::from(m == M::ShortByOne) > out.len() {
        if m == M::HalfWritten {
            out.iter_mut().zip(&text).for_each(|(to, from)| *to = *from);
        }
        return -6;
    }
    out[..text.len()].copy_from_slice(&text);
    if m == M::OnePast && out.len() > text.len() {
        out[text.len()] = 0;
    }
    if m == M::CountOfBytes {
        text.len() as i64
    } else {
        list.len() as i64
    }
}

fn run(m: Mistake) -> Run {
    Run::over(3, ENOUGH, Some(&move |object: &[u8], out: &mut [u8]| apfs_wrong_words(object, out, m)))
}

#[test]
fn no_mistake_none_found() {
    let run = run(M::None);
    assert_eq!(run.failure.map(|f| (f.place, f.kind, f.words)), None);
    assert_eq!(run.tally.missing(), Vec::<String>::new());
}

#[test]
fn every_mistake_is_found() {
    let missed: Vec<Mistake> = ALL.into_iter().filter(|&m| run(m).failure.is_none()).collect();
    assert_eq!(missed, []);
}

/// The marked lines' objects: zeros, with the checksum of a 1 at byte 8.
#[test]
fn the_example_has_one_word() {
    let mut object = vec![0; 32];
    put32(&mut object, 8, 1);
    seal(&mut object);
    put32(&mut object, 8, 0);
    assert_eq!(mends(&object), [(8, 1)]);
    put64(&mut object, 0, 0);
    assert_eq!(mends(&object), []);
}

/// Those at one of six places, by the two sums alone: every word is tried.
fn tried(object: &[u8], j: usize) -> Vec<Mend> {
    const M: u64 = 0xffff_ffff;
    let word = |i: usize| u64::from(get32(object, 8 + 4 * i));
    let others = || (0..6).filter(|&i| i != j);
    let (s1, s2) = (others().map(word).sum::<u64>(), others().map(|i| (6 - i as u64) * word(i)).sum::<u64>());
    let (c1, c2) = (u64::from(get32(object, 0)), u64::from(get32(object, 4)));
    let sound = |w: &u32| {
        let (a, b) = (s1 + u64::from(*w), s2 + (6 - j as u64) * u64::from(*w));
        c2 == M - (a + c1) % M && c1 == M - (a + b) % M
    };
    (0..=u32::MAX).filter(sound).map(|w| (8 + 4 * j as u64, w)).collect()
}

#[test]
#[ignore = "tries 2^32 words at six places, for a minute or so"]
fn every_word_of_an_object_is_tried() {
    let mut object = vec![0; 32];
    put32(&mut object, 20, 77);
    seal(&mut object);
    put32(&mut object, 8, u32::MAX / 3);
    let list = mends(&object);
    assert_eq!(list.len(), 3);
    assert_eq!((0..6).flat_map(|j| tried(&object, j)).collect::<Vec<_>>(), list);
    #[cfg(feature = "apfs")]
    {
        let mut out = vec![0; bytes(&list).len()];
        assert_eq!(compare::port::wrong_words(&object, &mut out), list.len() as i64);
        assert_eq!(out, bytes(&list));
    }
}
