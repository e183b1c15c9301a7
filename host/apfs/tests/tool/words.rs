//! Places where one other word would mend a block.

use sticks::block::{get32, put32};
use sticks::gpt::around;
use sticks::{make, Plan};

use crate::image::{out, Image};

const BLOCK: usize = 4096;
const NONE: &str = "none: the block's checksum is right, or no one word makes it so\n";

/// The sample with the word at a place of block 1 changed, and what stood there.
fn spoiled(place: usize) -> (Vec<u8>, u32) {
    let mut image = make(Plan::sample()).image;
    let block = &mut image[BLOCK..2 * BLOCK];
    let word = get32(block, place);
    put32(block, place, word.wrapping_add(2));
    (image, word)
}

/// What is told of it. The sum can't tell 0 from 0xffffffff, and both are words.
fn told(place: usize, word: u32) -> String {
    let words = if word == 0 { vec![0, u32::MAX] } else { vec![word] };
    words.iter().map(|word| format!("{place} {word:#010x}\n")).collect()
}

#[test]
fn a_changed_word_is_told() {
    let (image, word) = spoiled(96);
    let line = told(96, word);
    let stick = Image::of("words", &image);
    assert_eq!(out(stick.run(&["words"], &["1"])), line);
    assert_eq!(out(stick.run(&["words"], &["2"])), NONE);
    // Blocks are counted from the container's start.
    let tabled = Image::of("words-in-a-table", &around(&image));
    assert_eq!(out(tabled.run(&["words"], &["1"])), line);
}

#[test]
fn a_word_that_is_not_0_has_one_line() {
    let (image, word) = spoiled(24);
    assert!(word != 0 && told(24, word).lines().count() == 1);
    assert_eq!(out(Image::of("words-one", &image).run(&["words"], &["1"])), told(24, word));
}

#[test]
fn a_stick_that_does_not_open_is_read() {
    let (mut image, word) = spoiled(2000);
    image[..BLOCK].fill(0);
    let stick = Image::of("words-dead", &image);
    assert_eq!(out(stick.run(&["words"], &["1"])), told(2000, word));
    assert_eq!(out(stick.run(&["words"], &["0"])), NONE);
    let whole = Image::of("words-32", &[0; 32]);
    assert_eq!(out(whole.run(&["--block-size", "32", "words"], &["0"])), NONE);
}

#[test]
fn blocks_that_are_not_there_are_told() {
    let stick = Image::planned("words-past", Plan::sample());
    let told = "apfs: FILE: block 15: there is no such block of 4096 bytes; give a lower number\n";
    assert_eq!(stick.told(&["words"], &["15"]), told);
    let largest = u64::MAX.to_string();
    assert!(stick.told(&["words"], &[&largest]).contains(&largest));
    assert!(stick.told(&["words", "--block-size", &largest], &["1"]).contains(&largest));
}

#[test]
fn what_words_does_not_take_is_told() {
    let stick = Image::planned("words-usage", Plan::sample());
    let usage = "usage: apfs words IMAGE BLOCK [--block-size N]\n";
    for (words, rest) in [(&["words"][..], &[][..]), (&["words"], &["x"]), (&["words", "--volume", "0"], &["1"])] {
        assert_eq!(stick.usage(words, rest), usage);
    }
    assert_eq!(
        stick.usage(&["--block-size", "4096", "ls"], &[]),
        "usage: apfs ls IMAGE [PATH] [--volume N] [--checkpoint N] [--nodes]\n"
    );
}
