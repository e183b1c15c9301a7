//! What the drawer of partition tables knows of an image is what document 02 says of it, and every kind is drawn.

use std::collections::BTreeMap;

use sticks::gpt::{around, draw, expected_part, kinds, Drawn, Kind};
use sticks::sums::{crc32, crc32c};
use sticks::{make, Plan};

const ENOUGH: u64 = 6000;

fn sample() -> Vec<u8> {
    make(Plan::sample()).image
}

#[test]
fn sums_are_those_of_the_papers() {
    assert_eq!((crc32(b"123456789"), crc32(b"")), (0xcbf4_3926, 0));
    assert_eq!(!crc32c(!0, b"123456789"), 0xe306_9283);
}

#[test]
fn both_accounts_agree_and_every_kind_is_drawn() {
    let container = sample();
    let mut seen: BTreeMap<Kind, u64> = kinds().into_iter().map(|k| (k, 0)).collect();
    for seed in 0..ENOUGH {
        let Drawn { image, part, kinds } = draw(&container, seed);
        assert_eq!(expected_part(&image), part, "table {seed}: {kinds:?}");
        for kind in kinds {
            *seen.get_mut(&kind).unwrap_or_else(|| panic!("not listed: {kind:?}")) += 1;
        }
    }
    let missing: Vec<_> = seen.iter().filter(|(_, n)| **n < 3).collect();
    assert!(missing.is_empty(), "hardly ever drawn: {missing:?}");
}

#[test]
fn the_seed_decides_all() {
    let container = sample();
    for seed in 0..20 {
        assert!(draw(&container, seed).image == draw(&container, seed).image);
        assert!(draw(&container, seed).image != draw(&container, seed + 1).image);
    }
}

#[test]
fn any_container_can_be_drawn_around() {
    for n in [0, 1, 35, 36, 511, 512, 513, 4096, 100_001] {
        for seed in 0..200 {
            let drawn = draw(&vec![0x5a; n], seed);
            assert_eq!(expected_part(&drawn.image), drawn.part, "{n} bytes, table {seed}: {:?}", drawn.kinds);
        }
    }
}

#[test]
fn a_usual_table_leads_to_the_container() {
    let container = sample();
    let mut image = around(&container);
    let part = Ok((40 * 512, container.len()));
    assert_eq!(expected_part(&image), part);
    image[512..1024].fill(0);
    assert_eq!(expected_part(&image), part);
    let backup = image.len() - 512;
    image[backup..].fill(0);
    assert_eq!(expected_part(&image), Err(11));
}

#[test]
fn an_image_is_its_own_part() {
    let container = sample();
    assert_eq!(expected_part(&container), Ok((0, container.len())));
    assert_eq!(expected_part(&container[..4096]), Ok((0, 4096)));
    assert_eq!(expected_part(&container[..4095]), Err(1));
    assert_eq!(expected_part(&[0; 4096]), Err(11));
    assert_eq!(expected_part(&[]), Err(1));
}
