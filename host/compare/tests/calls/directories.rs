//! The host's own account of directory keys: with the Rust's where the two must agree, and with the plans of sticks where
//! they need not.

use std::collections::BTreeMap;

use compare::calls::directory::{Account, Directories, Rule};
use compare::calls::keys::{by_length, is_common, name};
use compare::image::Image;
use compare::opening::answer::{caught, opened};
use oracle::error::Result;
use oracle::fs::DirEntry;
use oracle::probe;
use sticks::contents::{text, Contents, Entry, File, Key};
use sticks::{make, Plan};

const STICKS: u64 = 400;

/// Names with what else an entry tells, or the refusal's number.
type Told = std::result::Result<Vec<(String, u64, u64)>, u64>;

fn told(read: impl FnOnce() -> Result<Vec<DirEntry>>) -> Option<Told> {
    let list = caught(read).ok()?;
    let entry = |e: DirEntry| (e.name, e.file_id, e.date_added);
    Some(list.map(|l| l.into_iter().map(entry).collect()).map_err(|e| probe::class(&e)))
}

/// Calls `f` with each directory of the volumes that open: what the plan has, the Rust's reading and the host's.
fn each(plan: Plan, f: &mut dyn FnMut(&Contents, &File, &Directories, Told, Told)) {
    let stick = make(plan);
    let Some((_, c)) = opened(&Image::of(stick.image.clone())) else { return };
    for (i, planned) in stick.plan.volumes.iter().enumerate().filter(|(_, v)| v.lost.is_none() && !v.muddled) {
        let Ok(Ok(v)) = caught(|| c.volume(i)) else { continue };
        let dirs = Directories::of(&v, Rule::Kind);
        for file in &planned.contents.files {
            let id = file.inode.id;
            let both = (told(|| v.read_dir(id)), told(|| dirs.by_reference(id)));
            if let (Some(by_rust), Some(by_host)) = both {
                f(&planned.contents, file, &dirs, by_rust, by_host);
            }
        }
    }
}

/// Whether a key is right by the plan; none where it is made by hand.
fn is_right(c: &Contents, e: &Entry) -> Option<bool> {
    let fits = !c.has_hashed_keys() || e.key.length(&e.name) <= 12 + 1023;
    match e.key {
        Key::Raw => None,
        Key::Wrong => Some(false),
        key => Some(key == key.formed(c.has_hashed_keys()) && fits),
    }
}

/// Whether directory records stand beside the planned ones.
fn has_strays(c: &Contents) -> bool {
    c.others.iter().any(|r| r.value.is_some() && r.key[7] >> 4 == 9)
}

#[test]
fn the_rust_is_followed_where_it_reads_alike() {
    crate::silence_overflows();
    let mut seen: BTreeMap<(Account, bool), u64> = BTreeMap::new();
    for plan in (0..STICKS).flat_map(|seed| [Plan::mixed(seed), Plan::draw(seed), Plan::draw(seed).at_edges()]) {
        each(plan, &mut |_, file, dirs, by_rust, by_host| {
            let id = file.inode.id;
            let got = told(|| dirs.read(id)).expect("it was read before");
            let account = dirs.take_account();
            let want = if dirs.is_common(id) { (Account::Rust, &by_rust) } else { (Account::Reference, &by_host) };
            assert_eq!((account, &got), want, "directory {id}");
            assert!(account == Account::Reference || by_rust == by_host, "directory {id}");
            *seen.entry((account, by_rust == by_host)).or_default() += 1;
        });
    }
    assert!(seen[&(Account::Rust, true)] > 2000 && seen[&(Account::Reference, false)] > 200, "{seen:?}");
}

/// The two ways to differ: short plain keys, which the Rust refuses, and keys of the other form, which it takes.
#[test]
fn the_plan_says_what_is_read() {
    crate::silence_overflows();
    let (mut taken, mut refused) = (0, 0);
    for plan in (0..STICKS).flat_map(|seed| [Plan::mixed(seed), Plan::draw(seed).at_edges()]) {
        each(plan, &mut |c, file, _, by_rust, by_host| {
            let right: Option<Vec<bool>> = file.entries.iter().map(|e| is_right(c, e)).collect();
            let Some(right) = right.filter(|_| !has_strays(c)) else { return };
            let planned = file.entries.iter().map(|e| (text(&e.name), e.id, e.date)).collect();
            let want = if right.iter().all(|r| *r) { Ok(planned) } else { Err(2) };
            assert_eq!(by_host, want, "directory {}", file.inode.id);
            taken += u64::from(by_rust == Err(2) && by_host.is_ok());
            refused += u64::from(by_rust.is_ok() && by_host == Err(2));
        });
    }
    assert!(taken > 20 && refused > 200, "{taken} and {refused}");
}

#[test]
fn forms_are_those_of_the_reference() {
    let of = |rest: &[u8], hashed: bool| name(&[&[7; 8][..], rest].concat(), hashed).map(<[u8]>::to_vec);
    let (plain, hashed) = (|rest: &[u8]| of(rest, false), |rest: &[u8]| of(rest, true));
    assert_eq!(plain(b"\x02\0a\0"), Some(b"a\0".to_vec()));
    assert_eq!(plain(b"\x01\0a"), Some(b"a".to_vec()));
    assert_eq!(plain(b"\0\0"), Some(Vec::new()));
    assert_eq!([plain(b"\0"), plain(b""), plain(b"\x01\0"), plain(b"\x01\0ab")], [None, None, None, None]);
    assert_eq!(hashed(b"\x02\xfc\xff\xffa\0"), Some(b"a\0".to_vec()));
    assert_eq!(hashed(b"\0\0\0\0"), Some(Vec::new()));
    assert_eq!([hashed(b"\0\0\0"), hashed(b"\x01\0\0\0"), hashed(b"\0\0\0\0a")], [None, None, None]);
}

/// A key of any count and length is of one form at most, and then the Rust's order of trying says nothing.
#[test]
fn no_key_is_of_both_forms() {
    let lengths = (8..40).chain(1030..1050).chain(2050..2070);
    for n in lengths {
        for low in (0..40).chain(1000..1040).chain(2030..2060) {
            let mut key = vec![0; n];
            key.iter_mut().skip(8).zip(u16::to_le_bytes(low)).for_each(|(b, c)| *b = c);
            let forms = [name(&key, true), name(&key, false)];
            assert!(forms.iter().flatten().count() < 2, "{n} bytes, {low}");
            let by_kind = [true, false].map(|hashed| is_common(&key, hashed));
            assert_eq!(by_length(&key).is_some(), by_kind.contains(&true), "{n} bytes, {low}");
        }
    }
}
