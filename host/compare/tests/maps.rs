//! The walk over all entries of a map agrees with the Rust's lookup, and with a lookup that is such a walk; each
//! mistake in that lookup, or in the account of which maps are well-formed, is found.

#![cfg(oracle)]

use compare::maps::run::Run;
use compare::maps::walk::{ascends, has_first_keys, said, well_formed, Entry, Fault, Map, Tree};
use compare::maps::{Key, Lookup, Place, Said, Sides, WellFormed, USUAL};
use compare::opening::answer::Answer;

const ENOUGH: u64 = 300;

#[derive(Clone, Copy, Debug, PartialEq, Eq)]
enum Mistake {
    None,
    FirstKept,
    GhostsSkipped,
    StrictlyBelow,
    XidIgnored,
    OidIgnored,
    FirstLeafAlone,
    AnotherOidTaken,
    DeletedTaken,
}

use Mistake as M;

const ALL: [Mistake; 8] = [
    M::FirstKept,
    M::GhostsSkipped,
    M::StrictlyBelow,
    M::XidIgnored,
    M::OidIgnored,
    M::FirstLeafAlone,
    M::AnotherOidTaken,
    M::DeletedTaken,
];

fn is_kept(entry: &Entry, target: Key, m: Mistake) -> bool {
    match m {
        M::StrictlyBelow => entry.key < target,
        M::XidIgnored => entry.key.0 <= target.0,
        M::OidIgnored => entry.key.1 <= target.1,
        M::GhostsSkipped => entry.key <= target && entry.value.is_some(),
        _ => entry.key <= target,
    }
}

fn first_leaf(tree: &Tree) -> &Tree {
    match tree {
        Tree::Index(branches) if !branches.is_empty() => first_leaf(&branches[0].1),
        _ => tree,
    }
}

/// What the entry would say if it were not deleted.
fn undeleted(entry: &Entry, oid: u64) -> Said {
    let mut other = entry.clone();
    other.value.iter_mut().for_each(|value| value[0] &= !1);
    Said { hit: said(Some(entry), oid).hit, mapping: said(Some(&other), oid).mapping }
}

fn answer(tree: &Tree, target: Key, m: Mistake) -> Said {
    let tree = if m == M::FirstLeafAlone { first_leaf(tree) } else { tree };
    let mut fit = tree.entries().into_iter().filter(|entry| is_kept(entry, target, m));
    let kept = if m == M::FirstKept { fit.next() } else { fit.next_back() };
    match (m, kept) {
        (M::AnotherOidTaken, Some(entry)) => said(kept, entry.key.0),
        (M::DeletedTaken, Some(entry)) => undeleted(entry, target.0),
        _ => said(kept, target.0),
    }
}

fn load(place: Place, m: Mistake) -> Result<Lookup, Answer> {
    let map = Map::read(place.image, place.block).map_err(|_| Answer::Refused(2))?;
    Ok(Box::new(move |target| answer(&map.tree, target, m)))
}

fn run(m: Mistake) -> Run {
    Run::over(5, ENOUGH, Sides { load: &|place| load(place, m), ..USUAL })
}

fn assert_nothing_is_found(run: Run) {
    assert_eq!(run.failure.map(|f| (f.stick, f.damage, f.whose, f.words)), None);
    assert_eq!(run.tally.missing(), Vec::<String>::new());
}

#[test]
fn no_mistake_none_found() {
    assert_nothing_is_found(Run::over(5, ENOUGH, USUAL));
    assert_nothing_is_found(run(M::None));
}

#[test]
fn every_mistake_of_a_lookup_is_found() {
    let missed: Vec<Mistake> = ALL.into_iter().filter(|&m| run(m).failure.is_none()).collect();
    assert_eq!(missed, []);
}

/// The order within each leaf, and none across them.
fn ascends_in_leaves(tree: &Tree) -> Result<(), Fault> {
    match tree {
        Tree::Leaf(_) => ascends(tree),
        Tree::Index(branches) => branches.iter().try_for_each(|(_, child)| ascends_in_leaves(child)),
    }
}

/// First keys of the root's children alone.
fn has_upper_first_keys(tree: &Tree) -> Result<(), Fault> {
    let Tree::Index(branches) = tree else { return Ok(()) };
    let all = branches.iter().all(|(key, child)| child.first_key() == Some(*key));
    all.then_some(()).ok_or(Fault::FirstKey)
}

/// Any first key will do for a child that has none.
fn has_first_keys_or_none(tree: &Tree) -> Result<(), Fault> {
    let Tree::Index(branches) = tree else { return Ok(()) };
    branches.iter().try_for_each(|(key, child)| match child.first_key() {
        Some(first) if first != *key => Err(Fault::FirstKey),
        _ => has_first_keys_or_none(child),
    })
}

const TOO_FREE: [(&str, WellFormed); 5] = [
    ("the order is not asked for", &has_first_keys),
    ("nor across leaves", &|tree| ascends_in_leaves(tree).and_then(|()| has_first_keys(tree))),
    ("first keys are not asked for", &ascends),
    ("nor below the root's children", &|tree| ascends(tree).and_then(|()| has_upper_first_keys(tree))),
    ("nor of children without entries", &|tree| ascends(tree).and_then(|()| has_first_keys_or_none(tree))),
];

fn run_with(well_formed: WellFormed) -> Run {
    Run::over(5, ENOUGH, Sides { well_formed, ..USUAL })
}

#[test]
fn too_free_an_account_is_found() {
    let missed = TOO_FREE.into_iter().filter(|(_, free)| run_with(*free).failure.is_none());
    assert_eq!(missed.map(|(name, _)| name).collect::<Vec<_>>(), Vec::<&str>::new());
}

#[test]
fn too_narrow_an_account_is_found() {
    let of_one_level = |tree: &Tree| match tree {
        Tree::Leaf(_) => well_formed(tree),
        Tree::Index(_) => Err(Fault::NotRead),
    };
    assert_eq!(run_with(&of_one_level).failure.map(|f| f.damage), Some(0));
}
