//! Damage to a node of a map's tree. Its checksum is mended.

use sticks::block::{get16, get64, put, put16, put32, put64, seal};
use sticks::random::Random;

use crate::maps::node::{Disk, Node, CHILD, KEY};
use crate::maps::walk::Map;

/// Changes a copy of the node's bytes, or finds nothing in it to change.
type Spoil = fn(&Node, &mut [u8], &mut Random) -> Option<()>;

const KINDS: [Spoil; 8] =
    [swap_keys, swap_children, swap_entries, share_child, move_key, empty, change_head, change_table];

/// The image with a node of the map spoiled, if the kind of damage that is drawn finds one.
pub fn spoiled(image: &[u8], map: &Map, random: &mut Random) -> Option<Vec<u8>> {
    let disk = Disk::of(image)?;
    let spoil = random.pick(&KINDS);
    let mut nodes: Vec<u64> = map.nodes.iter().copied().collect();
    random.shuffle(&mut nodes);
    nodes.into_iter().find_map(|block| {
        let node = disk.node(block)?;
        let mut bytes = node.bytes.to_vec();
        spoil(&node, &mut bytes, random)?;
        seal(&mut bytes);
        let mut image = image.to_vec();
        image[disk.range(block)?].copy_from_slice(&bytes);
        Some(image)
    })
}

/// Two places among the node's entries, if it has so many.
fn two(node: &Node, random: &mut Random) -> Option<[usize; 2]> {
    let others = node.count.checked_sub(1).filter(|&n| n > 0)?;
    let one = random.place(node.count);
    Some([one, (one + 1 + random.place(others)) % node.count])
}

/// The same of an index node.
fn two_children(node: &Node, random: &mut Random) -> Option<[usize; 2]> {
    two(node, random).filter(|_| !node.is_leaf())
}

/// Where an entry's key starts.
fn key(node: &Node, i: usize) -> Option<usize> {
    node.spans(i).map(|spans| spans.key.start)
}

/// Where an index entry has its child's address.
fn child(node: &Node, i: usize) -> Option<usize> {
    node.spans(i)?.value.map(|value| value.start)
}

fn swap(b: &mut [u8], one: usize, other: usize, n: usize) {
    let kept = b[one..one + n].to_vec();
    b.copy_within(other..other + n, one);
    put(b, other, &kept);
}

fn swap_keys(node: &Node, b: &mut [u8], random: &mut Random) -> Option<()> {
    let [one, other] = two(node, random)?;
    swap(b, key(node, one)?, key(node, other)?, KEY);
    Some(())
}

fn swap_children(node: &Node, b: &mut [u8], random: &mut Random) -> Option<()> {
    let [one, other] = two_children(node, random)?;
    swap(b, child(node, one)?, child(node, other)?, CHILD);
    Some(())
}

/// Each child keeps its key.
fn swap_entries(node: &Node, b: &mut [u8], random: &mut Random) -> Option<()> {
    let [one, other] = two_children(node, random)?;
    swap(b, key(node, one)?, key(node, other)?, KEY);
    swap(b, child(node, one)?, child(node, other)?, CHILD);
    Some(())
}

fn share_child(node: &Node, b: &mut [u8], random: &mut Random) -> Option<()> {
    let [one, other] = two_children(node, random)?;
    let address = get64(b, child(node, one)?);
    put64(b, child(node, other)?, address);
    Some(())
}

/// A number in a key of an index node is one more or less.
fn move_key(node: &Node, b: &mut [u8], random: &mut Random) -> Option<()> {
    if node.is_leaf() || node.count == 0 {
        return None;
    }
    let at = key(node, random.place(node.count))? + random.pick(&[0, 8]);
    let step = random.pick(&[1, u64::MAX]);
    put64(b, at, get64(b, at).wrapping_add(step));
    Some(())
}

fn empty(node: &Node, b: &mut [u8], _: &mut Random) -> Option<()> {
    put32(b, 36, 0);
    (node.count > 0).then_some(())
}

/// Flags, level, or where the table of contents stands.
fn change_head(_: &Node, b: &mut [u8], random: &mut Random) -> Option<()> {
    let at = random.pick(&[32, 34, 40, 42]);
    change(b, at, random);
    Some(())
}

/// An offset or a length of some entry.
fn change_table(node: &Node, b: &mut [u8], random: &mut Random) -> Option<()> {
    if node.table.len() < 2 {
        return None;
    }
    change(b, node.table.start + 2 * random.place(node.table.len() / 2), random);
    Some(())
}

fn change(b: &mut [u8], at: usize, random: &mut Random) {
    let old = get16(b, at);
    let flipped = old ^ 1 << random.below(4);
    put16(b, at, random.pick(&[flipped, old.wrapping_add(1), old.wrapping_sub(1), 15, 33, 0xffff]));
}
