//! How many nodes the calls of a command went through.

use sticks::plan::large;

use crate::image::{out, Image};

/// The container's map, the volume's and its tree have a node each.
fn smallest(name: &str) -> Image {
    Image::holding(name, large::chain(0, 0))
}

#[test]
fn nodes_are_told_on_standard_error() {
    let image = smallest("nodes");
    let text = out(image.run(&["list"], &[]));
    let o = image.run(&["list", "--nodes"], &[]);
    assert_eq!((o.status.code(), o.stdout), (Some(0), text.into_bytes()));
    // The container, the volume, its listing measured, and made.
    let nodes = 1 + 5 + (5 + 4) + (5 + 4);
    assert_eq!(String::from_utf8(o.stderr).expect("text"), format!("{nodes} nodes\n"));
}

#[test]
fn a_refused_call_counts_too() {
    let told = smallest("refused-nodes").told(&["ls", "--nodes"], &["nowhere"]);
    // The container, the volume, and a lookup up to the root's entries.
    let nodes = 1 + 5 + (5 + 2);
    assert!(told.starts_with(&format!("{nodes} nodes\napfs: FILE: nowhere: ")), "{told}");
}

#[test]
fn commands_without_nodes_take_no_such_option() {
    let image = smallest("no-nodes");
    assert_eq!(image.usage(&["checkpoints", "--nodes"], &[]), "usage: apfs checkpoints IMAGE\n");
    assert_eq!(image.usage(&["words", "--nodes"], &["0"]), "usage: apfs words IMAGE BLOCK [--block-size N]\n");
}
