//! Widths and heights of trees.

use crate::random::Random;
use crate::tree::{Shape, Sizes};

fn draw(sizes: Sizes, r: &mut Random) -> Shape {
    let wide = r.chance(1, 5);
    Shape {
        leaf: if wide { 60 } else { r.pick(&[1, 2, 3, 4, 8, 12]) },
        index: if wide { 40 } else { r.pick(&[2, 3, 4, 6]) },
        extra: if r.chance(1, 30) { r.between(5, 32) as u16 } else { r.pick(&[0, 0, 0, 0, 1, 2]) },
        floor: if r.chance(1, 6) { r.between(1, 4) as u16 } else { 0 },
        high_leaves: r.chance(1, 3),
        hollow: false,
        sizes,
        loose: r.chance(1, 2),
        typed: false,
        random: r.fork(),
    }
}

/// Of an object map.
pub fn map(r: &mut Random) -> Shape {
    let sizes = r.pick(&[Sizes::Fixed, Sizes::Fixed, Sizes::Fixed, Sizes::Mixed, Sizes::Variable]);
    draw(sizes, r)
}

/// Of a file-system tree.
pub fn files(r: &mut Random) -> Shape {
    let sizes = r.pick(&[Sizes::Variable, Sizes::Mixed, Sizes::Fixed]);
    let hollow = r.chance(1, 6);
    Shape { hollow, ..draw(sizes, r) }
}
