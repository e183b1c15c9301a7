//! Earlier states of a stick's volumes.

use crate::plan::{files, keys, shape, Plan, Save};
use crate::random::Random;
use crate::volume::Volume;

const MOST: u64 = 3;

/// Oldest first. Numbers are so far apart at most that other checkpoints' numbers are among them.
pub fn draw(plan: &Plan, r: &mut Random) -> Vec<Save> {
    let (mut xid, mut out) = (plan.xid, Vec::new());
    for _ in 0..r.between(1, MOST) {
        let Some(before) = xid.checked_sub(1 + r.below(4)) else { break };
        xid = before;
        let there: Vec<&Volume> = plan.volumes.iter().filter(|_| r.chance(7, 8)).collect();
        out.push(Save { xid, volumes: there.into_iter().map(|v| earlier(v, plan.block_size, r)).collect() });
    }
    out.reverse();
    out
}

/// The volume as it may have been: with other contents, or laid out otherwise. Its nodes have the same numbers, so that
/// the transaction alone tells which are meant.
fn earlier(v: &Volume, block_size: usize, r: &mut Random) -> Volume {
    let mut contents = if r.chance(1, 4) { v.contents.clone() } else { files::draw(block_size, r.chance(3, 4), r) };
    keys::form(&mut contents);
    Volume { contents, tree: shape::files(r), lost: None, muddled: false, random: r.fork(), ..v.clone() }
}
