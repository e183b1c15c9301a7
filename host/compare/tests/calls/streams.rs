//! Document 01's account of a stream, held against the oracle where it can be asked.

use std::sync::Arc;

use compare::calls::run::damaged;
use compare::calls::stream::{by_document, LONGEST};
use compare::opening::answer::{caught, container, Answer};
use compare::opening::outside::outside;
use oracle::fs::{Volume, Xattr, XattrData};
use oracle::nx::Container;
use oracle::probe;
use sticks::Stick;

/// By the oracle, and by document 01: the first bytes or the refusal.
type Both = (Result<Vec<u8>, u64>, Result<Vec<u8>, u64>);

fn both(image: &[u8], c: &Container, v: &Volume, x: &Xattr) -> Option<Both> {
    let XattrData::Stream { obj_id, size } = x.data else { return None };
    let extents = caught(|| probe::extents(v, obj_id)).ok()?.ok()?;
    if size > LONGEST {
        return None;
    }
    let by_oracle = match caught(|| v.read_xattr(x)) {
        Ok(read) => read.map_err(|e| probe::class(&e)),
        Err(Answer::Overflow) => Err(8),
        Err(other) => panic!("{other}"),
    };
    let told = by_document(image, c.block_size().into(), probe::block_count(c), &extents, size);
    let first = told.as_ref().map_or(0, Vec::len);
    Some((by_oracle.map(|b| b[..first.min(b.len())].to_vec()), told))
}

fn each(image: Vec<u8>, ids: &[u64], f: &mut dyn FnMut(Both)) {
    let image = Arc::new(image);
    if outside(&image).is_some() {
        return;
    }
    let Ok(Ok(c)) = caught(|| container(&image)) else { return };
    for i in 0..c.sb.fs_oids.len().min(4) {
        let Ok(Ok(v)) = caught(|| c.volume(i)) else { continue };
        for &id in ids {
            let list = caught(|| v.xattrs(id)).ok().and_then(Result::ok).unwrap_or_default();
            list.iter().filter_map(|x| both(&image, &c, &v, x)).for_each(&mut *f);
        }
    }
}

#[test]
fn document_01_tells_what_the_oracle_reads() {
    crate::silence_overflows();
    let mut seen = [0; 9];
    for seed in 0..1500 {
        let Stick { plan, image, .. } = Stick::from_seed(seed);
        let ids: Vec<u64> = plan.volumes.iter().flat_map(|v| v.contents.files.iter().map(|f| f.inode.id)).collect();
        for b in [damaged(&image, seed, 1), damaged(&image, seed, 2), image] {
            each(b, &ids, &mut |(by_oracle, told)| {
                assert_eq!(told, by_oracle, "stick {seed}");
                seen[told.err().unwrap_or(0) as usize] += 1;
            });
        }
    }
    assert!(seen[0] > 300 && seen[1] > 5 && seen[2] > 5 && seen[8] > 2, "{seen:?}");
}
