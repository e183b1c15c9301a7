//! A recorded sample, read back.

use compare::leaf::Leaf;
use compare::record::{decode, encode, Record, HEAD};

fn some() -> Vec<Record> {
    Leaf::ALL
        .iter()
        .map(|&(leaf, _)| {
            let op = leaf as u64;
            Record {
                leaf,
                a: op % 3,
                b: u64::MAX - op,
                expected: op << 56 | 0xff,
                input: vec![leaf as u8; 2 + op as usize],
            }
        })
        .collect()
}

#[test]
fn records_come_back() {
    let bytes = encode(&some());
    assert_eq!(decode(&bytes), Ok(some()));
    let first = &some()[0];
    assert_eq!(bytes[0], 1);
    assert_eq!(bytes[1..9], first.a.to_le_bytes());
    assert_eq!(bytes[9..17], first.b.to_le_bytes());
    assert_eq!(bytes[17..25], first.expected.to_le_bytes());
    assert_eq!(bytes[25..29], (first.input.len() as u32).to_le_bytes());
    assert_eq!(bytes[HEAD..HEAD + first.input.len()], first.input);
}

#[test]
fn what_is_cut_or_strange_is_refused() {
    let bytes = encode(&some());
    assert!((0..bytes.len()).all(|n| decode(&bytes[..n]).is_err()));
    assert!(decode(&[&bytes[..], &[0]].concat()).is_err());
    assert!(decode(&[16]).is_err());
}

#[cfg(oracle)]
mod sampled {
    use compare::expected::{expected, kinds};
    use compare::sample::sample;

    use super::*;

    #[test]
    fn a_sample_covers_every_leaf_and_fits() {
        let records = sample(1);
        let bytes = encode(&records);
        assert!((2000..=4000).contains(&records.len()), "{} records", records.len());
        assert!(bytes.len() <= 200_000, "{} bytes", bytes.len());
        assert_eq!(decode(&bytes).as_ref(), Ok(&records));
        assert_eq!(encode(&sample(1)), bytes);
        for &(leaf, name) in &Leaf::ALL {
            for kind in kinds(leaf) {
                let mut of_kind =
                    records.iter().filter(|r| r.leaf == leaf).map(|r| expected(&r.case())).filter(|e| e.kind == kind);
                let outside = ["another width", "refused with 9", "refused, no such buffer"].contains(&kind);
                assert_eq!(of_kind.next().is_none(), outside, "{name}: {kind}");
            }
        }
        for r in &records {
            let want = expected(&r.case());
            assert!(want.from_oracle && want.value == r.expected, "{r:?}");
        }
    }
}
