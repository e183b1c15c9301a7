//! Images about 2^34 bytes long, answered rightly and wrongly.

use compare::calls::call::Call;
use compare::calls::vast::check;

const LARGEST: usize = 1 << 34;

#[test]
fn an_image_over_the_bound_is_told_from_one_at_it() {
    let right = |image: &[u8], _: u64, _: &Call, _: &mut [u8]| if image.len() > LARGEST { -7 } else { -11 };
    let Some(agreed) = check(&right).expect("no mistake") else { return };
    assert!(agreed > 10);
    let low = |image: &[u8], _: u64, _: &Call, _: &mut [u8]| if image.len() >= LARGEST { -7 } else { -11 };
    assert!(check(&low).is_err());
    assert!(check(&|_, _, _, _| -11).is_err());
    assert!(check(&|image, _, _, _| if image.len() > LARGEST { -7 } else { -4 }).is_err());
}
