//! Makes a failing image smaller while it still fails.

/// So many tries, and no more, as each may run the oracle and the port.
const TRIES: usize = 3000;

pub fn shrink(image: Vec<u8>, fails: &dyn Fn(&[u8]) -> bool) -> Vec<u8> {
    let mut left = TRIES;
    let mut small = shorten(image, fails, &mut left);
    for size in [65536, 4096, 512, 64] {
        clear(&mut small, size, fails, &mut left);
    }
    shorten(small, fails, &mut left)
}

/// Cuts off as much of the end as can go.
fn shorten(mut image: Vec<u8>, fails: &dyn Fn(&[u8]) -> bool, left: &mut usize) -> Vec<u8> {
    let mut step = image.len() / 2;
    while step > 0 && *left > 0 {
        *left -= 1;
        let shorter = image.len() - step.min(image.len());
        if fails(&image[..shorter]) {
            image.truncate(shorter);
            step = step.min(image.len() / 2);
        } else {
            step /= 2;
        }
    }
    image
}

/// Zeroes each part of `size` bytes that doesn't matter.
fn clear(image: &mut [u8], size: usize, fails: &dyn Fn(&[u8]) -> bool, left: &mut usize) {
    for at in (0..image.len()).step_by(size) {
        let end = (at + size).min(image.len());
        if *left == 0 || image[at..end].iter().all(|&b| b == 0) {
            continue;
        }
        *left -= 1;
        let kept = image[at..end].to_vec();
        image[at..end].fill(0);
        if !fails(image) {
            image[at..end].copy_from_slice(&kept);
        }
    }
}
