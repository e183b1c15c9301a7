//! Without the published sources there is no command but `replay`.

fn none() -> ! {
    crate::stop("built without the published sources; set WINAPFS_SRC and build again")
}

pub fn compare_leaves(_seed: u64) {
    none()
}

pub fn record(_file: &str, _seed: u64) {
    none()
}

pub fn record_calls(_file: &str, _seed: u64) {
    none()
}

pub fn sticks(_seed: u64, _count: u64) {
    none()
}

pub fn volumes(_seed: u64, _count: u64) {
    none()
}

pub fn calls(_seed: u64, _count: u64) {
    none()
}

pub fn list(_seed: u64, _count: u64) {
    none()
}

pub fn pairs(_seed: u64, _count: u64) {
    none()
}

pub fn checkpoints(_seed: u64, _count: u64) {
    none()
}

pub fn parts(_seed: u64, _count: u64) {
    none()
}

pub fn maps(_seed: u64, _count: u64) {
    none()
}

pub fn words(_seed: u64, _count: u64) {
    none()
}

pub fn desks(_seed: u64, _count: u64) {
    none()
}

pub fn reach(_seed: u64, _count: u64) {
    none()
}

pub fn bench() {
    none()
}

pub fn open(_files: &[String]) {
    none()
}
