//! The processor time that this thread has had: what else the machine does is left out of it.

use std::time::Duration;

#[cfg(all(target_os = "linux", target_pointer_width = "64"))]
pub fn now() -> Duration {
    #[repr(C)]
    struct Timespec {
        seconds: i64,
        nanoseconds: i64,
    }
    extern "C" {
        fn clock_gettime(clock: i32, time: *mut Timespec) -> i32;
    }
    const THREAD: i32 = 3;
    let mut t = Timespec { seconds: 0, nanoseconds: 0 };
    // The place is live for the call's time.
    let failed = unsafe { clock_gettime(THREAD, &mut t) };
    assert_eq!(failed, 0, "the thread's clock");
    Duration::new(t.seconds as u64, t.nanoseconds as u32)
}

/// Elsewhere by the wall.
#[cfg(not(all(target_os = "linux", target_pointer_width = "64")))]
pub fn now() -> Duration {
    use std::sync::OnceLock;
    use std::time::Instant;
    static START: OnceLock<Instant> = OnceLock::new();
    START.get_or_init(Instant::now).elapsed()
}
