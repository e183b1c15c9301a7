//! Opening, and earlier checkpoints, written down from the papers alone agree with the oracle on every stick, and each
//! mistake that a port might make in them is found.

#![cfg(oracle)]

mod checkpoints;
mod mistakes;
mod stand;

/// The oracle's overflows are caught and counted; their messages need not be printed.
fn silence_overflows() {
    let usual = std::panic::take_hook();
    std::panic::set_hook(Box::new(move |info| {
        if !info.to_string().ends_with("with overflow") {
            usual(info);
        }
    }));
}
