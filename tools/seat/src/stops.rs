//! The steps of a write, for tests. In a build with the feature `stops` the
//! program stops dead at the step that the variable `SEAT_STOPS_AT` counts, with
//! nothing tidied up, as if it were killed there. In any other build a step is
//! nothing.

/// Between two steps of a write.
#[cfg(not(feature = "stops"))]
pub fn step() {}

/// Between two steps of a write.
#[cfg(feature = "stops")]
pub fn step() {
    use std::sync::atomic::{AtomicUsize, Ordering};
    static STEPS: AtomicUsize = AtomicUsize::new(0);
    let at = STEPS.fetch_add(1, Ordering::Relaxed) + 1;
    let stop = std::env::var("SEAT_STOPS_AT").ok();
    if stop.and_then(|stop| stop.parse().ok()) == Some(at) {
        std::process::abort();
    }
}
