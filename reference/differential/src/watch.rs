//! Ends the test where a call does not come back.

use std::sync::atomic::{AtomicU64, Ordering};
use std::time::Duration;

/// Longest time between two calls, in seconds.
const PATIENCE: u64 = 120;
/// Case number of the calls that belong to no random case.
pub const NO_CASE: u64 = u64::MAX;

static CALLS: AtomicU64 = AtomicU64::new(0);
static CASE: AtomicU64 = AtomicU64::new(NO_CASE);

/// A random case begins.
pub fn case(number: u64) {
    CASE.store(number, Ordering::Relaxed);
}

/// A call begins.
pub fn call() {
    CALLS.fetch_add(1, Ordering::Relaxed);
}

/// Watches from a thread of its own.
pub fn start(seed: u64) {
    std::thread::spawn(move || {
        let mut last = CALLS.load(Ordering::Relaxed);
        loop {
            std::thread::sleep(Duration::from_secs(PATIENCE));
            let now = CALLS.load(Ordering::Relaxed);
            if now == last {
                break;
            }
            last = now;
        }
        let place = match CASE.load(Ordering::Relaxed) {
            NO_CASE => format!("call {last}"),
            case => format!("case {case} of seed {seed}"),
        };
        eprintln!("differential: DIFFERENCE in {place}: no answer for {PATIENCE} seconds");
        std::process::exit(1);
    });
}
