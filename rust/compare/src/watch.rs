//! Says which case it was when the library does not come back: it crashed, or it does not end.

use crate::machine;
use std::sync::atomic::{AtomicU64, Ordering};
use std::time::Duration;

/// No call of the library takes so long.
const LIMIT_SECONDS: u64 = 60;
const CRASHES: [i32; 5] = [4, 6, 7, 8, 11];

static SEED: AtomicU64 = AtomicU64::new(0);
static CASE: AtomicU64 = AtomicU64::new(KEPT);

/// The numbers that stand for the kept cases, which come first, and for no case.
const KEPT: u64 = u64::MAX;
const NONE: u64 = u64::MAX - 1;

extern "C" {
    fn signal(number: i32, handler: extern "C" fn(i32)) -> usize;
}

extern "C" fn crashed(number: i32) {
    stop(&format!("the library crashed, signal {number}"));
}

fn stop(fault: &str) -> ! {
    let seed = SEED.load(Ordering::Relaxed);
    match CASE.load(Ordering::Relaxed) {
        KEPT => println!("DIFFERENCE in a kept case: {fault}"),
        case => println!(
            "DIFFERENCE in case {case} (run it again: --seed {seed} --only {case}): {fault}"
        ),
    }
    println!("0 passed, 1 failed");
    std::process::exit(1)
}

/// The case that is run now.
pub fn case(number: u64) {
    CASE.store(number, Ordering::Relaxed);
}

/// Watches from now on.
pub fn start(seed: u64) {
    SEED.store(seed, Ordering::Relaxed);
    for number in CRASHES {
        // SAFETY: the handler prints and ends the process; it does not return to what crashed.
        unsafe { signal(number, crashed) };
    }
    let limit = machine::limit(LIMIT_SECONDS).as_secs();
    std::thread::spawn(move || {
        let mut seconds = 0;
        let mut last = CASE.load(Ordering::Relaxed);
        loop {
            std::thread::sleep(Duration::from_secs(1));
            let now = CASE.load(Ordering::Relaxed);
            seconds = if now == last && now != NONE {
                seconds + 1
            } else {
                0
            };
            last = now;
            if seconds == limit {
                stop("it does not end");
            }
        }
    });
}

/// The library is not asked any more.
pub fn rest() {
    CASE.store(NONE, Ordering::Relaxed);
}
