//! CPU time of this thread: wall time says little on a shared machine.

#[repr(C)]
struct Time {
    seconds: i64,
    nanoseconds: i64,
}

extern "C" {
    fn clock_gettime(clock: i32, time: *mut Time) -> i32;
}

const THREAD_CPU_TIME: i32 = 3;

pub fn microseconds() -> f64 {
    let mut time = Time {
        seconds: 0,
        nanoseconds: 0,
    };
    // SAFETY: the pointer is to a time of the shape that the call writes.
    let status = unsafe { clock_gettime(THREAD_CPU_TIME, &mut time) };
    assert_eq!(status, 0, "the clock of this thread answers");
    time.seconds as f64 * 1e6 + time.nanoseconds as f64 * 1e-3
}

/// The median of the times of each of the actions, which are run in turn, each so often that a run takes some milliseconds.
pub fn medians(runs: usize, actions: &mut [&mut dyn FnMut()]) -> Vec<f64> {
    const LEAST: f64 = 2000.0;
    let mut repeats = Vec::new();
    for action in actions.iter_mut() {
        let before = microseconds();
        action();
        let once = (microseconds() - before).max(0.05);
        repeats.push((LEAST / once).clamp(1.0, 20_000.0) as usize);
    }
    let mut times = vec![Vec::new(); actions.len()];
    for _ in 0..runs {
        for (which, action) in actions.iter_mut().enumerate() {
            let before = microseconds();
            for _ in 0..repeats[which] {
                action();
            }
            times[which].push((microseconds() - before) / repeats[which] as f64);
        }
    }
    for of_one in &mut times {
        of_one.sort_by(f64::total_cmp);
    }
    times
        .iter()
        .map(|of_one| of_one[of_one.len() / 2])
        .collect()
}

/// The same value, of which the compiler knows nothing.
pub fn unknown<T>(value: T) -> T {
    // SAFETY: the value is read once, and what it was read from is forgotten.
    unsafe {
        let same = std::ptr::read_volatile(&value);
        std::mem::forget(value);
        same
    }
}
