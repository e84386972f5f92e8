//! Time of several sides in alternation.
use std::hint::black_box;

/// How much work a measurement may take.
#[derive(Clone, Copy)]
pub struct Effort {
    /// Nanoseconds for each side, unless the least number of repetitions needs more.
    pub budget: f64,
    pub repetitions: usize,
}

/// Repetitions that are made in any case.
pub const LEAST: usize = 3;

pub type Side<'a> = &'a dyn Fn();

extern "C" {
    fn clock_gettime(clock: i32, time: *mut [i64; 2]) -> i32;
}

/// Nanoseconds that this thread has run: others on the machine do not count.
fn now() -> f64 {
    const THREAD: i32 = 3;
    let mut time = [0; 2];
    // The call writes seconds and nanoseconds.
    assert_eq!(unsafe { clock_gettime(THREAD, &mut time) }, 0, "no clock of the thread");
    time[0] as f64 * 1e9 + time[1] as f64
}

/// What a call gives, and how many nanoseconds it takes.
pub fn timed<T>(run: impl FnOnce() -> T) -> (T, f64) {
    let start = now();
    let given = run();
    (given, now() - start)
}

/// Uses what a side gives, so that the compiler cannot leave its work out.
pub fn keep<T>(given: T) {
    black_box(given);
}

/// Nanoseconds of one call, over so many.
fn time(calls: usize, side: Side) -> f64 {
    timed(|| (0..calls).for_each(|_| side())).1 / calls as f64
}

/// About how long one call takes, with warm caches where that is quick; `first` is the first call's time.
pub fn estimate(first: Option<f64>, side: Side) -> f64 {
    let first = first.unwrap_or_else(|| time(1, side));
    if first < 1e6 {
        time(8, side)
    } else {
        first
    }
}

/// Nanoseconds per call of each side in each repetition; a side comes with its estimate.
pub fn alternate(sides: &[(Side, f64)], effort: Effort) -> Vec<Vec<f64>> {
    let share = effort.budget / effort.repetitions as f64;
    let slowest = sides.iter().map(|(_, about)| *about).fold(share, f64::max);
    let repetitions = ((effort.budget / slowest) as usize).clamp(LEAST, effort.repetitions);
    let mut times = vec![Vec::new(); sides.len()];
    for repetition in 0..repetitions {
        for step in 0..sides.len() {
            let at = if repetition % 2 == 0 { step } else { sides.len() - 1 - step };
            let (side, about) = sides[at];
            let calls = (share / about.max(1.0)) as usize;
            times[at].push(time(calls.max(1), side));
        }
    }
    times
}
