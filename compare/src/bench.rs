//! Timing. Inputs are made outside the clock. Two things that are compared take turns, so that a change in the
//! machine's speed meets both.
use std::hint::black_box;
use std::time::Instant;

const SAMPLES: usize = 101;
/// A sample repeats a short call until it lasts about this long.
const SAMPLE_NS: f64 = 1.0e6;

fn median(mut times: Vec<f64>) -> f64 {
    times.sort_by(f64::total_cmp);
    times[times.len() / 2]
}

fn sample<O>(calls: usize, f: &mut impl FnMut() -> O) -> f64 {
    let clock = Instant::now();
    for _ in 0..calls {
        black_box(f());
    }
    clock.elapsed().as_nanos() as f64 / calls as f64
}

fn calls_per_sample<O>(f: &mut impl FnMut() -> O) -> usize {
    sample(1, f); // warms caches
    (SAMPLE_NS / sample(3, f).max(1.0)).clamp(1.0, 1.0e6) as usize
}

/// Median times in ns of two calls that leave their inputs as they are.
pub fn both<A, B>(mut ours: impl FnMut() -> A, mut other: impl FnMut() -> B) -> (f64, f64) {
    let (a, b) = (calls_per_sample(&mut ours), calls_per_sample(&mut other));
    let times = (0..SAMPLES).map(|_| (sample(a, &mut ours), sample(b, &mut other)));
    let (a, b): (Vec<f64>, Vec<f64>) = times.unzip();
    (median(a), median(b))
}

/// Median time in ns of a call that leaves its inputs as they are.
pub fn alone<O>(mut f: impl FnMut() -> O) -> f64 {
    let calls = calls_per_sample(&mut f);
    median((0..SAMPLES).map(|_| sample(calls, &mut f)).collect())
}

/// Median time in ns of one call that takes its input: one clock reading per call, the input copied before it and
/// the result dropped after it.
pub fn once<I: Clone, O>(input: &I, mut f: impl FnMut(I) -> O) -> f64 {
    let one = |f: &mut dyn FnMut(I) -> O| {
        let copy = black_box(input.clone());
        let clock = Instant::now();
        let result = black_box(f(copy));
        let time = clock.elapsed().as_nanos() as f64;
        drop(result);
        time
    };
    one(&mut f); // warms caches
    median((0..SAMPLES).map(|_| one(&mut f)).collect())
}

/// Median time in ns of a call that lasts long enough to be timed alone, over so many calls.
pub fn few<O>(calls: usize, mut f: impl FnMut() -> O) -> f64 {
    median((0..calls).map(|_| sample(1, &mut f)).collect())
}

/// One line: what was timed, ours, the other's name and time, and the ratio.
pub fn row(what: &str, ours: f64, other: &str, time: f64, note: &str) {
    println!("{what:<40} ours {ours:>10.0} ns  {other:<16} {time:>10.0} ns  ratio {:>6.2}  {note}", ours / time);
}
