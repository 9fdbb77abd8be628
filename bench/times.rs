// How the two sides of a benchmark are timed.

// Each program takes some of them.
#![allow(dead_code)]

use std::mem::ManuallyDrop;
use std::ptr;
use std::time::{Duration, Instant};

// The value by a way that the compiler does not see through; std's own is younger than the oldest rustc in use.
pub fn opaque<T>(value: T) -> T {
    let value = ManuallyDrop::new(value);
    ManuallyDrop::into_inner(unsafe { ptr::read_volatile(&value) })
}

pub fn nanoseconds<T>(f: impl FnOnce() -> T) -> f64 {
    let start = Instant::now();
    opaque(f());
    start.elapsed().as_nanos() as f64
}

// The sides take turns, and each has the best of its times.
pub fn best<const N: usize>(times: u32, side: impl FnMut(usize) -> f64) -> [f64; N] {
    best_within(times, Duration::ZERO, side)
}

// Of so many times, and of more until so long has passed: what disturbs the machine may outlast a few short times.
pub fn best_within<const N: usize>(
    times: u32,
    long: Duration,
    mut side: impl FnMut(usize) -> f64,
) -> [f64; N] {
    let mut best = [f64::INFINITY; N];
    let (start, mut turns) = (Instant::now(), 0);
    while turns < times || start.elapsed() < long {
        for (i, best) in best.iter_mut().enumerate() {
            *best = best.min(side(i));
        }
        turns += 1;
    }
    best
}
