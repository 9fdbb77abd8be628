// Times zones_bench_reduce, of the proved crate zones_bench, beside the same work in plain Rust.
// Both must give the same checksum; a ratio fails nothing.
mod plain;
mod times;

use plain::{Pair, Work, Zone, NO_LIMITS, ZERO};
use times::{best, nanoseconds, opaque};

extern "C" {
    fn zones_bench_reduce(size: usize, times: u64) -> u64;
}

const PRIME: u64 = 1_000_003;
// Each time is the best of so many.
const REPETITIONS: u32 = 15;

fn square() -> Zone {
    let mut z = [ZERO; 81];
    for i in 0..9u64 {
        for j in 0..9u64 {
            if i != j {
                let m = (17 * i + 13 * j) % 31 + 1;
                let p = (13 * i + 3 * j) % 29;
                z[(i * 9 + j) as usize] = Pair { m: m as i64, p };
            }
        }
    }
    z
}

fn plain(size: usize, times: u64) -> u64 {
    if size == 0 || 9 < size {
        return 0;
    }
    let z = square();
    let mut sum = 0;
    for t in 0..times {
        let mut w = Work {
            zone: z,
            fractions: NO_LIMITS,
        };
        w.zone[9] = Pair {
            m: (t % 64) as i64,
            p: t % 16,
        };
        w.reduce(size);
        let n = w.fractions.exact.n;
        sum = (sum + w.zone[size - 1].p % PRIME + n % PRIME) % PRIME;
    }
    sum
}

fn proved(size: usize, times: u64) -> u64 {
    // The exported function asks nothing of its arguments.
    unsafe { zones_bench_reduce(size, times) }
}

// Nanoseconds for one reduction.
fn timed(f: fn(usize, u64) -> u64, size: usize, times: u64) -> f64 {
    nanoseconds(|| f(opaque(size), opaque(times))) / times as f64
}

fn main() {
    for size in 0..12 {
        for times in [0, 1, 2, 63, 64, 65, 1000] {
            assert_eq!(
                proved(size, times),
                plain(size, times),
                "size {size}, times {times}"
            );
        }
    }
    println!("clocks  ns Rattle    ns Rust  ratio");
    for clocks in 1..=8 {
        let size = clocks + 1;
        let times = 2_000_000 / (size * size * size) as u64;
        let sides = [proved, plain];
        let [ours, rust] = best(REPETITIONS, |side| timed(sides[side], size, times));
        println!("{clocks:6} {ours:10.0} {rust:10.0} {:6.2}", ours / rust);
    }
}
