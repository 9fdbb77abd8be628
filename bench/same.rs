// Times the proved comparison of byte strings, document 02's Change 3, on the longest automaton, beside
// single bytes and slices' own equality in Rust. All must say the same; a ratio fails nothing.

#[path = "../tests/compared.rs"]
mod compared;
#[path = "../tests/draft.rs"]
mod draft;
mod draws;
mod families;
#[path = "../tests/lengths.rs"]
mod lengths;
mod ordered;
mod times;

use draws::Draws;
use families::{family, Shared, LARGEST};
use std::time::Duration;
use times::{best_within, nanoseconds, opaque};

const SEED: u64 = 340;
// A row is timed for at least so many turns and so long.
const TURNS: u32 = 20;
const LEAST_TIME: Duration = Duration::from_millis(400);
// Of one reading.
const LEAST_NANOSECONDS: f64 = 200_000.0;

type Compare = fn(&[u8], &[u8]) -> bool;
const SIDES: [Compare; 3] = [compared::same, singly, |a, b| a == b];

// The compiler does not join the tests of a loop that may end at each.
fn singly(a: &[u8], b: &[u8]) -> bool {
    a.len() == b.len() && a.iter().zip(b).all(|(x, y)| x == y)
}

// Nanoseconds of one comparison, out of so many.
fn one(compare: Compare, a: &[u8], b: &[u8], times: u32) -> f64 {
    let all = nanoseconds(|| (0..times).filter(|_| compare(opaque(a), opaque(b))).count());
    all / f64::from(times)
}

fn row(differ: &str, a: &[u8], b: &[u8]) {
    for compare in SIDES {
        assert_eq!(compare(a, b), a == b, "{differ}");
    }
    let times = SIDES.map(|compare| (LEAST_NANOSECONDS / one(compare, a, b, 100)) as u32 + 1);
    let [words, bytes, rust] = best_within(TURNS, LEAST_TIME, |i| one(SIDES[i], a, b, times[i]));
    let (faster, ratio) = (bytes / words, words / rust);
    println!("{differ:14} {words:9.1} {bytes:13.1} {faster:7.2} {rust:9.1} {ratio:6.2}");
}

fn main() {
    let automaton = &family(&mut Draws(SEED), &LARGEST, Shared::Beginnings)[0];
    let length = automaton.len();
    println!("nanoseconds for a comparison of two automata of {length} bytes");
    println!("they differ in     words  single bytes  faster      Rust  ratio");
    row("no byte", automaton, &automaton.clone());
    for (differ, at) in [
        ("the first", 0),
        ("the middle", length / 2),
        ("the last", length - 1),
    ] {
        let mut other = automaton.clone();
        other[at] ^= 1;
        row(differ, automaton, &other);
    }
}
