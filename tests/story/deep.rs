//! A run of ten million numbers, judged with little stack.

use crate::branches::{circle, round};
use crate::library;
use crate::tally::{Judged, Tally};
use std::thread;

/// Far less than a frame for each number would take.
const STACK: usize = 64 << 10;
const NUMBERS: usize = 10_000_000;
const JUMPS: usize = NUMBERS / 2 - 1;

pub fn with_small_stack<T: Send>(f: impl FnOnce() -> T + Send) -> T {
    thread::scope(|scope| {
        let thread = thread::Builder::new().stack_size(STACK);
        let thread = thread.spawn_scoped(scope, f).expect("a thread");
        thread.join().expect("the thread ends")
    })
}

fn judge(tally: &mut Tally, what: &str, automaton: &Judged, run: &[i64], passes: bool) {
    let said = with_small_stack(|| library::judge(&automaton.bytes, run));
    tally.check(said == Ok(passes), || {
        format!("{what}: {said:?}, not {passes}")
    });
    let second = automaton.judge.passes(run);
    tally.check(second == passes, || {
        format!("{what}: the second judge says {second}")
    });
}

/// As it is, and with one number changed at its end or its beginning: no clock may wait for 6, and the
/// count is of more numbers than are lent, or odd.
fn around(tally: &mut Tally, what: &str, resets: &[u8], clocks: usize) {
    let automaton = Judged::new(&circle(resets, clocks, JUMPS).bytes());
    let mut run = round(resets.len(), JUMPS);
    let (edges, count, last) = (resets.len() as i64, NUMBERS as i64, NUMBERS - 1);
    judge(tally, what, &automaton, &run, true);
    let changes = [
        (last, 6),
        (last, -1),
        (last, i64::MAX),
        (last - 1, edges),
        (last - 1, -1),
        (last - 2, 6),
        (1, 6),
        (2, edges),
        (0, count + 2),
        (0, count - 1),
        (0, count + 1),
        (0, i64::MAX - 1),
    ];
    for (place, number) in changes {
        let there = std::mem::replace(&mut run[place], number);
        let what = format!("{what}, {number} at {place}");
        judge(tally, &what, &automaton, &run, false);
        run[place] = there;
    }
    // A jump less ends at the target only where all locations are it.
    run[0] = count - 2;
    judge(tally, what, &automaton, &run, edges == 1);
}

pub fn small_stack(tally: &mut Tally) {
    around(tally, "ten million numbers, a clock", &[1], 1);
    let halves = [0x0f, 0xf0];
    around(tally, "ten million numbers, eight clocks", &halves, 8);
}
