//! Document 01's cards that ask for a store of their own, with document 02's slots, and both fractions and the
//! zones dropped of the cards that keep few zones, by the proved search: each answer and the store that it
//! leaves.

#[path = "../checks.rs"]
mod checks;
#[path = "../lengths.rs"]
mod lengths;
#[path = "../library.rs"]
mod library;

use checks::Checks;
use library::{search, search_findings, Findings};
use std::process::ExitCode;

/// What the store has before, to see that the rest of it stands.
const UNTOUCHED: i32 = -7;
/// The numbers of a slot of two clocks: a location, where the zone came from, and nine pairs.
const SLOT: usize = lengths::slot_of(2);
/// What A leaves in its only slot: its location, −1 and −1 as for any first zone, its pairs.
const KEPT: &[i32] = &[0, -1, -1, 0, 0, 0, 0, 5, 1, 0, 0];
/// The same of a start with another hi.
const KEPT_9: &[i32] = &[0, -1, -1, 0, 0, 0, 0, 9, 1, 0, 0];
const KEPT_20: &[i32] = &[0, -1, -1, 0, 0, 0, 0, 20, 1, 0, 0];
const KEPT_MOST: &[i32] = &[0, -1, -1, 0, 0, 0, 0, 1_000_000, 1, 0, 0];

/// How K's slots begin, each zone from the one before by its edge, and the pairs of the first four, row by
/// row: docs/RULES.md works them out.
const WHEEL: [[i32; SLOT]; 4] = [
    [
        0, -1, -1, 0, 0, 0, 0, 0, 0, 1, 1, 0, 0, 0, 0, 1, 1, 0, 0, 0, 0,
    ],
    [
        1, 0, 0, 0, 0, 0, 0, -1, 1, 0, 2, 0, 0, -1, 1, 1, 1, 1, 1, 0, 0,
    ],
    [
        0, 1, 1, 0, 0, 0, 0, 0, 0, 1, 1, 0, 0, 0, 2, 1, 1, 0, 0, 0, 0,
    ],
    [
        1, 2, 0, 0, 0, 0, 0, -1, 3, 0, 4, 0, 0, -1, 3, 1, 1, 1, 1, 0, 0,
    ],
];

/// The automaton's name; the store's numbers; the answer, with the exact fraction and the zones dropped;
/// the first numbers of the store, where they are known, past which it is untouched.
type Case = (
    &'static str,
    usize,
    Result<Findings, u32>,
    Option<&'static [i32]>,
);

/// Where no zone is dropped by containment.
const fn none_dropped(verdict: [u64; 4], exact: [u64; 2]) -> Result<Findings, u32> {
    Ok((verdict, exact, [0, 0]))
}

const CASES: [Case; 6] = [
    ("A", 10, Err(10), Some(&[])),
    ("A", 11, none_dropped([1, 1, 1, 1], [1, 1]), Some(KEPT)),
    ("A", 14, none_dropped([1, 1, 1, 1], [1, 1]), Some(KEPT)),
    ("E", 0, none_dropped([1, 2, 1, 0], [2, 1]), Some(&[])),
    ("K", 12 * SLOT, Err(10), None),
    ("K", 65_535 * SLOT, Err(9), None),
];

/// Document 01's cards that keep one zone or none. By hand: where an edge reaches the target, the exact
/// fraction is the lo that its guard asks of a clock which may be 0; the smallest has no edge. Elsewhere
/// both fractions are the one that 01 prints. No edge leads to a kept zone's location but H's.
const FRACTIONS: [Case; 9] = [
    ("B", 11, none_dropped([0, 0, 0, 1], [5, 1]), Some(KEPT)),
    ("C", 11, none_dropped([1, 1, 1, 1], [1, 1]), Some(KEPT_9)),
    ("D", 11, none_dropped([1, 1, 0, 1], [1, 0]), Some(KEPT)),
    (
        "E-start-is-target",
        0,
        none_dropped([1, 2, 1, 0], [2, 1]),
        Some(&[]),
    ),
    ("F", 11, none_dropped([0, 0, 0, 1], [4, 1]), Some(KEPT)),
    ("G", 11, none_dropped([1, 3, 1, 1], [3, 1]), Some(KEPT)),
    ("H", 11, Ok(([1, 1, 0, 1], [1, 0], [1, 0])), Some(KEPT)),
    (
        "limit-1000000",
        11,
        none_dropped([0, 0, 0, 1], [1_000_000, 1]),
        Some(KEPT_MOST),
    ),
    ("smallest", 0, none_dropped([0, 0, 0, 0], [1, 0]), Some(&[])),
];

/// Of `oldest`, by hand: the start, then 1 at 2 or more, 2 and 3 at any time, from slot 0; then 1 at any time,
/// from slot 2 by edge 3. The zone that comes to 1 last is that of slot 1.
const KEPT_BOTH: &[i32] = &[
    0, -1, -1, 0, 0, 0, 0, 5, 1, 0, 0, //
    1, 0, 0, 0, 0, -2, 1, 5, 1, 0, 0, //
    2, 0, 1, 0, 0, 0, 0, 5, 1, 0, 0, //
    3, 0, 2, 0, 0, 0, 0, 5, 1, 0, 0, //
    1, 2, 3, 0, 0, 0, 0, 5, 1, 0, 0,
];

/// Document 02's card of Change 4, and ours of Change 5. By hand: the exact fraction is the smallest lo, 1 or
/// 2, that a guard asks of a clock which may be 0. tests/dropped.rs says which zones are dropped.
const DROPPED: [Case; 4] = [
    (
        "looping",
        11,
        Ok(([1, 1, 0, 1], [1, 1], [1, 0])),
        Some(KEPT_20),
    ),
    ("inside", 11, Ok(([1, 2, 1, 1], [2, 1], [0, 1])), Some(KEPT)),
    (
        "oldest",
        55,
        Ok(([1, 1, 0, 5], [2, 1], [1, 0])),
        Some(KEPT_BOTH),
    ),
    (
        "dropped-then-reached",
        11,
        Ok(([0, 0, 0, 1], [2, 1], [1, 1])),
        Some(KEPT),
    ),
];

fn judge(checks: &mut Checks, examples: &str, (name, numbers, expected, begins): Case) {
    let automaton = std::fs::read(format!("{examples}/{name}.card")).expect("an example");
    let mut store = vec![UNTOUCHED; numbers];
    let answer = search_findings(&automaton, &mut store);
    let stored = begins.map_or(true, |first| {
        store.starts_with(first) && store[first.len()..].iter().all(|x| *x == UNTOUCHED)
    });
    checks.check(answer == expected && stored, || {
        format!("{name}, {numbers} numbers: {answer:?}, not {expected:?}, or another store")
    });
}

/// From location 0 edge 0 leads to 1, and from there edge 1 back.
fn head(slot: i32) -> [i32; 3] {
    match slot {
        0 => [0, -1, -1],
        _ => [slot % 2, slot - 1, (slot + 1) % 2],
    }
}

/// 12 slots are kept before 10; the numbers behind them, too few for another, stand.
fn wheel(checks: &mut Checks, examples: &str) {
    let automaton = std::fs::read(format!("{examples}/K.card")).expect("an example");
    for spare in [0, 1, SLOT - 1] {
        let mut store = vec![UNTOUCHED; 12 * SLOT + spare];
        let answer = search(&automaton, &mut store);
        let (slots, behind) = store.split_at(12 * SLOT);
        let mut heads = slots.chunks(SLOT).zip(0..);
        let told = heads.all(|(numbers, slot)| numbers[..3] == head(slot));
        let stands = behind.iter().all(|number| *number == UNTOUCHED);
        let first = slots.starts_with(&WHEEL.concat());
        checks.check(answer == Err(10) && told && stands && first, || {
            format!("K, {spare} to spare: {answer:?}, or another store {slots:?}")
        });
    }
}

fn main() -> ExitCode {
    let examples = std::env::args().nth(1).expect("the folder of the examples");
    let mut checks = Checks::default();
    for case in CASES.into_iter().chain(FRACTIONS).chain(DROPPED) {
        judge(&mut checks, &examples, case);
    }
    wheel(&mut checks, &examples);
    checks.sum_up()
}
