//! Holds the proved search's answers to runs, by visiting all states of small automata in ticks.
//! Its last line is 'N passed, M failed'.

mod account;
#[path = "../checks.rs"]
mod checks;
mod claims;
mod demands;
#[path = "../draft.rs"]
mod draft;
// Only its dice are needed.
#[allow(dead_code)]
#[path = "../search/drawn.rs"]
mod drawn;
mod explorer;
mod kept;
#[path = "../lengths.rs"]
mod lengths;
#[path = "../library.rs"]
mod library;
#[path = "../long.rs"]
mod long;
mod own;
mod small;
// Only A to H, document 02's and ours are needed.
#[allow(dead_code)]
#[path = "../search/table.rs"]
mod table;

use demands::{judge, Tally};
use drawn::Dice;
use explorer::{Explorer, Loosening};
use library::{Dropped, Exact, Verdict};
use std::process::ExitCode;

const TURNS: usize = 20_000;

/// Document 01's cards A to H and document 02's with the answers that they print, and ours; zones where they
/// print none are those of the examples' README. The exact fraction is the one that 01 prints; by hand, where
/// it prints none: B and F reach after a guard with lo 5, and lo 4, of a clock that may be 0, and ours have a
/// guard with lo 2. tests/dropped.rs says which zones are dropped.
const CARDS: [(&str, Verdict, Exact, Dropped); 13] = [
    ("A", [1, 1, 1, 1], [1, 1], [0, 0]),
    ("B", [0, 0, 0, 1], [5, 1], [0, 0]),
    ("C", [1, 1, 1, 1], [1, 1], [0, 0]),
    ("D", [1, 1, 0, 1], [1, 0], [0, 0]),
    ("E", [1, 2, 1, 0], [2, 1], [0, 0]),
    ("E-start-is-target", [1, 2, 1, 0], [2, 1], [0, 0]),
    ("F", [0, 0, 0, 1], [4, 1], [0, 0]),
    ("G", [1, 3, 1, 1], [3, 1], [0, 0]),
    ("H", [1, 1, 0, 1], [1, 0], [1, 0]),
    ("looping", [1, 1, 0, 1], [1, 1], [1, 0]),
    ("inside", [1, 2, 1, 1], [2, 1], [0, 1]),
    ("oldest", [1, 1, 0, 5], [2, 1], [1, 0]),
    ("dropped-then-reached", [0, 0, 0, 1], [2, 1], [1, 1]),
];

/// By hand: the scale, the error in ticks, and whether a run stands in the target.
const RUNS: [(&str, u32, u32, bool); 20] = [
    ("A", 1, 1, true),
    ("A", 10, 9, false),
    ("A", 10, 10, true),
    ("B", 1, 0, true),
    ("C", 1, 1, true),
    ("C", 10, 9, false),
    ("C", 10, 11, true),
    ("D", 1, 1_000, false),
    ("E", 1, 1, false),
    ("E", 1, 1_000, false),
    ("E-start-is-target", 10, 19, false),
    ("E-start-is-target", 1, 2, true),
    ("F", 1, 0, true),
    ("G", 10, 29, false),
    ("G", 10, 30, true),
    ("G", 1, 3, true),
    ("H", 1, 1_000, false),
    ("looping", 10, 9, false),
    ("looping", 1, 1, false),
    ("looping", 1, 1_000, false),
];

fn cards(tally: &mut Tally) {
    for (name, verdict, exact, dropped) in CARDS {
        let bytes = table::named(name);
        let automaton = small::read(&bytes);
        let same = automaton.bytes() == bytes;
        tally.checks.check(same, || format!("{name} is read wrong"));
        let answer = judge(tally, &automaton);
        let expected = Ok((verdict, exact, dropped));
        tally.checks.check(answer == expected, || {
            format!("{name}: {answer:?}, not {expected:?}")
        });
    }
    for (name, scale, error, unsafe_run) in RUNS {
        let automaton = small::read(&table::named(name));
        let found = Explorer::explored(&automaton, Loosening { scale, error }).unsafe_run();
        tally.checks.check(found == unsafe_run, || {
            format!("{name} at {error}/{scale}: an unsafe run is {found}")
        });
    }
}

fn random(tally: &mut Tally, round: u64) {
    let mut dice = Dice::new(round + 1);
    for turn in 0..TURNS {
        let automaton = match turn % 20 {
            0 => small::detour(&mut dice),
            _ => small::small(&mut dice),
        };
        judge(tally, &automaton).ok();
    }
}

fn main() -> ExitCode {
    let mut tally = Tally::default();
    cards(&mut tally);
    for round in long::rounds() {
        random(&mut tally, round);
    }
    tally.sum_up()
}
