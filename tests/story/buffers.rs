//! Every short buffer over a few numbers, by both judges.

use crate::draft::{Draft, Edge};
use crate::hand;
use crate::rings::FREE;
use crate::table::named;
use crate::tally::{Judged, Tally};

/// Counts, waits and edges of runs with up to two jumps are among them.
const NUMBERS: [i64; 7] = [-1, 0, 1, 2, 4, 5, 6];
const LONGEST: usize = 6;

/// The buffer of a length that has this number among all of them.
fn buffer(length: usize, mut number: usize) -> Vec<i64> {
    let mut buffer = vec![0; length];
    for place in &mut buffer {
        *place = NUMBERS[number % NUMBERS.len()];
        number /= NUMBERS.len();
    }
    buffer
}

/// Eight clocks, of which each edge resets half: there and back, and a third edge only at 5.
fn eight_clocks() -> Vec<u8> {
    let edge = |from: u8, to: u8, reset: u8, last| {
        let mut guard = vec![FREE; 8];
        guard[7] = last;
        Edge {
            from,
            to,
            reset,
            guard,
        }
    };
    let edges = vec![
        edge(0, 1, 0x0f, FREE),
        edge(1, 0, 0xf0, (1, 2)),
        edge(0, 1, 0, (5, 5)),
    ];
    let draft = Draft {
        start: 0,
        target: 1,
        invariants: vec![vec![(0, 6); 8]; 2],
        edges,
    };
    draft.bytes()
}

/// Each automaton, and whether some short buffer is a run to its target.
pub fn every(tally: &mut Tally) {
    let automata = [
        ("A", named("A"), false),
        ("B", named("B"), true),
        ("F", named("F"), true),
        ("smallest", named("smallest"), true),
        ("round and round", hand::round(), true),
        ("to and fro", hand::to_and_fro(), true),
        ("two clocks", hand::two_clocks(), true),
        ("K", named("K"), false),
        ("eight clocks", eight_clocks(), true),
    ];
    for (name, bytes, some) in automata {
        let automaton = Judged::new(&bytes);
        let mut passed = 0;
        for length in 0..=LONGEST {
            for number in 0..NUMBERS.len().pow(length as u32) {
                let buffer = buffer(length, number);
                passed += usize::from(tally.judge(name, &automaton, &buffer));
            }
        }
        tally.check((passed > 0) == some, || format!("{name}: {passed} passed"));
    }
}
