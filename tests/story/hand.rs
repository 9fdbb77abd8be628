//! Buffers judged by hand, from document 01's rules for runs and document 02's form; and automata that
//! are turned down.

use crate::automata;
use crate::calls::{self, Call, Lent};
use crate::draft::{Draft, Edge, Limit};
use crate::drawn::{self, Dice, Lean, Size};
use crate::rings::FREE;
use crate::search;
use crate::spoilt::spoilt;
use crate::table::{named, with_byte};
use crate::tally::{Judged, Tally};

const MAX: i64 = i64::MAX;
const MIN: i64 = i64::MIN;
const SPOILT: usize = 3_000;

type Buffers = &'static [&'static [i64]];

/// An automaton with buffers that begin with a run to its target, and others that do not.
type Case = (&'static str, Vec<u8>, Buffers, Buffers);

/// Of B: the edge asks for 5, which is the start's hi; the target allows up to 9.
const B_PASS: Buffers = &[
    &[4, 5, 0, 0],
    &[4, 5, 0, 4],
    &[4, 5, 0, 4, -1],
    &[4, 5, 0, 0, 0, 0, MIN, MAX],
];
const B_WAITS: Buffers = &[
    &[4, 4, 0, 0],
    &[4, 6, 0, 0],
    &[4, 7, 0, 0],
    &[4, 5, 0, 5],
    &[4, 5, 0, -1],
    &[4, -5, 0, 0],
    &[4, MAX, 0, 0],
    &[4, MIN, 0, 0],
    &[4, 5, 0, MAX],
    &[4, 5, 0, MAX - 4],
    &[4, 5, 0, MIN],
    &[4, 5 + (1 << 32), 0, 0],
    &[4, 5, 0, 1 << 32],
];
/// Its only edge is number 0 and leaves location 0.
const B_JUMPS: Buffers = &[
    &[4, 5, 1, 0],
    &[4, 5, -1, 0],
    &[4, 5, 256, 0],
    &[4, 5, 65_536, 0],
    &[4, 5, 1 << 32, 0],
    &[4, 5, MAX, 0],
    &[4, 5, MIN, 0],
    &[6, 5, 0, 0, 0, 0],
    &[2, 5],
    &[2, 0],
];
const B_COUNTS: Buffers = &[
    &[],
    &[0],
    &[1],
    &[2],
    &[3],
    &[4],
    &[0, 5, 0, 0],
    &[1, 5, 0, 0],
    &[2, 5, 0, 0],
    &[3, 5, 0, 0],
    &[5, 5, 0, 0, 0],
    &[6, 5, 0, 0],
    &[4, 5],
    &[4, 5, 0],
    &[-4, 5, 0, 0],
    &[-1, 5, 0, 0],
    &[MAX, 5, 0, 0],
    &[MAX - 1, 5, 0, 0],
    &[MIN, 5, 0, 0],
    &[MIN + 4, 5, 0, 0],
    &[4 + (1 << 32), 5, 0, 0],
    &[4 + (1 << 61), 5, 0, 0],
    &[4 + (1 << 62), 5, 0, 0],
];

const LARGE: Buffers = &[
    &[4, 999_999, 0, 0],
    &[4, 1_000_001, 0, 0],
    &[4, 1_000_000, 0, 1],
];
const WHEEL: Buffers = &[
    &[6, 1, 0, 1, 2, 0],
    &[6, 1, 0, 0, 2, 0],
    &[6, 1, 0, 0, 1, 0],
    &[6, 2, 0, 2, 2, 0],
];
/// The first ends at 0, the next two take an edge of the other location, and the last waits too long at
/// the target.
const TO_AND_FRO: Buffers = &[
    &[6, 0, 0, 0, 1, 0],
    &[6, 0, 0, 0, 0, 0],
    &[4, 0, 1, 0],
    &[8, 0, 0, 9, 1, 5, 0, 5],
];

pub fn edge(from: u8, to: u8, reset: u8, guard: &[Limit]) -> Edge {
    Edge {
        from,
        to,
        reset,
        guard: guard.to_vec(),
    }
}

/// The target is the last location.
pub fn draft(invariants: &[&[Limit]], edges: Vec<Edge>) -> Vec<u8> {
    let draft = Draft {
        start: 0,
        target: invariants.len() as u8 - 1,
        invariants: invariants.iter().map(|limits| limits.to_vec()).collect(),
        edges,
    };
    draft.bytes()
}

/// To the target and back: a run that stood there may end elsewhere, and come again.
pub fn to_and_fro() -> Vec<u8> {
    let edges = vec![edge(0, 1, 0, &[FREE]), edge(1, 0, 1, &[FREE])];
    draft(&[&[(0, 5)], &[(0, 9)]], edges)
}

/// The edge puts y to 0 and leaves x, of which the target asks for 2.
pub fn two_clocks() -> Vec<u8> {
    let edges = vec![edge(0, 1, 2, &[FREE; 2])];
    draft(&[&[(0, 5), (0, 5)], &[(2, 9), (0, 1)]], edges)
}

/// H with the start as its target: a run may go round as often as it likes.
pub fn round() -> Vec<u8> {
    with_byte(&named("H"), 8, 0)
}

fn letters() -> Vec<Case> {
    vec![
        ("B, waits", named("B"), B_PASS, B_WAITS),
        ("B, jumps", named("B"), &[], B_JUMPS),
        ("B, counts", named("B"), &[], B_COUNTS),
        (
            "F, guard before reset",
            named("F"),
            &[&[4, 4, 0, 0], &[4, 5, 0, 9]],
            &[&[4, 3, 0, 0], &[4, 4, 0, 10], &[4, 0, 0, 4]],
        ),
        (
            "G, invariant at arrival",
            named("G"),
            &[],
            &[&[4, 0, 0, 3], &[4, 3, 0, 0], &[4, 5, 0, 5], &[4, 3, 0, 3]],
        ),
        (
            "A, which an error of 1 would open",
            named("A"),
            &[],
            &[&[4, 5, 0, 0], &[4, 6, 0, 0], &[4, 7, 0, 0], &[4, 0, 0, 7]],
        ),
        (
            "C, lo above hi",
            named("C"),
            &[],
            &[&[4, 3, 0, 0], &[4, 4, 0, 0], &[4, 5, 0, 0]],
        ),
    ]
}

/// Of limits at their ends, and of both clocks.
fn limits() -> Vec<Case> {
    let late = draft(&[&[(0, 5)], &[(3, 9)]], vec![edge(0, 1, 0, &[FREE])]);
    vec![
        (
            "a lower limit at arrival, with no reset",
            late,
            &[&[4, 3, 0, 0], &[4, 5, 0, 4]],
            &[&[4, 2, 0, 1], &[4, 2, 0, 3], &[4, 5, 0, 5]],
        ),
        (
            "limits of 1,000,000",
            named("limit-1000000"),
            &[&[4, 1_000_000, 0, 0]],
            LARGE,
        ),
        (
            "two clocks",
            two_clocks(),
            &[&[4, 2, 0, 0], &[4, 5, 0, 1]],
            &[&[4, 2, 0, 2], &[4, 1, 0, 0], &[4, 1, 0, 1]],
        ),
        ("K, which only errors open", named("K"), &[], WHEEL),
    ]
}

/// With no jump, and with many.
fn lengths() -> Vec<Case> {
    vec![
        (
            "start is target",
            named("smallest"),
            &[&[2, 0], &[2, 5], &[2, 3, -1]],
            &[&[2, 6], &[2, -1], &[2, MAX], &[2], &[0, 0], &[4, 0, 0, 0]],
        ),
        (
            "E, the first state",
            named("E-start-is-target"),
            &[],
            &[&[2, 0], &[2, 2], &[2, 3], &[2, 5]],
        ),
        (
            "round and round",
            round(),
            &[&[2, 0], &[4, 5, 0, 5], &[6, 5, 0, 5, 0, 5]],
            &[&[4, 5, 0, 6], &[6, 5, 0, 6, 0, 0], &[4, 5, 1, 5]],
        ),
        (
            "to and fro",
            to_and_fro(),
            &[&[4, 0, 0, 0], &[8, 0, 0, 9, 1, 5, 0, 4]],
            TO_AND_FRO,
        ),
    ]
}

/// Document 01's automaton of the greatest length has the edges 0 to 62 onward to the target, and 63 to 255 from the start
/// to itself: one of these, and then all of those.
fn largest(tally: &mut Tally) {
    let automaton = Judged::new(&named("largest"));
    let numbers: [(i64, bool); 8] = [
        (63, true),
        (255, true),
        (256, false),
        (0, false),
        (62, false),
        (-1, false),
        (255 + 256, false),
        (255 + (1 << 32), false),
    ];
    for (number, passes) in numbers {
        let onward = (0..63).flat_map(|edge| [edge, 5]);
        let run: Vec<i64> = [130, 5, number, 5].into_iter().chain(onward).collect();
        tally.must("the largest", &automaton, &run, passes);
    }
}

pub fn cards(tally: &mut Tally) {
    largest(tally);
    for (what, bytes, pass, do_not) in [letters(), limits(), lengths()].concat() {
        let automaton = Judged::new(&bytes);
        for (buffers, passes) in [(pass, true), (do_not, false)] {
            for buffer in buffers {
                tally.must(what, &automaton, buffer, passes);
            }
        }
    }
}

/// 1 to 8 come before any look at the buffer, and change nothing.
fn is_refused(tally: &mut Tally, dice: &mut Dice, number: u32, automaton: &[u8]) {
    let buffers: [&[i64]; 5] = [&[], &[2, 0], &[4, 5, 0, 0], &[MAX, MIN], &[-2, 1, 7]];
    for buffer in buffers {
        let before = Lent::new(dice, &[], automaton, 20).running(buffer);
        let mut after = before.clone();
        let reply = calls::proved(Call::Judge, &mut after);
        tally.check(reply == Some(number) && after == before, || {
            format!("judge: {reply:?}, not {number}, of {automaton:02x?}")
        });
    }
}

pub fn refused(tally: &mut Tally) {
    let mut dice = Dice::new(5);
    for (number, automaton) in automata::refused() {
        tally.meet(format!("Judge {number}"));
        is_refused(tally, &mut dice, number, &automaton);
    }
    for _ in 0..SPOILT {
        let size = Size::drawn(&mut dice);
        let draft = drawn::drawn(&mut dice, Lean::Plain, &size);
        let automaton = spoilt(&mut dice, draft);
        match search::refusal(&automaton) {
            Err(number) => {
                tally.meet(format!("Judge {number}"));
                is_refused(tally, &mut dice, number.into(), &automaton);
            }
            Ok(()) => {
                tally.judge("spoilt", &Judged::new(&automaton), &[2, 0]);
            }
        }
    }
}
