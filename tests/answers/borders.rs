//! Automata whose limits are at the ends of their range.

use crate::draft::{Draft, Edge, Limit, NO_UPPER};
use crate::drawn::Dice;

const ENDS: [u32; 6] = [0, 0, 1, 999_999, 1_000_000, 1_000_000];

/// Lo above hi as well.
fn any(dice: &mut Dice) -> Limit {
    (dice.pick(&ENDS), dice.pick(&ENDS))
}

fn invariant(dice: &mut Dice) -> Limit {
    if dice.chance(10) {
        return any(dice);
    }
    (0, dice.pick(&[1, 999_999, 1_000_000]))
}

fn guard(dice: &mut Dice) -> Limit {
    match dice.range(0, 9) {
        0..=4 => (0, NO_UPPER),
        5..=6 => (dice.pick(&ENDS), NO_UPPER),
        _ => any(dice),
    }
}

pub fn drawn(dice: &mut Dice) -> Draft {
    let clocks = dice.range(1, 8);
    let last = dice.range(0, 4);
    let limits = |dice: &mut Dice, limit: fn(&mut Dice) -> Limit| -> Vec<Limit> {
        (0..clocks).map(|_| limit(dice)).collect()
    };
    let edge = |dice: &mut Dice| Edge {
        from: dice.range(0, last) as u8,
        to: dice.range(0, last) as u8,
        reset: dice.range(0, (1 << clocks) - 1) as u8,
        guard: limits(dice, guard),
    };
    Draft {
        start: 0,
        target: last as u8,
        invariants: (0..=last).map(|_| limits(dice, invariant)).collect(),
        edges: (0..dice.range(0, 10)).map(|_| edge(dice)).collect(),
    }
}
