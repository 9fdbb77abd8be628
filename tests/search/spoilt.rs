//! Damages to automata.

use crate::draft::{recount, Draft, NO_UPPER};
use crate::drawn::Dice;

/// One damage to the fields, some of them just inside what is allowed.
fn spoil_field(dice: &mut Dice, draft: &mut Draft) {
    let locations = draft.invariants.len() as u8;
    let location = dice.pick(&[locations - 1, locations, locations, 255]);
    let limit = dice.pick(&[1_000_000, 1_000_001, NO_UPPER - 1, NO_UPPER]);
    let clock = dice.below(draft.invariants[0].len());
    let which = if draft.edges.is_empty() {
        dice.range(0, 3)
    } else {
        dice.range(0, 8)
    };
    if which < 4 {
        let l = &mut draft.invariants[dice.below(usize::from(locations))][clock];
        match which {
            0 => draft.start = location,
            1 => draft.target = location,
            2 => l.0 = limit,
            _ => l.1 = limit,
        }
        return;
    }
    let at = dice.below(draft.edges.len());
    let edge = &mut draft.edges[at];
    match which {
        4 => edge.from = location,
        5 => edge.to = location,
        6 => edge.reset |= 1 << dice.range(0, 7),
        7 => edge.guard[clock].0 = limit,
        _ => edge.guard[clock].1 = limit,
    }
}

/// A number of edges that the bytes do not have; those past 256 are outside the range.
fn spoil_edges(dice: &mut Dice, bytes: &mut [u8]) {
    let edges: u16 = dice.pick(&[0, 1, 256, 257, 65_535]);
    bytes[9..11].copy_from_slice(&edges.to_be_bytes());
}

/// One damage to the bytes, unless an earlier one left a stub.
fn spoil_bytes(dice: &mut Dice, bytes: &mut Vec<u8>) {
    if bytes.len() < 11 {
        return;
    }
    let all = bytes.len();
    match dice.range(0, 6) {
        0 => bytes.truncate(dice.below(all)),
        1 => bytes.truncate(dice.below(15)),
        2 => bytes.push(dice.range(0, 255) as u8),
        3 => bytes[4] = dice.pick(&[0, 2, 255]),
        4 => bytes[5] = dice.pick(&[0, 1, 8, 9, 255]),
        5 => bytes[6] = dice.pick(&[0, 1, 64, 65, 255]),
        _ => bytes[dice.below(all)] ^= 1 << dice.range(0, 7),
    }
    if bytes.len() >= 4 && dice.chance(60) {
        recount(bytes);
    }
}

/// With one damage, or with several, of which the one with the smallest number is told.
pub fn spoilt(dice: &mut Dice, mut draft: Draft) -> Vec<u8> {
    let fields = dice.pick(&[0, 1, 1, 2]);
    for _ in 0..fields {
        spoil_field(dice, &mut draft);
    }
    let mut bytes = draft.bytes();
    if dice.chance(10) {
        spoil_edges(dice, &mut bytes);
    }
    let times = if fields == 0 {
        dice.range(1, 3)
    } else {
        u32::from(dice.chance(20))
    };
    for _ in 0..times {
        spoil_bytes(dice, &mut bytes);
    }
    bytes
}
