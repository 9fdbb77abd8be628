//! Stores of every size: too small, just enough, and more than enough.

use crate::borders;
use crate::draft::{Draft, Limit, NO_UPPER};
use crate::drawn::{self, Dice, Lean, Size};
use crate::dropped;
use crate::lengths::slot;
use crate::tally::{Answer, Left, Tally};

const AUTOMATA: usize = 8_000;
/// Slots of the store that is taken for more than enough.
const ENOUGH: usize = 40;
/// Up to this many sizes all are tried, else those around the end of each slot.
const ALL: usize = 60;
/// Limits that should be met.
pub const KINDS: [(&str, fn(Limit) -> bool); 4] = [
    ("lo above hi", |(lo, hi)| lo > hi),
    ("lo of 1,000,000", |(lo, _)| lo == 1_000_000),
    ("hi of 1,000,000", |(_, hi)| hi == 1_000_000),
    ("no upper limit", |(_, hi)| hi == NO_UPPER),
];

fn sizes(dice: &mut Dice, slot: usize, zones: usize) -> Vec<usize> {
    let most = (zones + 1) * slot;
    if most < ALL {
        return (0..=most).collect();
    }
    let mut sizes = vec![0, most];
    for end in (1..=zones).map(|slots| slots * slot) {
        sizes.extend([end - 1, end, end + 1, end - dice.range(2, 7) as usize]);
    }
    sizes
}

/// What the search must leave in a store of another size, told by what it left in a large one: as
/// much of the same zones as there are slots for.
fn lawful(left: &Left, lent: usize, slot: usize, large: &Left) -> bool {
    let zones = large
        .answer
        .map_or(usize::MAX, |(verdict, _)| verdict[3] as usize);
    let answer: Answer = if lent / slot < zones {
        Err(10)
    } else {
        large.answer
    };
    let kept = zones.min(lent / slot) * slot;
    left.answer == answer
        && left.store[..kept] == large.store[..kept]
        && left.store[kept..] == left.before[kept..]
}

fn every_size(tally: &mut Tally, dice: &mut Dice, what: &str, automaton: &[u8]) {
    let slot = slot(automaton);
    let large = tally.search(dice, what, automaton, ENOUGH * slot + slot / 2);
    // Where even the large store is full, the sizes of its first slots.
    let zones = large.answer.map_or(5, |(verdict, _)| verdict[3] as usize);
    for lent in sizes(dice, slot, zones) {
        let left = tally.search(dice, what, automaton, lent);
        tally.check(lawful(&left, lent, slot, &large), || {
            format!(
                "{what}, store {lent}: {:?} after {:?}",
                left.answer, large.answer
            )
        });
    }
}

fn automaton(dice: &mut Dice, turn: usize) -> Draft {
    let size = Size::drawn(dice);
    match turn % 9 {
        0 => drawn::drawn(dice, Lean::Plain, &size),
        1 => drawn::drawn(dice, Lean::Calm, &size),
        2 => drawn::drawn(dice, Lean::Guarded, &size),
        3 => drawn::drawn(dice, Lean::Wheel, &size),
        4 => drawn::shortcut(dice),
        5 => drawn::crowd(dice.range(2, 8) as usize, dice.range(1, 12) as usize),
        6 => dropped::drawn(dice),
        _ => borders::drawn(dice),
    }
}

/// What kinds of limits and how many clocks are met.
fn sort(tally: &mut Tally, automaton: &Draft) {
    let guards = automaton.edges.iter().flat_map(|e| &e.guard);
    let limits: Vec<&Limit> = guards
        .chain(automaton.invariants.iter().flatten())
        .collect();
    for (kind, is_one) in KINDS {
        if limits.iter().any(|limit| is_one(**limit)) {
            tally.meet(kind.into());
        }
    }
    tally.meet(format!("{} clocks", automaton.invariants[0].len()));
}

pub fn every_store(tally: &mut Tally, round: u64) {
    let mut dice = Dice::new(1_000 * round + 4);
    for turn in 0..AUTOMATA {
        let automaton = automaton(&mut dice, turn);
        sort(tally, &automaton);
        let what = format!("automaton {turn} of round {round}");
        every_size(tally, &mut dice, &what, &automaton.bytes());
    }
}
