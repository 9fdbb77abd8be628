//! Random automata, accepted and refused: the form by the library beside that by the second writer,
//! and beside what document 02 says of it.

use crate::automata;
use crate::borders;
use crate::calls::{form_length, Call, Lent};
use crate::draft::{Draft, Edge};
use crate::drawn::{self, Dice, Lean, Size};
use crate::forms::parts;
use crate::oracle;
use crate::spoilt::spoilt;
use crate::tally::Tally;
use std::collections::BTreeSet;

const TURNS: usize = 12_000;

/// The first byte that differs decides; bytes are 0 to 255.
fn below(a: &[u8], b: &[u8]) -> bool {
    let differing = a.iter().zip(b).find(|(x, y)| x != y);
    differing.map_or(false, |(x, y)| x < y)
}

/// What document 02 says of a form, with no writer: accepted; but for length and number of edges
/// all as drawn before the edges; these rise, and are those that were drawn.
pub fn is_form(form: &[u8], automaton: &[u8]) -> bool {
    if oracle::refusal(form).is_err() {
        return false;
    }
    let ((head, drawn), (first, edges)) = (parts(automaton), parts(form));
    let set = |edges: &[&[u8]]| -> BTreeSet<Vec<u8>> { edges.iter().map(|e| e.to_vec()).collect() };
    first.len() == head.len()
        && first[4..9] == head[4..9]
        && first[11..] == head[11..]
        && edges.windows(2).all(|pair| below(pair[0], pair[1]))
        && set(&edges) == set(&drawn)
}

/// One field of an edge changed.
fn change(dice: &mut Dice, edge: &mut Edge, locations: usize) {
    let clock = dice.below(edge.guard.len());
    let limit = dice.pick(&[0, 1, 127, 128, 255, 256, 65_535, 65_536, 1_000_000]);
    match dice.range(0, 5) {
        0 => edge.from = dice.below(locations) as u8,
        1 => edge.to = dice.below(locations) as u8,
        2 => edge.reset ^= 1 << clock,
        3 => edge.guard[clock].0 = limit,
        4 => edge.guard[clock].1 = limit,
        _ => {}
    }
}

/// Edges that share long beginnings, up to as many as there can be: each is an earlier one with a
/// field changed, or with none.
fn alike(dice: &mut Dice) -> Draft {
    let size = Size {
        clocks: dice.range(1, 8),
        locations: dice.pick(&[1, 2, 5, 64]),
        edges: dice.range(1, 3),
    };
    let mut draft = drawn::drawn(dice, Lean::Plain, &size);
    let count = dice.pick(&[2, 3, 4, 10, 40, 255, 256]);
    while draft.edges.len() < count {
        let mut edge = dice.one(&draft.edges).clone();
        change(dice, &mut edge, size.locations as usize);
        draft.edges.push(edge);
    }
    draft
}

pub fn drawn(dice: &mut Dice, turn: usize) -> Vec<u8> {
    let lean = dice.pick(&[Lean::Plain, Lean::Calm, Lean::Guarded, Lean::Wheel]);
    let mut size = Size::drawn(dice);
    match turn % 6 {
        0 => borders::drawn(dice).bytes(),
        1 => alike(dice).bytes(),
        2 => {
            size.edges = dice.range(0, 256);
            drawn::drawn(dice, lean, &size).bytes()
        }
        3 => {
            let draft = drawn::drawn(dice, lean, &size);
            automata::shuffled(dice, &draft.bytes())
        }
        4 => {
            let draft = alike(dice);
            spoilt(dice, draft)
        }
        _ => {
            let draft = drawn::drawn(dice, lean, &size);
            spoilt(dice, draft)
        }
    }
}

/// The form's own form is the form, with no byte to spare.
fn again(tally: &mut Tally, dice: &mut Dice, what: &str, form: &[u8]) {
    let before = Lent::new(dice, &[], form, 0).forming(dice, form.len());
    let after = tally.must(what, Call::Canonical, &before, 0).lent;
    tally.check(after.form == form, || format!("{what}: written again"));
}

/// Lent a byte too few, just enough, as many as are drawn, and more.
fn judge(tally: &mut Tally, dice: &mut Dice, what: &str, automaton: &[u8]) {
    let lent = Lent::new(dice, &[], automaton, 0);
    let length = match form_length(automaton) {
        Some(length) => length,
        None => {
            let left = tally.call(what, Call::Canonical, &lent);
            let right = (1..=8).contains(&left.reply) && left.lent == lent;
            return tally.check(right, || format!("{what}: {}", left.reply));
        }
    };
    let short = lent.clone().forming(dice, length - 1);
    let left = tally.must(what, Call::Canonical, &short, 13);
    tally.check(left.lent == short, || format!("{what}: 13"));
    for enough in [length, automaton.len(), automaton.len() + 20] {
        let before = lent.clone().forming(dice, enough);
        let after = tally.must(what, Call::Canonical, &before, 0).lent;
        let (form, past) = after.form.split_at(length);
        let right = is_form(form, automaton)
            && past == &before.form[length..]
            && after.length == length as u64;
        tally.check(right, || format!("{what}: {form:02x?} of {automaton:02x?}"));
        again(tally, dice, what, form);
    }
}

pub fn random(tally: &mut Tally, round: u64) {
    let mut dice = Dice::new(1_000 * round + 21);
    for turn in 0..TURNS {
        let automaton = drawn(&mut dice, turn);
        let what = format!("automaton {turn} of round {round}");
        judge(tally, &mut dice, &what, &automaton);
    }
}
