//! Refusal 13: buffers of every length for the form, and what comes before it and behind it.

use crate::automata::{self, rising};
use crate::calls::{Call, Lent};
use crate::drawn::Dice;
use crate::forms::{form, joined, parts};
use crate::oracle::{Cache, Record, Verdict};
use crate::table::{named, with_byte};
use crate::tally::Tally;

const CALLS: [Call; 3] = [Call::Canonical, Call::LookUp, Call::Consult];

/// Caches by what is replied on them of an automaton that is not filed and keeps a zone: 11, 12
/// and, with no store, 10.
fn caches() -> [(u32, Vec<u8>); 3] {
    let verdict = Verdict {
        kind: 1,
        n: 1,
        d: 0,
        zones: 1,
    };
    let automaton = named("D");
    let records = vec![Record { verdict, automaton }];
    let sound = Cache { records }.bytes();
    let room = [&sound[..], &[0; 21_300]].concat();
    [(11, with_byte(&room, 4, 2)), (12, sound), (10, room)]
}

/// Automata that keep a zone: as they are, in another order, and with repeats, which make the form
/// shorter.
fn drawn() -> Vec<Vec<u8>> {
    let (k, few) = (named("K"), rising(1, 3, 6));
    let mut all = vec![named("A"), k.clone(), rising(2, 0, 2)];
    for (automaton, order) in [(&k, [2, 0, 1]), (&few, [1, 1, 1]), (&few, [0, 2, 0])] {
        let (head, edges) = parts(automaton);
        all.push(joined(head, &order.map(|i| edges[i])));
    }
    all
}

/// The reply of a call, where the buffer is long enough or not.
fn reply(call: Call, bad: u32, enough: bool) -> u32 {
    match call {
        _ if !enough => 13,
        Call::Consult => bad,
        Call::LookUp if bad == 11 => 11,
        _ => 0,
    }
}

/// 13 up to a byte too few, and none from just enough on: the form's length counts, not the card's.
fn lengths(tally: &mut Tally, dice: &mut Dice, automaton: &[u8], lengths: &[usize]) {
    let form = form(automaton);
    for (bad, cache) in caches() {
        let lent = Lent::new(dice, &cache, automaton, 0);
        for &length in lengths {
            let (before, enough) = (lent.clone().forming(dice, length), length >= form.len());
            for call in CALLS {
                let what = format!("{length} bytes for a form of {}, {bad}", form.len());
                let after = tally
                    .must(&what, call, &before, reply(call, bad, enough))
                    .lent;
                let right = if enough {
                    after.formed(&before)
                } else {
                    after == before
                };
                tally.check(right, || format!("{what}, {call:?}: what is left"));
            }
        }
    }
}

/// Refused automata, with no byte for a form: 1 to 8 come first.
fn refused(tally: &mut Tally, dice: &mut Dice) {
    for (number, automaton) in automata::refused() {
        for (bad, cache) in caches() {
            for length in [0, 1, 10, automaton.len()] {
                let before = Lent::new(dice, &cache, &automaton, 0).forming(dice, length);
                for call in CALLS {
                    let what = format!("{length} bytes for no form, {number} and {bad}");
                    let left = tally.must(&what, call, &before, number);
                    tally.check(left.lent == before, || what.clone());
                }
            }
        }
    }
}

pub fn every_length(tally: &mut Tally) {
    let mut dice = Dice::new(13);
    for automaton in drawn() {
        let all: Vec<usize> = (0..automaton.len() + 4).collect();
        lengths(tally, &mut dice, &automaton, &all);
    }
    for automaton in [named("largest"), automata::longest(), rising(8, 256, 66)] {
        let (form, drawn) = (form(&automaton).len(), automaton.len());
        let some = [0, 11, form - 1, form, form + 1, drawn - 1, drawn, drawn + 1];
        lengths(tally, &mut dice, &automaton, &some);
    }
    refused(tally, &mut dice);
}
