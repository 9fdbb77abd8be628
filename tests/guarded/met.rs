//! How often each reply was met, since calls that are all turned down alike would show little.

use crate::calls::{Call, Lent};
use crate::checks::Checks;
use crate::damage::accepted;
use crate::forms::form;
use std::collections::BTreeMap;

const LEAST: usize = 40;

/// The replies to be met. Not 9: 65,535 zones have to be kept before it (tests/cache and tests/story have it).
const POSSIBLE: [(Call, &[u32]); 9] = [
    (Call::Refusal, &[0, 1, 2, 3, 4, 5, 6, 7, 8]),
    (Call::Canonical, &[0, 1, 2, 3, 4, 5, 6, 7, 8, 13]),
    (Call::Search, &[0, 1, 2, 3, 4, 5, 6, 7, 8, 10]),
    (Call::WriteRun, &[0, 1, 2, 3, 4, 5, 6, 7, 8, 10, 14]),
    (Call::Judge, &[0, 1, 2, 3, 4, 5, 6, 7, 8]),
    (Call::MakeEmpty, &[0, 12]),
    (Call::Sound, &[0, 11]),
    (Call::LookUp, &[0, 1, 2, 3, 4, 5, 6, 7, 8, 11, 13]),
    (Call::Consult, &[0, 1, 2, 3, 4, 5, 6, 7, 8, 10, 11, 12, 13]),
];

/// What else is to be met: a slice of length 0, an automaton that is filed or comes to be, one that
/// is not its own form, in a cache too, a buffer with no byte more than the form, a run that is
/// written, passes or does not, also one whose count is past its buffer, zones that are dropped.
const OTHERS: [&str; 20] = [
    "Refusal, no automaton",
    "Search, no store",
    "Sound, no cache",
    "LookUp, filed",
    "Consult, filed now",
    "Consult, filed now, no answer",
    "Canonical, no form",
    "Canonical, another order or a repeat",
    "Canonical, no byte more",
    "Sound, another order",
    "WriteRun, no run",
    "WriteRun, a run",
    "WriteRun, no number more",
    "Judge, no run",
    "Judge, passes",
    "Judge, passes and is followed",
    "Judge, a count past the buffer",
    "Judge, does not pass",
    "Search, again",
    "Search, inside",
];

/// Whether the first record's automaton is not its own form.
fn is_disordered(cache: &[u8]) -> bool {
    accepted(cache, 22).map_or(false, |automaton| form(automaton) != automaton)
}

fn label(call: Call, reply: u32) -> String {
    format!("{call:?} {reply}")
}

/// Which of the others a call is.
fn others(call: Call, before: &Lent, after: &Lent) -> &'static [&'static str] {
    let none = before.answer.is_empty();
    let full = after.length == after.form.len() as u64;
    match call {
        Call::Canonical if before.form.is_empty() => &OTHERS[6..7],
        Call::Canonical if after.form == before.form => &[],
        Call::Canonical if after.form.starts_with(&before.automaton) => &[],
        Call::Canonical if full => &OTHERS[7..9],
        Call::Canonical => &OTHERS[7..8],
        Call::Refusal if before.automaton.is_empty() => &OTHERS[..1],
        Call::Search if before.store.is_empty() => &OTHERS[1..2],
        Call::Search if after.answer != before.answer => dropped(&after.answer),
        Call::Sound if before.cache.is_empty() => &OTHERS[2..3],
        Call::Sound if is_disordered(&before.cache) => &OTHERS[9..10],
        Call::LookUp if after.filed == 1 => &OTHERS[3..4],
        Call::Consult if after.cache != before.cache && none => &OTHERS[4..6],
        Call::Consult if after.cache != before.cache => &OTHERS[4..5],
        Call::WriteRun if before.run.is_empty() => &OTHERS[10..11],
        Call::WriteRun if after.run == before.run => &[],
        Call::WriteRun if counts(after, |count, all| count == all) => &OTHERS[11..13],
        Call::WriteRun => &OTHERS[11..12],
        Call::Judge if before.run.is_empty() => &OTHERS[13..14],
        Call::Judge if after.passes == 1 && counts(before, |count, all| count < all) => {
            &OTHERS[14..16]
        }
        Call::Judge if after.passes == 1 => &OTHERS[14..15],
        Call::Judge if after.passes > 1 => &[],
        Call::Judge if counts(before, |count, all| count > all) => &OTHERS[16..18],
        Call::Judge => &OTHERS[17..18],
        _ => &[],
    }
}

/// What a search dropped, where it was lent the places that tell it.
fn dropped(answer: &[u64]) -> &'static [&'static str] {
    match answer.get(6..8) {
        None | Some([0, 0]) => &[],
        Some([_, 0]) => &OTHERS[18..19],
        Some([0, _]) => &OTHERS[19..20],
        Some(_) => &OTHERS[18..20],
    }
}

/// How the count that a buffer begins with goes with the numbers that are lent.
fn counts(lent: &Lent, is_so: fn(i64, i64) -> bool) -> bool {
    is_so(lent.run[0], lent.run.len() as i64)
}

#[derive(Default)]
pub struct Met(BTreeMap<String, usize>);

impl Met {
    pub fn count(&mut self, call: Call, reply: Option<u32>, before: &Lent, after: &Lent) {
        let replied = reply.map(|reply| label(call, reply));
        let others = others(call, before, after);
        let others = others.iter().map(|other| other.to_string());
        for label in replied.into_iter().chain(others) {
            *self.0.entry(label).or_default() += 1;
        }
    }

    pub fn sum_up(&self, checks: &mut Checks) {
        println!("met: {:?}", self.0);
        let mut labels = OTHERS.map(String::from).to_vec();
        for (call, replies) in POSSIBLE {
            labels.extend(replies.iter().map(|&reply| label(call, reply)));
        }
        for label in labels {
            let times = self.0.get(&label).copied().unwrap_or(0);
            checks.check(times >= LEAST, || format!("only {times} times {label}"));
        }
    }
}
