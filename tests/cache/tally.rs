//! What was compared, what failed, and which replies were met.

use crate::calls::{self, Call, Lent};
use crate::checks::Checks;
use crate::lengths;
use std::collections::BTreeMap;
use std::process::ExitCode;

/// A comparison in which a reply hardly occurs would say little about it.
const LEAST: usize = 20;

#[derive(Default)]
pub struct Tally {
    checks: Checks,
    calls: usize,
    met: BTreeMap<String, usize>,
}

/// What a call must leave.
pub struct Left {
    pub reply: u32,
    pub lent: Lent,
}

fn beginning(bytes: &[u8]) -> String {
    let first = &bytes[..bytes.len().min(80)];
    format!("{:02x?} ({} bytes)", first, bytes.len())
}

/// The first place in which two parts differ.
fn first_difference<T: PartialEq>(got: &[T], expected: &[T]) -> Option<usize> {
    (0..expected.len()).find(|&i| got.get(i) != Some(&expected[i]))
}

fn difference(before: &Lent, got: Option<u32>, ours: &Lent, left: &Left) -> String {
    format!(
        "reply {:?}, not {}; filed {}, not {}; answer {:?}, not {:?}; length {}, not {}; \
         the form's buffer of {} differs at {:?}, the cache at {:?}, the store of {} at {:?}\n  \
         cache {}\n  automaton {}",
        got,
        left.reply,
        ours.filed,
        left.lent.filed,
        ours.answer,
        left.lent.answer,
        ours.length,
        left.lent.length,
        before.form.len(),
        first_difference(&ours.form, &left.lent.form),
        first_difference(&ours.cache, &left.lent.cache),
        before.store.len(),
        first_difference(&ours.store, &left.lent.store),
        beginning(&before.cache),
        beginning(&before.automaton)
    )
}

fn kind(answer: &[u64]) -> &'static str {
    match *answer {
        [0, _, _, _, ..] => "reached",
        [_, _, 0, _, ..] => "any error",
        [_, _, _, _, ..] => "n/d",
        _ => "in part",
    }
}

/// What was done to an automaton for its form.
fn change(automaton: &[u8], left: &Lent) -> &'static str {
    match left.length as usize {
        length if length < automaton.len() => "without repeats",
        length if left.form[..length] == *automaton => "as drawn",
        _ => "sorted",
    }
}

/// The call with its reply; of a form also what it took; of an answer also its kind, and whether it
/// was filed before.
fn label(call: Call, before: &Lent, left: &Left) -> String {
    let verdict = kind(&left.lent.answer);
    match (call, left.reply) {
        (Call::Canonical, 0) => format!("Canonical {}", change(&before.automaton, &left.lent)),
        (Call::Search, 0) => format!("Search {}", verdict),
        (Call::LookUp, 0) if left.lent.filed == 0 => "LookUp not there".into(),
        (Call::LookUp, 0) => format!("LookUp {}", verdict),
        (Call::Consult, 0) if left.lent.cache == before.cache => {
            format!("Consult filed {}", verdict)
        }
        (Call::Consult, 0) => format!("Consult searched {}", verdict),
        (_, reply) => format!("{:?} {}", call, reply),
    }
}

/// Behind the label of a call that left bytes of a buffer as long as the automaton, since the form is
/// shorter.
pub const SPARE: &str = ", as many bytes as drawn";

/// Of searches that dropped a zone as again, or as inside, and were lent the place that tells it.
pub const DROPPED: [&str; 2] = ["Search, again", "Search, inside"];

fn dropped(call: Call, left: &Left) -> Vec<&'static str> {
    let told = DROPPED.into_iter().zip(left.lent.answer.iter().skip(6));
    let some = told.filter(|(_, count)| **count > 0);
    match (call, left.reply) {
        (Call::Search, 0) => some.map(|(label, _)| label).collect(),
        _ => Vec::new(),
    }
}

fn spares(before: &Lent, left: &Left) -> bool {
    let form = &left.lent.form;
    *form != before.form && form.len() == before.automaton.len() && lengths::said(form) < form.len()
}

impl Tally {
    pub fn check(&mut self, ok: bool, otherwise: impl Fn() -> String) {
        self.checks.check(ok, otherwise);
    }

    /// Counts what a test met by itself.
    pub fn meet(&mut self, label: &str, met: bool) {
        *self.met.entry(label.into()).or_default() += usize::from(met);
    }

    /// Makes a call on both sides and compares all that they leave. Gives back the second cache's
    /// side, so that what follows does not build on a failure.
    pub fn call(&mut self, what: &str, call: Call, before: &Lent) -> Left {
        let (mut ours, mut lent) = (before.clone(), before.clone());
        let reply = calls::expected(call, &mut lent);
        let got = calls::proved(call, &mut ours);
        let left = Left { reply, lent };
        self.calls += 1;
        let label = label(call, before, &left);
        self.meet(&label, true);
        if spares(before, &left) {
            self.meet(&(label + SPARE), true);
        }
        for label in dropped(call, &left) {
            self.meet(label, true);
        }
        self.check(got == Some(reply) && ours == left.lent, || {
            format!(
                "{}, {:?}: {}",
                what,
                call,
                difference(before, got, &ours, &left)
            )
        });
        left
    }

    /// The same where the test knows the reply without the second cache.
    pub fn must(&mut self, what: &str, call: Call, before: &Lent, reply: u32) -> Left {
        let left = self.call(what, call, before);
        self.check(left.reply == reply, || {
            format!(
                "{}, {:?}: the second cache replies {}, not {}",
                what, call, left.reply, reply
            )
        });
        left
    }

    /// Asks that all of the labels were met.
    pub fn sum_up(mut self, labels: Vec<String>) -> ExitCode {
        println!("{} calls: {:?}", self.calls, self.met);
        for label in labels {
            let times = self.met.get(&label).copied().unwrap_or(0);
            // Each 9 takes seconds, since 65,535 zones have to be kept before it.
            let least = if label.ends_with(" 9") { 1 } else { LEAST };
            self.check(times >= least, || format!("only {} times {}", times, label));
        }
        self.checks.sum_up()
    }
}
