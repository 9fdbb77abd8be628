//! What failed, what was met, and one buffer by both judges.

use crate::checks::Checks;
use crate::judge::Judge;
use crate::library;
use std::collections::BTreeMap;
use std::process::ExitCode;

/// A test in which a case hardly occurs would say little about it.
const LEAST: usize = 40;
pub const PASSES: &str = "passes";
pub const DOES_NOT: &str = "does not pass";

#[derive(Default)]
pub struct Tally {
    checks: Checks,
    met: BTreeMap<String, usize>,
}

/// An automaton that is free of 1 to 8, as both judges take it.
pub struct Judged {
    pub bytes: Vec<u8>,
    pub judge: Judge,
}

impl Judged {
    pub fn new(bytes: &[u8]) -> Judged {
        Judged {
            bytes: bytes.to_vec(),
            judge: Judge::of(bytes),
        }
    }
}

impl Tally {
    pub fn check(&mut self, ok: bool, otherwise: impl Fn() -> String) {
        self.checks.check(ok, otherwise);
    }

    pub fn meet(&mut self, label: impl Into<String>) {
        *self.met.entry(label.into()).or_default() += 1;
    }

    /// Both judges must say the same of a buffer. Gives back what the second says.
    pub fn judge(&mut self, what: &str, automaton: &Judged, buffer: &[i64]) -> bool {
        let expected = automaton.judge.passes(buffer);
        let got = library::judge(&automaton.bytes, buffer);
        self.check(got == Ok(expected), || {
            let first = &buffer[..buffer.len().min(40)];
            let bytes = &automaton.bytes;
            format!("{what}: {got:?}, not {expected}, of {first:?}\n  automaton {bytes:02x?}")
        });
        self.meet(if expected { PASSES } else { DOES_NOT });
        expected
    }

    /// The same where the test knows what must be said.
    pub fn must(&mut self, what: &str, automaton: &Judged, buffer: &[i64], passes: bool) {
        let said = self.judge(what, automaton, buffer);
        self.check(said == passes, || {
            let first = &buffer[..buffer.len().min(40)];
            format!("{what}: the second judge says {said} of {first:?}")
        });
    }

    /// Asks that all of the labels were met.
    pub fn sum_up(mut self, labels: Vec<String>) -> ExitCode {
        println!("{:?}", self.met);
        for label in labels {
            let times = self.met.get(&label).copied().unwrap_or(0);
            self.check(times >= LEAST, || format!("only {times} times {label}"));
        }
        self.checks.sum_up()
    }
}
