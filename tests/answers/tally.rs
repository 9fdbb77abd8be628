//! One search by the library and by the second search, what failed, and which answers were met.

use crate::account;
use crate::checks::Checks;
use crate::drawn::Dice;
use crate::library::{self, robustness_refusal, Dropped, Findings, Verdict};
use crate::oracle::{self, End};
use std::collections::BTreeMap;
use std::process::ExitCode;

/// A comparison in which an answer hardly occurs would say little about it.
const LEAST: usize = 100;
/// Numbers past the lent ones, to see that they stand.
const PAST: usize = 8;
/// What a buffer for a run has before.
const RUN: [i64; 9] = [2, 0, -7, 5, i64::MAX, i64::MIN, 0, 1, 77];
pub const LARGE: &str = "n from 900,000 on";
pub const BELOW: &str = "holds, the exact fraction below the safe one";
pub const REACHED_EXACT: &str = "reached, an exact fraction n/d";
pub const AGAIN: &str = "again";
pub const INSIDE: &str = "inside";
pub const BOTH: &str = "again and inside";
pub const REACHED_AGAIN: &str = "reached, again";
pub const REACHED_INSIDE: &str = "reached, inside";

pub type Answer = Result<(Verdict, Dropped), u32>;

/// What the second search leaves, and what it was lent and the numbers past that were before.
pub struct Left {
    pub answer: Answer,
    pub before: Vec<i32>,
    pub store: Vec<i32>,
}

#[derive(Default)]
pub struct Tally {
    checks: Checks,
    met: BTreeMap<String, usize>,
}

/// What the second search tells.
fn findings(end: &End) -> Result<Findings, u32> {
    let [kind, n, d, zones, again, inside] = end.outcome.numbers()?;
    let exact = [end.exact.0 as u64, end.exact.1 as u64];
    Ok(([kind, n, d, zones], exact, [again, inside]))
}

/// What the fractions and the counts are to be met as, beside the kind of a verdict.
fn labels(([kind, n, d, _], exact, [again, inside]): Findings) -> Vec<&'static str> {
    let reached = kind == 0;
    let met = [
        (REACHED_EXACT, reached && exact[1] > 0),
        (BELOW, !reached && exact != [n, d]),
        (LARGE, n >= 900_000),
        (AGAIN, again > 0),
        (INSIDE, inside > 0),
        (BOTH, again > 0 && inside > 0),
        (REACHED_AGAIN, reached && again > 0),
        (REACHED_INSIDE, reached && inside > 0),
    ];
    let met = met.into_iter().filter(|(_, met)| *met);
    met.map(|(label, _)| label).collect()
}

fn kind(answer: Answer) -> String {
    match answer {
        Ok(([0, ..], _)) => "reached".into(),
        Ok(([_, _, 0, _], _)) => "holds any".into(),
        Ok(_) => "holds n/d".into(),
        Err(number) => format!("refused {number}"),
    }
}

impl Tally {
    pub fn check(&mut self, ok: bool, otherwise: impl Fn() -> String) {
        self.checks.check(ok, otherwise);
    }

    pub fn meet(&mut self, label: String) {
        *self.met.entry(label).or_default() += 1;
    }

    /// Lends both searches an equal store of random numbers and compares their answers, with the exact
    /// fraction and the counts beside each verdict, and all that they leave. Gives back the second
    /// search's side, so that what follows does not build on a failure.
    pub fn search(&mut self, dice: &mut Dice, what: &str, automaton: &[u8], lent: usize) -> Left {
        let number = |_| dice.range(1, u32::MAX) as i32;
        let before: Vec<i32> = (0..lent + PAST).map(number).collect();
        let (mut ours, mut store) = (before.clone(), before.clone());
        let got = library::search_findings(automaton, &mut ours[..lent]);
        let end = oracle::end(automaton, &mut store[..lent]);
        let told = findings(&end);
        let differs = (0..ours.len()).find(|&i| ours[i] != store[i]);
        self.check(got == told && differs.is_none(), || {
            format!(
                "{what}: {got:?}, not {told:?}, the store of {lent} differs at {differs:?}\n  \
                 automaton {automaton:02x?}"
            )
        });
        if let Ok(findings) = got {
            let (counted, entered) = account::of(automaton, &ours, findings, &end);
            self.check(entered == Some(counted), || {
                format!("{what}: {counted} zones of {entered:?}\n  automaton {automaton:02x?}")
            });
        }
        let answer = told.map(|(verdict, _, dropped)| (verdict, dropped));
        self.meet(kind(answer));
        for label in told.map_or(Vec::new(), labels) {
            self.meet(label.into());
        }
        Left {
            answer,
            before,
            store,
        }
    }

    /// The same, by all functions that tell refusals of an automaton alone, where the test knows the
    /// number: 1 to 8, or 0 for none.
    pub fn refuse(&mut self, dice: &mut Dice, what: &str, automaton: &[u8], number: u32) {
        let left = self.search(dice, what, automaton, 20);
        let refusal = unsafe { robustness_refusal(automaton.as_ptr(), automaton.len()) };
        let refused = number == 0 || left.answer == Err(number) && left.store == left.before;
        self.check(refused && refusal == number, || {
            format!(
                "{what}: {:?} and {refusal}, not {number}\n  automaton {automaton:02x?}",
                left.answer
            )
        });
        if number > 0 {
            self.refuse_runs(what, automaton, number, &left.before);
        }
    }

    /// The same by the writer and the judge of runs, which leave the store and the buffer.
    fn refuse_runs(&mut self, what: &str, automaton: &[u8], number: u32, before: &[i32]) {
        for length in [0, 2, 9] {
            let mut store = before.to_vec();
            let mut run = RUN[..length].to_vec();
            let written = library::write_run(automaton, &mut store, &mut run);
            let judged = library::judge(automaton, &run);
            let stands = store == before && run == RUN[..length];
            let refused = written == Err(number) && judged == Err(number);
            self.check(refused && stands, || {
                format!("{what}: {written:?} and {judged:?}, not {number}\n  automaton {automaton:02x?}")
            });
        }
    }

    /// Asks that all of the labels were met.
    pub fn sum_up(mut self, labels: Vec<String>) -> ExitCode {
        println!("{:?}", self.met);
        for label in labels {
            let times = self.met.get(&label).copied().unwrap_or(0);
            self.check(times >= LEAST, || format!("only {times} times {label}"));
        }
        self.checks.sum_up()
    }
}
