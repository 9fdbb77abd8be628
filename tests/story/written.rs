//! What the writer gives back and leaves: the bare search's answer and store, and where the target is
//! reached a run along the search's branch, or 14.

use crate::automata;
use crate::borders;
use crate::calls::{self, Call, Lent};
use crate::draft::Draft;
use crate::drawn::{self, Dice, Lean, Size};
use crate::forms;
use crate::lengths::slot;
use crate::mazes;
use crate::search;
use crate::spoilt::spoilt;
use crate::table::{self, named};
use crate::tally::{Judged, Tally};

const SHORT: u32 = 14;
const AUTOMATA: usize = 3_000;
const SPOILT: usize = 600;
const STORE: usize = 16_384;
/// Up to so many jumps buffers of every length are lent, else those around the run's.
const ALL: usize = 8;
const UNREACHED: [usize; 4] = [0, 1, 2, 30];
pub const RUN: &str = "WriteRun 0, a run";
pub const HOLDS: &str = "WriteRun 0, holds";
pub const RUN_AGAIN: &str = "WriteRun 0, a run, again";
pub const RUN_INSIDE: &str = "WriteRun 0, a run, inside";
/// The kinds of automata for which a store with a number too few must be met.
pub const NARROW: [&str; 4] = ["plain", "guarded", "wheel", "maze"];

/// What the search replies and leaves, by the library, and the branch of the second search.
pub struct Searched {
    pub reply: u32,
    lent: Lent,
    pub branch: Option<Vec<usize>>,
}

fn random_numbers(dice: &mut Dice, count: usize) -> Vec<i64> {
    let number = |_| i64::from(dice.range(1, u32::MAX)) << dice.range(0, 31);
    (0..count).map(number).collect()
}

/// The run's own numbers, 2k + 2 for k jumps.
fn count(branch: &[usize]) -> usize {
    2 * branch.len() + 2
}

/// Whether the buffer has a run along these edges, and behind it what was there.
fn is_written(automaton: &Judged, branch: &[usize], before: &[i64], after: &[i64]) -> bool {
    let count = count(branch);
    let (run, behind) = after.split_at(count);
    let mut jumps = run[2..].iter().step_by(2).zip(branch);
    run[0] == count as i64
        && jumps.all(|(number, edge)| *number == *edge as i64)
        && behind == &before[count..]
        && automaton.judge.passes(run)
        && automaton.judge.passes(after)
}

/// Both searches on equal stores must reply and leave the same.
pub fn searched(tally: &mut Tally, what: &str, before: &Lent) -> Searched {
    let (mut ours, mut lent) = (before.clone(), before.clone());
    let reply = calls::expected(Call::Search, &mut lent);
    let got = calls::proved(Call::Search, &mut ours);
    tally.check(got == Some(reply) && ours == lent, || {
        let bytes = &before.automaton;
        format!("{what}: the search gives {got:?}, not {reply}, or leaves another\n  {bytes:02x?}")
    });
    let mut store = before.store.clone();
    let branch = search::search_with_branch(&before.automaton, &mut store).1;
    Searched {
        reply,
        lent,
        branch,
    }
}

/// The library's judge passes what its writer left, and changes nothing else. Beside such a run what was
/// dropped is to be met, where the answer has a place for it.
fn passes(tally: &mut Tally, what: &str, written: &Lent) {
    for (place, label) in [(6, RUN_AGAIN), (7, RUN_INSIDE)] {
        if matches!(written.answer.get(place), Some(1..)) {
            tally.meet(label);
        }
    }
    let mut after = written.clone();
    let reply = calls::proved(Call::Judge, &mut after);
    let expected = Lent {
        passes: 1,
        ..written.clone()
    };
    tally.check(reply == Some(0) && after == expected, || {
        let (passes, run) = (after.passes, &written.run);
        format!("{what}: the judge gives {reply:?} and {passes} of {run:?}")
    });
}

/// Gives back what the writer left, if that is a run.
pub fn write(tally: &mut Tally, what: &str, before: &Lent, searched: &Searched) -> Option<Lent> {
    let mut after = before.clone();
    let got = calls::proved(Call::WriteRun, &mut after);
    let mut left = Lent {
        run: before.run.clone(),
        ..searched.lent.clone()
    };
    let (reply, run) = match &searched.branch {
        Some(branch) if before.run.len() < count(branch) => {
            left.answer = before.answer.clone();
            (SHORT, None)
        }
        Some(branch) => (0, Some(branch)),
        None => (searched.reply, None),
    };
    let written = run.map_or(false, |branch| {
        let automaton = Judged::new(&before.automaton);
        is_written(&automaton, branch, &before.run, &after.run)
    });
    if run.is_some() {
        left.run = after.run.clone();
    }
    match (reply, run) {
        (0, Some(_)) => tally.meet(RUN),
        (0, None) => tally.meet(HOLDS),
        _ => tally.meet(format!("WriteRun {reply}")),
    }
    let right = got == Some(reply) && after == left && written == run.is_some();
    tally.check(right, || {
        let (bytes, run, lent) = (&before.automaton, &after.run, before.run.len());
        format!("{what}: {got:?}, not {reply}, with {lent} numbers {run:?}\n  {bytes:02x?}")
    });
    if !written {
        return None;
    }
    passes(tally, what, &after);
    Some(after)
}

fn lengths(branch: &Option<Vec<usize>>) -> Vec<usize> {
    match branch {
        None => UNREACHED.to_vec(),
        Some(branch) if branch.len() <= ALL => (0..=count(branch) + 2).collect(),
        Some(branch) => {
            let count = count(branch);
            let near = [count - 2, count - 1, count, count + 1, count + 2];
            [&[0, 1, 2, count / 2], &near[..]].concat()
        }
    }
}

/// Buffers of many lengths; then once more, with the zones and the run that stand there by now. Gives
/// back the search's reply.
pub fn every_length(
    tally: &mut Tally,
    dice: &mut Dice,
    what: &str,
    automaton: &[u8],
    store: usize,
) -> u32 {
    let before = Lent::new(dice, &[], automaton, store);
    let searched = searched(tally, what, &before);
    let mut last = None;
    for length in lengths(&searched.branch) {
        let what = format!("{what}, a buffer of {length}, a store of {store}");
        let before = before.clone().running(&random_numbers(dice, length));
        last = write(tally, &what, &before, &searched).or(last);
    }
    if let Some(branch) = &searched.branch {
        let zones = searched.lent.verdict()[3];
        tally.check(branch.len() as u64 <= zones, || {
            format!("{what}: {} jumps and {zones} zones", branch.len())
        });
        tally.meet(format!("{} clocks", automaton[5]));
        let jumps = match branch.len() {
            jumps @ 0..=3 => jumps.to_string(),
            4..=9 => "4 to 9".into(),
            _ => "10 or more".into(),
        };
        tally.meet(format!("{jumps} jumps"));
    }
    if let Some(last) = last {
        write(tally, &format!("{what}, again"), &last, &searched);
    }
    searched.reply
}

pub fn narrow_label(kind: &str) -> String {
    format!("a number too few, {kind}")
}

/// Stores with just enough slots, and with a number too few: 10 comes before 14, and the buffer stands.
fn narrow(tally: &mut Tally, dice: &mut Dice, what: &str, kind: &str, automaton: &[u8]) {
    let mut store = vec![0; STORE];
    let outcome = search::search(automaton, &mut store);
    if let Ok([_, _, _, zones, ..]) = outcome.numbers() {
        let exact = zones as usize * slot(automaton);
        let reply = every_length(tally, dice, what, automaton, exact);
        tally.check(reply == 0, || format!("{what}: {reply} of {zones} slots"));
        if exact > 0 {
            let reply = every_length(tally, dice, what, automaton, exact - 1);
            tally.check(reply == 10, || format!("{what}: {reply}, not 10"));
            tally.meet(narrow_label(kind));
        }
    }
}

/// What `sound` draws at this turn.
fn kind(turn: usize) -> &'static str {
    match turn % 10 {
        0..=1 => "plain",
        2 => "calm",
        3 => "guarded",
        4 => "wheel",
        5 => "borders",
        _ => "maze",
    }
}

fn sound(dice: &mut Dice, turn: usize) -> Draft {
    let size = Size::drawn(dice);
    match turn % 10 {
        0..=1 => drawn::drawn(dice, Lean::Plain, &size),
        2 => drawn::drawn(dice, Lean::Calm, &size),
        3 => drawn::drawn(dice, Lean::Guarded, &size),
        4 => drawn::drawn(dice, Lean::Wheel, &size),
        5 => borders::drawn(dice),
        6 => mazes::drawn(dice, 60).draft,
        _ => mazes::drawn(dice, 12).draft,
    }
}

pub fn random(tally: &mut Tally, round: u64) {
    let mut dice = Dice::new(1_000 * round + 1);
    for turn in 0..AUTOMATA {
        let what = format!("automaton {turn} of round {round}");
        let mut automaton = sound(&mut dice, turn).bytes();
        if turn % 7 == 0 {
            // Of edges that are there twice the first is taken.
            automaton = automata::shuffled(&mut dice, &automaton);
        }
        every_length(tally, &mut dice, &what, &automaton, STORE);
        if turn % 3 == 0 {
            narrow(tally, &mut dice, &what, kind(turn), &automaton);
        }
    }
    for turn in 0..SPOILT {
        let what = format!("spoilt automaton {turn} of round {round}");
        let draft = sound(&mut dice, turn);
        let automaton = spoilt(&mut dice, draft);
        every_length(tally, &mut dice, &what, &automaton, STORE);
    }
}

/// Document 01's automata, and those that are turned down by each of 1 to 8.
pub fn documents(tally: &mut Tally) {
    let mut dice = Dice::new(3);
    for (name, automaton) in table::automata() {
        every_length(tally, &mut dice, name, &automaton, STORE);
        every_length(tally, &mut dice, name, &automaton, 0);
    }
    // Case I's limits.
    for (name, store) in [("A", 10), ("A", 11), ("B", 10), ("B", 11)] {
        every_length(tally, &mut dice, name, &named(name), store);
    }
    // With its edges turned round the way to the target has the numbers 193 to 255.
    let largest = named("largest");
    let (head, mut edges) = forms::parts(&largest);
    edges.reverse();
    let turned = forms::joined(head, &edges);
    every_length(tally, &mut dice, "the largest, turned", &turned, STORE);
    for (number, automaton) in automata::refused() {
        let what = format!("refused {number}");
        every_length(tally, &mut dice, &what, &automaton, STORE);
    }
}
