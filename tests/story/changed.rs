//! Runs with some numbers changed, cut or followed by others: both judges must say the same of them.

use crate::drawn::Dice;
use crate::library;
use crate::mazes;
use crate::search::{self, Outcome};
use crate::tally::{Judged, Tally, DOES_NOT, PASSES};
use crate::waits;

const MAZES: usize = 250;
/// So many of them must be reached: each has a run, so that the others end in 9 or 10.
const REACHED: usize = 200;
const CHANGED: &str = "one number changed";
const CUT: &str = "cut";
const MOVED: &str = "moved";
const STORE: usize = 16_384;
const OTHERS: [i64; 9] = [
    -1,
    0,
    1,
    1_000_000,
    1_000_001,
    1 << 32,
    i64::MAX,
    i64::MAX - 1_000_000,
    i64::MIN,
];

fn label(part: &str, outcome: &str) -> String {
    format!("{part}, {outcome}")
}

/// What is to be met. No beginning of a run passes: a maze's target is entered last.
pub fn labels() -> [String; 5] {
    [
        label(CHANGED, PASSES),
        label(CHANGED, DOES_NOT),
        label(CUT, DOES_NOT),
        label(MOVED, PASSES),
        label(MOVED, DOES_NOT),
    ]
}

fn judge(tally: &mut Tally, part: &str, what: &str, automaton: &Judged, buffer: &[i64]) {
    let passes = tally.judge(&format!("{what}, {part}"), automaton, buffer);
    tally.meet(label(part, if passes { PASSES } else { DOES_NOT }));
}

/// One number changed, at each place.
fn singly(tally: &mut Tally, what: &str, automaton: &Judged, run: &[i64]) {
    let edges = automaton.judge.edges.len() as i64;
    for place in 0..run.len() {
        let there = run[place];
        let near = [there + 1, there - 1, -there, there + 2, there - 2];
        let far = [there + edges, edges - 1, edges, there + (1 << 32)];
        let others = [&near[..], &far, &OTHERS].concat();
        for other in others.into_iter().filter(|other| *other != there) {
            let mut changed = run.to_vec();
            changed[place] = other;
            judge(tally, CHANGED, what, automaton, &changed);
        }
    }
}

/// Each beginning, also with a count that goes with it; and odd counts, with numbers behind them.
fn cut(tally: &mut Tally, dice: &mut Dice, what: &str, automaton: &Judged, run: &[i64]) {
    for length in 0..run.len() {
        let mut cut = run[..length].to_vec();
        tally.must(what, automaton, &cut, false);
        if let Some(count) = cut.first_mut() {
            *count = length as i64;
            judge(tally, CUT, what, automaton, &cut);
        }
    }
    let mut longer = run.to_vec();
    for _ in 0..5 {
        longer.push(dice.pick(&[0, 1, -1, i64::MAX, i64::MIN]));
        tally.must(what, automaton, &longer, true);
        for count in [
            run.len() as i64 - 1,
            run.len() as i64 + 1,
            longer.len() as i64,
        ] {
            let mut counted = longer.clone();
            counted[0] = count;
            judge(tally, CUT, what, automaton, &counted);
        }
    }
}

/// What was moved may be where it was.
fn judge_if_new(tally: &mut Tally, what: &str, automaton: &Judged, run: &[i64], moved: &[i64]) {
    if moved != run {
        judge(tally, MOVED, what, automaton, moved);
    }
}

/// Time taken from one wait and given to another, which often leaves a run, and two jumps exchanged.
fn moved(tally: &mut Tally, dice: &mut Dice, what: &str, automaton: &Judged, run: &[i64]) {
    let waits = run.len() / 2;
    for _ in 0..20 {
        let mut changed = run.to_vec();
        let time = dice.pick(&[1, 1, 2, 5]);
        changed[1 + 2 * dice.below(waits)] += time;
        changed[1 + 2 * dice.below(waits)] -= time;
        judge_if_new(tally, what, automaton, run, &changed);
        if waits > 1 {
            let mut changed = run.to_vec();
            changed.swap(2 + 2 * dice.below(waits - 1), 2 + 2 * dice.below(waits - 1));
            judge_if_new(tally, what, automaton, run, &changed);
        }
    }
}

/// The maze's own run, the library's, and those of the search's branch with the earliest and the latest
/// jumps: all of them pass. A maze has a run at no error, so that it never holds.
fn runs(tally: &mut Tally, what: &str, automaton: &Judged, own: Vec<i64>) -> Vec<Vec<i64>> {
    let mut store = vec![0; STORE];
    let (outcome, branch) = search::search_with_branch(&automaton.bytes, &mut store);
    let branch = match (outcome, branch) {
        (Outcome::Reached { .. }, Some(branch)) => branch,
        (outcome, _) => {
            let refused = matches!(outcome, Outcome::Refused(9 | 10));
            tally.check(refused, || format!("{what}: a run, and yet {outcome:?}"));
            return vec![own];
        }
    };
    let mut written = vec![0; 2 * branch.len() + 2];
    let reply = library::write_run(&automaton.bytes, &mut store, &mut written);
    tally.check(matches!(reply, Ok([0, ..])), || {
        format!("{what}: the writer gives {reply:?}")
    });
    let ends = waits::runs(&automaton.judge, &branch);
    tally.check(ends.is_some(), || {
        format!("{what}: no run along the branch")
    });
    let ends = ends.map_or(Vec::new(), |ends| ends.to_vec());
    [vec![own, written], ends].concat()
}

pub fn random(tally: &mut Tally, round: u64) {
    let mut dice = Dice::new(1_000 * round + 2);
    let mut reached = 0;
    for turn in 0..MAZES {
        let what = format!("maze {turn} of round {round}");
        let maze = mazes::drawn(&mut dice, 10);
        let automaton = Judged::new(&maze.draft.bytes());
        let runs = runs(tally, &what, &automaton, maze.run);
        reached += usize::from(runs.len() > 1);
        for run in runs {
            tally.must(&what, &automaton, &run, true);
            singly(tally, &what, &automaton, &run);
            cut(tally, &mut dice, &what, &automaton, &run);
            moved(tally, &mut dice, &what, &automaton, &run);
        }
    }
    tally.check(reached >= REACHED, || {
        format!("only {reached} mazes of round {round} are reached")
    });
}
