//! The runs of an automaton and of its form, by visiting all states of small ones in ticks: they
//! stand in the same states, and what either's search says is true of both.

use crate::automata;
use crate::claims::Claim;
use crate::draft::{Draft, NO_UPPER};
use crate::drawn::Dice;
use crate::explorer::{Explorer, Grid, Loosening};
use crate::library::{self, Verdict};
use crate::small;
use crate::tally::Tally;
use crate::writer::is_form;

const DIFFER: &str = "another fraction of the form";
const COMPARED: &str = "states compared";
const CHANGED: &str = "states compared, not its own form";
const UNSAFE: &str = "states compared, the target among them";
/// What must be met, since large grids are left out.
pub const LABELS: [&str; 4] = [DIFFER, COMPARED, CHANGED, UNSAFE];
const TURNS: usize = 3_000;
const STORE: usize = 16_384;
/// A grid of more states is not visited.
const MOST_STATES: usize = 20_000;
/// Ticks in a time unit, and the error in ticks.
const ERRORS: [(u32, u32); 7] = [(1, 0), (1, 1), (1, 3), (2, 1), (2, 3), (3, 1), (5, 7)];

fn states(explorer: &Explorer) -> Vec<bool> {
    let grid = &explorer.grid;
    let at = |location: usize| {
        (0..grid.valuations()).map(move |place| (location as u8, grid.valuation(place)))
    };
    let all = (0..grid.locations).flat_map(at);
    all.map(|(location, valuation)| explorer.reaches(location, &valuation))
        .collect()
}

fn same_states(tally: &mut Tally, what: &str, drawn: &Draft, form: &Draft) {
    for (scale, error) in ERRORS {
        let loosening = Loosening { scale, error };
        if Grid::new(drawn, loosening).states() > MOST_STATES {
            continue;
        }
        let [a, b] = [drawn, form].map(|draft| Explorer::explored(draft, loosening));
        tally.check(states(&a) == states(&b), || {
            format!("{what}: other states at {error}/{scale}")
        });
        tally.meet(COMPARED, true);
        tally.meet(CHANGED, drawn.bytes() != form.bytes());
        tally.meet(UNSAFE, a.unsafe_run());
    }
}

/// The bare search's verdict of each, where it ends in one: of one kind, and true of both.
fn same_verdicts(tally: &mut Tally, what: &str, drawn: &Draft, form: &Draft) {
    let answers = [drawn, form].map(|a| library::search(&a.bytes(), &mut [0; STORE]));
    let verdicts: Vec<Verdict> = answers.iter().filter_map(|a| a.ok()).collect();
    let lawful = answers.iter().all(|a| a.is_ok() || *a == Err(10));
    tally.check(lawful, || format!("{what}: {answers:?}"));
    for (verdict, other) in verdicts.iter().flat_map(|v| [(*v, drawn), (*v, form)]) {
        let refuted = Claim::of(verdict).refuted(other);
        tally.check(refuted.is_none(), || {
            format!("{what}: {verdict:?} at {refuted:?}")
        });
    }
    if let [a, b] = verdicts[..] {
        tally.check(a[0] == b[0], || format!("{what}: {a:?} and {b:?}"));
        tally.meet(DIFFER, a[..3] != b[..3]);
    }
}

fn judge(tally: &mut Tally, what: &str, automaton: &[u8]) {
    let mut written = vec![0; automaton.len()];
    let length = library::canonical(automaton, &mut written).unwrap_or(0);
    let written = &written[..length];
    if !is_form(written, automaton) {
        return tally.check(false, || format!("{what}: {written:02x?} is not its form"));
    }
    let (drawn, form) = (small::read(automaton), small::read(written));
    let read = drawn.bytes() == automaton && form.bytes() == written;
    tally.check(read, || format!("{what}: it is read wrong"));
    same_states(tally, what, &drawn, &form);
    same_verdicts(tally, what, &drawn, &form);
}

/// With more edges, each beside one that has another limit of one clock: of their zones one may
/// contain the other, so that their order counts.
fn crowded(dice: &mut Dice, mut draft: Draft) -> Draft {
    for _ in 0..dice.range(1, 3) {
        let mut edge = dice.one(&draft.edges).clone();
        let clock = dice.below(edge.guard.len());
        edge.guard[clock] = (dice.range(0, 3), NO_UPPER);
        draft.edges.push(edge);
    }
    draft
}

pub fn random(tally: &mut Tally, round: u64) {
    let mut dice = Dice::new(1_000 * round + 23);
    for turn in 0..TURNS {
        let draft = match turn % 5 {
            0 => small::detour(&mut dice),
            _ => small::small(&mut dice),
        };
        let draft = if draft.edges.is_empty() {
            draft
        } else {
            crowded(&mut dice, draft)
        };
        let automaton = automata::shuffled(&mut dice, &draft.bytes());
        let what = format!("small automaton {turn} of round {round}");
        judge(tally, &what, &automaton);
    }
}
