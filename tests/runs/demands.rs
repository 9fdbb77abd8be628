//! The library's answer for one automaton, held to the runs that the explorer finds.

use crate::account;
use crate::checks::Checks;
use crate::claims::{Bound, Claim};
use crate::draft::Draft;
use crate::explorer::{Explorer, Grid, Loosening};
use crate::kept::Kept;
use crate::library::{self, Dropped, Findings};
use crate::own;
use std::collections::BTreeMap;
use std::process::ExitCode;

const STORE: usize = 16_384;
/// The states of a grid on which each of them is looked for in the kept zones.
const MOST_COMPARED: usize = 4_000;
/// Where the exact fraction isn't told the error is 0, which is below any.
const NO_ERROR: [Loosening; 3] = [no_error(1), no_error(2), no_error(3)];
const REACHED_EXACT: &str = "reached, an exact fraction n/d";
const EQUAL: &str = "holds, the safe fraction is the exact one";
const ABOVE: &str = "holds, the safe fraction is above the exact one";
const AT: &str = "a run at the safe fraction itself";
const TWICE: &str = "a run below twice the safe fraction";
const INEXACT: &str = "kept zones not exact below twice the exact fraction";
const LARGER: &str = "a zone larger than its own runs, from the exact fraction on";
const BETWEEN: &str = "a zone larger than its own runs, between the fractions";
const REACHED_LARGER: &str = "a zone larger than its own runs, reached";
const BRANCHES: &str = "zones behind another than the first";
const AGAIN: &str = "holds, again";
const INSIDE: &str = "holds, inside";
const BOTH: &str = "holds, again and inside";
const EMPTY: &str = "holds, empty zones";
/// What must be met, and how often at least, lest the checks say little.
const LEAST: [(&str, usize); 20] = [
    ("holds any", 1_000),
    ("holds n/d", 5_000),
    ("holds n/d, three zones or more", 1_000),
    ("reached", 1_000),
    ("reached, two clocks or more", 1_000),
    ("refused 10", 50),
    (REACHED_EXACT, 1_000),
    (EQUAL, 5_000),
    (ABOVE, 1_000),
    (AT, 2_000),
    (TWICE, 2_000),
    (INEXACT, 2_000),
    (LARGER, 1_000),
    (BETWEEN, 100),
    (REACHED_LARGER, 100),
    (BRANCHES, 2_000),
    (AGAIN, 1_000),
    (INSIDE, 1_000),
    (BOTH, 100),
    (EMPTY, 1_000),
];

const fn no_error(scale: u32) -> Loosening {
    Loosening { scale, error: 0 }
}

#[derive(Default)]
pub struct Tally {
    pub checks: Checks,
    met: BTreeMap<&'static str, usize>,
}

impl Tally {
    fn meet(&mut self, label: &'static str, met: bool) {
        *self.met.entry(label).or_default() += usize::from(met);
    }

    pub fn sum_up(mut self) -> ExitCode {
        println!("{:?}", self.met);
        for (label, least) in LEAST {
            let times = self.met.get(label).copied().unwrap_or(0);
            let otherwise = || format!("only {times} times: {label}");
            self.checks.check(times >= least, otherwise);
        }
        self.checks.sum_up()
    }
}

fn sort(tally: &mut Tally, automaton: &Draft, answer: Result<Findings, u32>) {
    let clocks = automaton.invariants[0].len();
    let told = answer.map(|(verdict, exact, _)| (Claim::of(verdict), verdict[3], exact));
    match told {
        Ok((Claim::Reached, _, [_, d])) => {
            tally.meet("reached", true);
            tally.meet("reached, two clocks or more", clocks > 1);
            tally.meet(REACHED_EXACT, d > 0);
        }
        Ok((Claim::Holds(safe), _, _)) if safe.is_any() => tally.meet("holds any", true),
        Ok((Claim::Holds(_), zones, _)) => {
            tally.meet("holds n/d", true);
            tally.meet("holds n/d, three zones or more", zones > 2);
        }
        Err(_) => tally.meet("refused 10", true),
    }
}

/// Beside the claim, one that is wrong: the same explorer must show that it is.
fn demand_3(tally: &mut Tally, automaton: &Draft, claim: Claim) {
    let wrong = match claim {
        Claim::Reached => Claim::Holds(Bound { n: 1, d: 1_000 }),
        _ => Claim::Reached,
    };
    for (claim, right) in [(claim, true), (wrong, false)] {
        let refuted = claim.refuted(automaton);
        tally.checks.check(refuted.is_none() == right, || {
            format!("{claim:?}: {refuted:?}\n  {:02x?}", automaton.bytes())
        });
    }
    match claim {
        Claim::Holds(safe) if !safe.is_any() => {
            let (scale, error) = (safe.d, safe.n);
            let at = Loosening { scale, error };
            tally.meet(AT, Explorer::explored(automaton, at).unsafe_run());
            let twice = Claim::Holds(safe.twice()).refuted(automaton);
            tally.meet(TWICE, twice.is_some());
        }
        _ => {}
    }
}

/// The errors whose grids are small enough for each state to be looked for.
fn feasible(automaton: &Draft, mut errors: Vec<Loosening>) -> Vec<Loosening> {
    errors.retain(|l| Grid::new(automaton, *l).states() <= MOST_COMPARED);
    errors
}

/// The differences at all of the errors that are feasible.
fn differences(automaton: &Draft, kept: &Kept, errors: Vec<Loosening>) -> (usize, usize) {
    let (mut unreached, mut missed) = (0, 0);
    for loosening in feasible(automaton, errors) {
        let found = kept.differences(&Explorer::explored(automaton, loosening));
        unreached += found.0;
        missed += found.1;
    }
    (unreached, missed)
}

/// Demand 2 for the kept zones of a location together, at errors below the exact fraction: runs reach
/// all their states and, where the search came to its end, no others.
fn demand_2(tally: &mut Tally, automaton: &Draft, kept: &Kept, errors: Vec<Loosening>, end: bool) {
    let (unreached, missed) = differences(automaton, kept, errors);
    let right = unreached == 0 && (missed == 0 || !end);
    tally.checks.check(right, || {
        let bytes = automaton.bytes();
        format!("{unreached} states unreached, {missed} missed\n  {bytes:02x?}")
    });
}

/// Demand 2 for each zone and the runs along its own edges, which the slots tell, at the same errors.
fn own_runs(tally: &mut Tally, automaton: &Draft, kept: &Kept, errors: Vec<Loosening>) {
    for loosening in feasible(automaton, errors) {
        let found = own::differences(automaton, kept, loosening);
        tally.checks.check(found == Some((0, 0)), || {
            let bytes = automaton.bytes();
            format!("{loosening:?}: {found:?} states differ from a zone's own runs\n  {bytes:02x?}")
        });
    }
    let deep = |slot: usize| kept.told(slot)[1] > 0;
    tally.meet(BRANCHES, (0..kept.zones()).any(deep));
}

/// At errors from the exact fraction on, below the safe one or not, a zone contains the states of its
/// own runs, and may have more.
fn contained(tally: &mut Tally, automaton: &Draft, kept: &Kept, claim: Claim, exact: Bound) {
    let (mut larger, mut between) = (false, false);
    for loosening in feasible(automaton, exact.errors_from()) {
        let found = own::differences(automaton, kept, loosening);
        tally.checks.check(matches!(found, Some((_, 0))), || {
            let bytes = automaton.bytes();
            format!("{loosening:?}: {found:?}, own states are missing\n  {bytes:02x?}")
        });
        let more = found.map_or(false, |(more, _)| more > 0);
        larger |= more;
        between |= more && matches!(claim, Claim::Holds(safe) if safe.is_above(loosening));
    }
    tally.meet(LARGER, larger);
    tally.meet(BETWEEN, between);
    tally.meet(REACHED_LARGER, larger && claim == Claim::Reached);
}

/// Where the automaton holds, the exact fraction is never above the safe one, and at errors below the
/// safe one runs reach no state outside the kept zones, though these may have more.
fn two_fractions(tally: &mut Tally, automaton: &Draft, kept: &Kept, safe: Bound, exact: Bound) {
    tally.checks.check(exact.is_at_most(safe), || {
        format!("{exact:?} is above {safe:?}\n  {:02x?}", automaton.bytes())
    });
    tally.meet(EQUAL, safe == exact);
    tally.meet(ABOVE, safe != exact);
    if safe != exact {
        let (_, missed) = differences(automaton, kept, safe.errors_below());
        tally.checks.check(missed == 0, || {
            let bytes = automaton.bytes();
            format!("{safe:?}: {missed} states missed\n  {bytes:02x?}")
        });
    }
    if !exact.is_any() {
        let twice = exact.twice().errors_below();
        tally.meet(INEXACT, differences(automaton, kept, twice) != (0, 0));
    }
}

/// Each zone that has entered is kept, or dropped as again, as inside or as empty.
fn accounted(tally: &mut Tally, automaton: &Draft, kept: &Kept, [again, inside]: Dropped) {
    let (all, empty) = account::entered(automaton, kept);
    let counted = kept.zones() as u64 + again + inside + empty;
    tally.checks.check(counted == all, || {
        let bytes = automaton.bytes();
        format!("{again} again, {inside} inside, {empty} empty, {all} entered\n  {bytes:02x?}")
    });
    tally.meet(AGAIN, again > 0);
    tally.meet(INSIDE, inside > 0);
    tally.meet(BOTH, again > 0 && inside > 0);
    tally.meet(EMPTY, empty > 0);
}

pub fn judge(tally: &mut Tally, automaton: &Draft) -> Result<Findings, u32> {
    let bytes = automaton.bytes();
    let mut store = vec![0; STORE];
    let answer = library::search_findings(&bytes, &mut store);
    sort(tally, automaton, answer);
    match answer {
        Ok((verdict, exact, dropped)) => {
            let (claim, exact) = (Claim::of(verdict), Bound::new(exact));
            let kept = Kept::new(automaton, &store, verdict[3] as usize);
            let (below, end) = (exact.errors_below(), claim != Claim::Reached);
            demand_3(tally, automaton, claim);
            demand_2(tally, automaton, &kept, below.clone(), end);
            own_runs(tally, automaton, &kept, below);
            contained(tally, automaton, &kept, claim, exact);
            if let Claim::Holds(safe) = claim {
                two_fractions(tally, automaton, &kept, safe, exact);
                accounted(tally, automaton, &kept, dropped);
            }
        }
        Err(number) => {
            let otherwise = || format!("refused {number}: {bytes:02x?}");
            tally.checks.check(number == 10, otherwise);
            // Every slot is filled.
            let kept = Kept::new(automaton, &store, STORE);
            demand_2(tally, automaton, &kept, NO_ERROR.to_vec(), false);
            own_runs(tally, automaton, &kept, NO_ERROR.to_vec());
        }
    }
    answer
}
