//! The zones that are dropped as again and as inside, where the test knows them by hand; and searches one
//! after another, each of which begins to count at 0.

use crate::drawn::Dice;
use crate::dropped::{self, Case, Numbers};
use crate::lengths::slot;
use crate::library::{self, Findings};
use crate::tally::Tally;

fn numbers(([kind, n, d, zones], _, [again, inside]): Findings) -> Numbers {
    [kind, n, d, zones, again, inside]
}

/// The numbers of a store with just enough slots.
fn enough(case: &Case) -> usize {
    case.numbers[3] as usize * slot(&case.automaton)
}

/// The same by the writer of runs, which has a buffer for as many jumps as there are zones.
fn written(case: &Case, store: &mut [i32]) -> Result<Findings, u32> {
    let mut run = vec![0; 2 * case.numbers[3] as usize + 2];
    library::write_run_findings(&case.automaton, store, &mut run)
}

pub fn counts(tally: &mut Tally) {
    let mut dice = Dice::new(6);
    for case in dropped::all() {
        let [kind, n, d, zones, again, inside] = case.numbers;
        let expected = Ok(([kind, n, d, zones], [again, inside]));
        for more in [0, 1, 200] {
            let lent = enough(&case) + more;
            let left = tally.search(&mut dice, &case.name, &case.automaton, lent);
            tally.check(left.answer == expected, || {
                format!("{}: {:?}, not {expected:?}", case.name, left.answer)
            });
        }
        let run = written(&case, &mut vec![0; enough(&case)]).map(numbers);
        tally.check(run == Ok(case.numbers), || {
            format!("{}, with a run: {run:?}", case.name)
        });
    }
}

/// In one store: one automaton, another, which is refused first where it keeps a zone, and the one again.
pub fn one_after_another(tally: &mut Tally) {
    let cases = dropped::few();
    let most = cases.iter().map(enough).max().unwrap_or(0);
    let mut store = vec![0; most];
    for (one, other) in cases.iter().flat_map(|a| cases.iter().map(move |b| (a, b))) {
        let first = library::search_findings(&one.automaton, &mut store).map(numbers);
        let short = &mut store[..enough(other).saturating_sub(1)];
        let refused = library::search_findings(&other.automaton, short).map(numbers);
        let second = written(other, &mut store).map(numbers);
        let third = library::search_findings(&one.automaton, &mut store).map(numbers);
        let expected = [Ok(one.numbers), Ok(other.numbers), Ok(one.numbers)];
        let ten = other.numbers[3] == 0 || refused == Err(10);
        tally.check([first, second, third] == expected && ten, || {
            let (one, other) = (&one.name, &other.name);
            format!("{one}, {other}: {first:?}, {refused:?}, {second:?}, {third:?}")
        });
    }
}
