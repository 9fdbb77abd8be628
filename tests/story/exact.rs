//! What the writer leaves, number by number: the runs that docs/RULES.md works out by its definition of
//! the waits, the slots beside them, and answers of every length.

use crate::calls::{self, Call, Lent};
use crate::drawn::Dice;
use crate::hand::{draft, edge};
use crate::library::{self, Dropped, Exact};
use crate::rings::FREE;
use crate::table::{named, with_byte};
use crate::tally::{Judged, Tally};

const UNTOUCHED: i32 = -7;
const BEHIND: i64 = -7;
/// So many numbers more than are needed.
const MORE: usize = 9;
const ANSWERS: [usize; 8] = [0, 1, 3, 4, 7, 8, 9, 20];
const DROPPING: &str = "dropped-then-reached";

/// A name, the automaton, the run, all slots that are kept, the exact fraction and the zones dropped.
type Case = (
    &'static str,
    Vec<u8>,
    &'static [i64],
    &'static [i32],
    Exact,
    Dropped,
);

/// The first slot of a start with 0 to 5, as of document 01's A: its location, −1 and −1, its pairs.
const START: &[i32] = &[0, -1, -1, 0, 0, 0, 0, 5, 1, 0, 0];
/// Then that of location 1, from slot 0 by edge 0, at which x is reset: the same pairs.
const BOTH: &[i32] = &[
    0, -1, -1, 0, 0, 0, 0, 5, 1, 0, 0, //
    1, 0, 0, 0, 0, 0, 0, 5, 1, 0, 0,
];

/// From 0, with 0 to 5, at 4 or more to 1, with 0 to 5, resetting x; from there at 3 or more to 2, with 0 to 9.
fn between() -> Vec<u8> {
    let edges = vec![edge(0, 1, 1, &[(4, FREE.1)]), edge(1, 2, 0, &[(3, FREE.1)])];
    draft(&[&[(0, 5)], &[(0, 5)], &[(0, 9)]], edges)
}

/// By hand, the exact fraction: a guard with lo 5 of a clock that may be 0 has the threshold 5/1; of those
/// with lo 4 and lo 3 the second is the lower, and so is that with lo 2 before one with lo 5. What is
/// dropped, before B's edge, which there is the third: tests/dropped.rs.
fn cases() -> [Case; 4] {
    let (smallest, dropping) = (named("smallest"), named(DROPPING));
    [
        ("B", named("B"), &[4, 5, 0, 0], START, [5, 1], [0, 0]),
        ("start is target", smallest, &[2, 0], &[], [1, 0], [0, 0]),
        (
            "between",
            between(),
            &[6, 5, 0, 3, 1, 0],
            BOTH,
            [3, 1],
            [0, 0],
        ),
        (DROPPING, dropping, &[4, 5, 2, 0], START, [2, 1], [1, 1]),
    ]
}

/// The same run in every buffer that is long enough, in every store with enough slots.
pub fn runs(tally: &mut Tally) {
    for (name, automaton, run, slots, exact, dropped) in cases() {
        tally.must(name, &Judged::new(&automaton), run, true);
        for (more, spare) in (0..=MORE).flat_map(|more| [(more, 0), (more, 5), (more, 40)]) {
            let mut buffer = vec![BEHIND; run.len() + more];
            let mut store = vec![UNTOUCHED; slots.len() + spare];
            let reply = library::write_run_findings(&automaton, &mut store, &mut buffer);
            let expected = [run, &vec![BEHIND; more]].concat();
            let kept = [slots, &vec![UNTOUCHED; spare]].concat();
            let zones = slots.len() as u64 / START.len() as u64;
            let told = reply == Ok(([0, 0, 0, zones], exact, dropped));
            let right = told && buffer == expected && store == kept;
            tally.check(right, || {
                format!("{name}, {more} more: {reply:?}, {buffer:?}, {store:?}")
            });
        }
    }
}

/// A reply, the answer's eight numbers if there are any, and the run.
type Reply = (u32, Option<[u64; 8]>, &'static [i64]);

fn answered(tally: &mut Tally, before: &Lent, (reply, answer, run): Reply) {
    let mut after = before.clone();
    let got = calls::proved(Call::WriteRun, &mut after);
    let mut expected = before.answer.clone();
    for (place, number) in expected.iter_mut().zip(answer.into_iter().flatten()) {
        *place = number;
    }
    let mut buffer = before.run.clone();
    buffer[..run.len()].copy_from_slice(run);
    let stands = after.automaton == before.automaton && after.passes == before.passes;
    let right = got == Some(reply) && after.answer == expected && after.run == buffer && stands;
    tally.check(right, || {
        let (length, numbers) = (before.answer.len(), &after.answer);
        format!(
            "an answer of {length}: {got:?}, not {reply}, {numbers:?}, {:?}",
            after.run
        )
    });
}

/// As many numbers of an answer as are lent, none behind the eighth, and none with a refusal.
pub fn answers(tally: &mut Tally) {
    let mut dice = Dice::new(11);
    let foreign = with_byte(&named("B"), 4, 2);
    let reached = Some([0, 0, 0, 1, 5, 1, 0, 0]);
    let dropped = Some([0, 0, 0, 1, 2, 1, 1, 1]);
    let holds = Some([1, 1, 1, 1, 1, 1, 0, 0]);
    let again = Some([1, 1, 0, 1, 1, 0, 1, 0]);
    for length in ANSWERS {
        let cases: [(Vec<u8>, usize, Reply); 8] = [
            (named("B"), 4, (0, reached, &[4, 5, 0, 0])),
            (named("B"), 6, (0, reached, &[4, 5, 0, 0])),
            (named("B"), 3, (14, None, &[])),
            (named(DROPPING), 6, (0, dropped, &[4, 5, 2, 0])),
            (named(DROPPING), 3, (14, None, &[])),
            (named("A"), 6, (0, holds, &[])),
            (named("H"), 6, (0, again, &[])),
            (foreign.clone(), 6, (3, None, &[])),
        ];
        for (automaton, numbers, reply) in cases {
            let lent = Lent::new(&mut dice, &[], &automaton, 20).running(&vec![BEHIND; numbers]);
            answered(tally, &lent.answering(&mut dice, length), reply);
        }
    }
}
