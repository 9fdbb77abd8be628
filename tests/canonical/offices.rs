//! Two offices that listed one automaton's edges in different orders, the second with a repeat: as
//! drawn the fractions differ, both true; by its form there is one.

use crate::calls::{Call, Lent};
use crate::claims::Claim;
use crate::draft::{Draft, Edge, Limit, NO_UPPER};
use crate::drawn::Dice;
use crate::explorer::{Explorer, Loosening};
use crate::forms::form;
use crate::search::{search, Counts, Outcome};
use crate::small;
use crate::tally::Tally;

const FREE: Limit = (0, NO_UPPER);
const STORE: usize = 1_000;

/// Clocks x and y. Two edges stay at the start and reset y, one of them where y is 2 or more. The
/// edge to the target asks y to be at least 3 and at most 0, so that an error of 3/2 opens it.
fn edges() -> [Edge; 3] {
    let edge = |to: u8, reset: u8, y: Limit| Edge {
        from: 0,
        to,
        reset,
        guard: vec![FREE, y],
    };
    [
        edge(0, 2, FREE),
        edge(0, 2, (2, NO_UPPER)),
        edge(1, 0, (3, 0)),
    ]
}

/// The edges in an order, by their numbers above.
pub fn drawn(order: &[usize]) -> Draft {
    let edges = edges();
    Draft {
        start: 0,
        target: 1,
        invariants: vec![vec![(0, 3), (0, 9)], vec![(0, 3), (0, 5)]],
        edges: order.iter().map(|&i| edges[i].clone()).collect(),
    }
}

/// By hand: where the free loop comes first its zone contains all that the other one gives, and
/// what is left is the target's 3/2. Else both are kept, and the narrower one's own second turn, x
/// at least 4 where it is at most 3, is empty up to 1/3.
///
/// What is dropped: no zone after a loop is within the first, in which x and y are equal. North: the loops'
/// zones are kept, the narrow one before the wide one. From the narrow one the free loop gives it again.
/// From the wide one the other loop gives the narrow one again, the oldest that contains it, and the free
/// loop the wide one. South, with its repeat: the wide one is kept, then one is inside it, and it comes
/// again; from the wide one it comes again, one is inside, and it comes again. Their form has no repeat: one
/// is inside from each of the two, and the wide one comes again once.
const NORTH: Outcome = holds([1, 3], [3, 3, 0]);
const SOUTH: Outcome = holds([3, 2], [2, 3, 2]);
pub const FORM: Outcome = holds([3, 2], [2, 1, 2]);

const fn holds([n, d]: [i64; 2], [zones, again, inside]: [usize; 3]) -> Outcome {
    let counts = Counts {
        zones,
        again,
        inside,
    };
    Outcome::Holds { n, d, counts }
}

/// Kind, n, d and zones, which are all that a record has.
pub fn numbers(outcome: Outcome) -> [u64; 4] {
    match outcome.numbers() {
        Ok([kind, n, d, zones, ..]) => [kind, n, d, zones],
        Err(number) => panic!("refused {number}"),
    }
}

/// As drawn: what the second search works out, which differs, is the library's, and is true.
fn as_drawn(tally: &mut Tally, dice: &mut Dice, name: &str, draft: &Draft, expected: Outcome) {
    let automaton = draft.bytes();
    let outcome = search(&automaton, &mut [0; STORE]);
    println!("{name}: {outcome} as drawn");
    tally.check(outcome == expected, || format!("{name}: {outcome}"));
    let before = Lent::new(dice, &[], &automaton, STORE).answering(dice, 8);
    let told = tally.must(name, Call::Search, &before, 0).lent.verdict();
    tally.check(told == numbers(outcome), || format!("{name}: {told:?}"));
    let refuted = Claim::of(told).refuted(draft);
    tally.check(refuted.is_none(), || format!("{name}: {refuted:?}"));
    let at = Explorer::explored(draft, Loosening { scale: 2, error: 3 });
    tally.check(at.unsafe_run(), || format!("{name}: no run at 3/2"));
}

/// The first files; the second only looks up, and consults with no store and no free byte.
fn one_record(tally: &mut Tally, dice: &mut Dice, first: &[u8], second: &[u8]) {
    let form = form(first);
    let verdict = numbers(search(&form, &mut [0; STORE]));
    let empty = [&[0, 0, 0, 5, 1], &vec![0; 17 + form.len()][..]].concat();
    let before = Lent::new(dice, &empty, first, STORE);
    let filed = tally
        .must("the first office", Call::Consult, &before, 0)
        .lent;
    let before = Lent::new(dice, &filed.cache, second, 0);
    let found = tally
        .must("the second office", Call::LookUp, &before, 0)
        .lent;
    let told = tally
        .must("the second office", Call::Consult, &before, 0)
        .lent;
    let verdicts = [filed.verdict(), found.verdict(), told.verdict()];
    let right = verdicts == [verdict; 3] && found.filed == 1 && told.cache == filed.cache;
    tally.check(right, || format!("two offices are told {verdicts:?}"));
}

pub fn example(tally: &mut Tally, folder: &str) {
    let mut dice = Dice::new(14);
    let (north, south) = (drawn(&[1, 2, 0]), drawn(&[2, 0, 1, 0]));
    for (name, draft, outcome) in [("north", &north, NORTH), ("south", &south, SOUTH)] {
        let file = std::fs::read(format!("{folder}/{name}.card")).unwrap_or_default();
        tally.check(file == draft.bytes(), || format!("{name}.card is another"));
        as_drawn(tally, &mut dice, name, draft, outcome);
    }
    let (first, second) = (north.bytes(), south.bytes());
    let ordered = drawn(&[0, 1, 2]);
    for automaton in [&first, &second] {
        let same = form(automaton) == ordered.bytes();
        tally.check(same, || "the offices' form is another".into());
    }
    let outcome = search(&ordered.bytes(), &mut [0; STORE]);
    println!("their form: {outcome}");
    tally.check(outcome == FORM, || format!("their form: {outcome}"));
    one_record(tally, &mut dice, &first, &second);
    one_record(tally, &mut dice, &second, &first);
    let read = [small::read(&first), small::read(&second)].map(|draft| draft.bytes());
    tally.check(read == [first, second], || {
        "the offices' automata are read wrong".into()
    });
}
