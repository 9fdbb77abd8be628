//! Answers in places of every length: as many numbers are written as are lent, those past the
//! eighth stand, and a refusal or an automaton that is not filed writes none.

use crate::calls::{Call, Lent};
use crate::drawn::Dice;
use crate::lengths::slot_of;
use crate::oracle::Cache;
use crate::table::named;
use crate::tally::Tally;
use crate::unsound::record;

const LENGTHS: [usize; 8] = [0, 1, 3, 4, 7, 8, 9, 20];
const ROUNDS: usize = 8;
/// A zone of one clock.
const SLOT: usize = slot_of(1);
const REACHED: &str = "dropped-then-reached";

/// Kind, n, d, zones, exact n, exact d, again and inside.
type Numbers = [u64; 8];
const A: Numbers = [1, 1, 1, 1, 0, 0, 0, 0];
const B: Numbers = [0, 0, 0, 1, 0, 0, 0, 0];
const D: Numbers = [1, 1, 0, 1, 0, 0, 0, 0];
const INSIDE: Numbers = [1, 2, 1, 1, 0, 0, 0, 0];
const FILED: Numbers = [1, 4_000_000_001, 4_294_967_291, 4_294_967_295, 0, 0, 0, 0];
/// By the bare search, the exact fraction and the zones dropped too. By hand: a lo that a guard asks of a
/// clock which may be 0 is B's 5/1, document 02's 1/1, and our 2/1; of H and document 02's card one zone
/// comes again, and tests/dropped.rs works out ours.
const A_SEARCHED: Numbers = [1, 1, 1, 1, 1, 1, 0, 0];
const B_SEARCHED: Numbers = [0, 0, 0, 1, 5, 1, 0, 0];
const D_SEARCHED: Numbers = [1, 1, 0, 1, 1, 0, 0, 0];
const H_SEARCHED: Numbers = [1, 1, 0, 1, 1, 0, 1, 0];
const LOOP_SEARCHED: Numbers = [1, 1, 0, 1, 1, 1, 1, 0];
const INSIDE_SEARCHED: Numbers = [1, 2, 1, 1, 2, 1, 0, 1];
const REACHED_SEARCHED: Numbers = [0, 0, 0, 1, 2, 1, 1, 1];

/// The call; the automaton; the numbers of the store; the free bytes of the cache, or none for one
/// that is not sound; the reply, where 13 has a byte too few for the form; what is told, if
/// anything.
type Case = (
    Call,
    &'static str,
    usize,
    Option<usize>,
    u32,
    Option<Numbers>,
);

const CASES: [Case; 30] = [
    (Call::Search, "A", SLOT, None, 0, Some(A_SEARCHED)),
    (Call::Search, "B", SLOT, None, 0, Some(B_SEARCHED)),
    (Call::Search, "D", SLOT, None, 0, Some(D_SEARCHED)),
    (Call::Search, "H", SLOT, None, 0, Some(H_SEARCHED)),
    (Call::Search, "looping", SLOT, None, 0, Some(LOOP_SEARCHED)),
    (Call::Search, "inside", SLOT, None, 0, Some(INSIDE_SEARCHED)),
    (Call::Search, REACHED, SLOT, None, 0, Some(REACHED_SEARCHED)),
    (Call::Search, "J", SLOT, None, 7, None),
    (Call::Search, "A", SLOT - 1, None, 10, None),
    (Call::LookUp, "G", 0, Some(0), 0, Some(FILED)),
    (Call::LookUp, "H", 0, Some(9), 0, Some(D)),
    (Call::LookUp, "K", 0, Some(9), 0, Some(B)),
    (Call::LookUp, "A", 0, Some(0), 0, None),
    (Call::LookUp, "J", 0, Some(0), 7, None),
    (Call::LookUp, "A", 0, None, 11, None),
    (Call::LookUp, "G", 0, Some(0), 13, None),
    (Call::LookUp, "A", 0, None, 13, None),
    (Call::Consult, "G", 0, Some(0), 0, Some(FILED)),
    (Call::Consult, "A", SLOT, Some(55), 0, Some(A)),
    (Call::Consult, "B", SLOT, Some(55), 0, Some(B)),
    (Call::Consult, "D", SLOT, Some(44), 0, Some(D)),
    (Call::Consult, "looping", SLOT, Some(55), 0, Some(D)),
    (Call::Consult, "inside", SLOT, Some(55), 0, Some(INSIDE)),
    (Call::Consult, REACHED, SLOT, Some(77), 0, Some(B)),
    (Call::Consult, "J", SLOT, Some(55), 7, None),
    (Call::Consult, "A", SLOT - 1, Some(55), 10, None),
    (Call::Consult, "A", SLOT, None, 11, None),
    (Call::Consult, "A", SLOT, Some(54), 12, None),
    (Call::Consult, "G", 0, Some(0), 13, None),
    (Call::Consult, "A", SLOT - 1, Some(55), 13, None),
];

/// With a verdict that no search gives, to see that it is the filed one.
fn cache(free: Option<usize>) -> Vec<u8> {
    let records = vec![
        record(&named("G"), 1, 4_000_000_001, 4_294_967_291, u32::MAX),
        record(&named("K"), 0, 0, 0, 1),
        record(&named("H"), 1, 1, 0, 1),
    ];
    let mut bytes = Cache { records }.bytes();
    match free {
        Some(free) => bytes.resize(bytes.len() + free, 0x5a),
        None => bytes[4] = 2,
    }
    bytes
}

fn judge(tally: &mut Tally, dice: &mut Dice, length: usize, case: Case) {
    let (call, name, store, free, reply, told) = case;
    let automaton = named(name);
    let mut before = Lent::new(dice, &cache(free), &automaton, store).answering(dice, length);
    if reply == 13 {
        before = before.forming(dice, automaton.len() - 1);
    }
    let what = format!("{name}, an answer of {length}, {reply}");
    let after = tally.must(&what, call, &before, reply).lent;
    let mut answer = before.answer.clone();
    if let Some(numbers) = told {
        let written = length.min(8);
        answer[..written].copy_from_slice(&numbers[..written]);
    }
    let filed = match (call, reply) {
        (Call::LookUp, 0) => u64::from(told.is_some()),
        _ => before.filed,
    };
    tally.check((after.filed, &after.answer) == (filed, &answer), || {
        format!("{what}, {call:?}: {} and {:?}", after.filed, after.answer)
    });
}

pub fn lengths(tally: &mut Tally) {
    let mut dice = Dice::new(141);
    for length in LENGTHS.repeat(ROUNDS) {
        for case in CASES {
            judge(tally, &mut dice, length, case);
        }
    }
}
