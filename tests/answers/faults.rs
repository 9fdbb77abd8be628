//! Refusals 1 to 8: two faults at once, more of them, and random bytes.

use crate::draft::{recount, Draft, Edge, NO_UPPER};
use crate::drawn::{self, Dice, Lean, Size};
use crate::tally::Tally;

const SCALE: u32 = 1_000_000;
/// How often each set of faults is made, and random bytes for each number of conditions.
const TIMES: usize = 20;
const NOISE: usize = 2_000;

enum Change {
    Fields(fn(&mut Draft)),
    Bytes(fn(&mut Vec<u8>)),
}
use Change::{Bytes, Fields};

/// A refusal's number and a way to deserve it.
type Fault = (u32, Change);

fn last(draft: &mut Draft) -> &mut Edge {
    draft.edges.last_mut().expect("an edge")
}

fn locations(draft: &Draft) -> u8 {
    draft.invariants.len() as u8
}

/// In the order in which they are made: the length field comes after the lengths, the cut last.
fn faults() -> Vec<Fault> {
    let groups = [
        (8, limits()),
        (7, resets()),
        (6, ends()),
        (5, lengths()),
        (4, counts()),
        (3, versions()),
        (2, miscounts()),
        (1, cuts()),
    ];
    let mut faults = Vec::new();
    for (number, changes) in groups {
        faults.extend(changes.into_iter().map(|change| (number, change)));
    }
    faults
}

fn limits() -> Vec<Change> {
    vec![
        Fields(|d| d.invariants[0][0].0 = SCALE + 1),
        Fields(|d| d.invariants[0][1].1 = SCALE + 1),
        Fields(|d| d.invariants[1][0].0 = NO_UPPER),
        Fields(|d| d.invariants[1][1].1 = NO_UPPER),
        Fields(|d| d.edges[0].guard[0].0 = SCALE + 1),
        Fields(|d| d.edges[0].guard[1].1 = SCALE + 1),
        Fields(|d| d.edges[0].guard[1].0 = NO_UPPER),
        Fields(|d| last(d).guard[1].1 = NO_UPPER - 1),
    ]
}

fn resets() -> Vec<Change> {
    vec![
        Fields(|d| d.edges[0].reset |= 1 << d.invariants[0].len()),
        Fields(|d| last(d).reset |= 128),
    ]
}

fn ends() -> Vec<Change> {
    vec![
        Fields(|d| d.start = locations(d)),
        Fields(|d| d.target = 255),
        Fields(|d| d.edges[0].from = 255),
        Fields(|d| last(d).to = 255),
        Fields(|d| {
            let locations = locations(d);
            last(d).to = locations;
        }),
    ]
}

/// The bytes are counted right, and are not those of the formula.
fn lengths() -> Vec<Change> {
    vec![
        Bytes(|b| {
            b.pop();
            recount(b);
        }),
        Bytes(|b| {
            b.push(0);
            recount(b);
        }),
        // As many bytes as another edge has.
        Bytes(|b| {
            let edge = 3 + 8 * usize::from(b[5]);
            b.extend(vec![0; edge]);
            recount(b);
        }),
        Bytes(|b| b[10] += 1),
        Bytes(|b| {
            let edge = 3 + 8 * usize::from(b[5]);
            b.truncate(b.len() - edge);
            recount(b);
        }),
    ]
}

/// Fields that the length goes along with, and bytes that it does not.
fn counts() -> Vec<Change> {
    vec![
        Fields(|d| d.edges.resize(257, d.edges[0].clone())),
        Fields(|d| d.invariants.resize(65, d.invariants[0].clone())),
        Fields(|d| {
            let guards = d.edges.iter_mut().map(|e| &mut e.guard);
            for limits in guards.chain(&mut d.invariants) {
                limits.resize(9, (0, 1));
            }
        }),
        Bytes(|b| b[5] = 0),
        Bytes(|b| b[5] = 9),
        Bytes(|b| b[6] = 0),
        Bytes(|b| b[6] = 65),
        Bytes(|b| b[9] = 255),
    ]
}

fn versions() -> Vec<Change> {
    vec![
        Bytes(|b| b[4] = 0),
        Bytes(|b| b[4] = 2),
        Bytes(|b| b[4] = 255),
    ]
}

fn miscounts() -> Vec<Change> {
    vec![
        Bytes(|b| b[3] ^= 1),
        Bytes(|b| b[0] ^= 128),
        Bytes(|b| b[..4].fill(0)),
        Bytes(|b| b[..4].fill(255)),
        // The length field stays as it was.
        Bytes(|b| b.push(0)),
        Bytes(|b| b.truncate(11)),
    ]
}

/// Some with a length field that tells the bytes left.
fn cuts() -> Vec<Change> {
    vec![
        Bytes(|b| b.clear()),
        Bytes(|b| b.truncate(4)),
        Bytes(|b| b.truncate(10)),
        Bytes(|b| {
            b.truncate(10);
            recount(b);
        }),
        Bytes(|b| {
            b.truncate(5);
            recount(b);
        }),
    ]
}

/// With two of whatever a fault needs, and a clock less than there can be.
fn base(dice: &mut Dice) -> Draft {
    let size = Size {
        clocks: dice.range(2, 7),
        locations: dice.range(2, 6),
        edges: dice.range(2, 9),
    };
    drawn::drawn(dice, Lean::Plain, &size)
}

/// Makes the changes in this order.
fn damaged(mut draft: Draft, changes: &[&Change]) -> Vec<u8> {
    for change in changes {
        if let Fields(change) = change {
            change(&mut draft);
        }
    }
    let mut bytes = draft.bytes();
    for change in changes {
        if let Bytes(change) = change {
            change(&mut bytes);
        }
    }
    bytes
}

/// Each fault alone, and any two with different numbers: the smaller number is told. 7 and 8 do not
/// outlast a cut, since the bytes left have neither edges nor limits.
pub fn pairs(tally: &mut Tally, round: u64) {
    let mut dice = Dice::new(1_000 * round + 1);
    let faults = faults();
    for (at, (number, change)) in faults.iter().enumerate() {
        let automaton = damaged(base(&mut dice), &[change]);
        tally.refuse(&mut dice, "a fault", &automaton, *number);
        for (smaller, other) in faults[at + 1..].iter().filter(|(n, _)| n < number) {
            let automaton = damaged(base(&mut dice), &[change, other]);
            let what = format!("faults {smaller} and {number}");
            tally.refuse(&mut dice, &what, &automaton, *smaller);
        }
    }
}

/// Any set of numbers, each with a fault: the smallest is told; without one the automaton is
/// accepted.
pub fn subsets(tally: &mut Tally, round: u64) {
    let mut dice = Dice::new(1_000 * round + 2);
    let faults = faults();
    for turn in 0..256 * TIMES {
        let numbers: Vec<u32> = (1..=8).filter(|n| turn >> (n - 1) & 1 == 1).collect();
        let mut changes = Vec::new();
        for number in numbers.iter().rev() {
            let deserve: Vec<&Fault> = faults.iter().filter(|f| f.0 == *number).collect();
            changes.push(&dice.pick(&deserve).1);
        }
        let automaton = damaged(base(&mut dice), &changes);
        let smallest = numbers.first().copied().unwrap_or(0);
        let what = format!("faults {numbers:?}");
        tally.refuse(&mut dice, &what, &automaton, smallest);
    }
}

/// Random bytes whose first conditions are met, as many as told.
fn noise(dice: &mut Dice, met: u32) -> Vec<u8> {
    let length = if met < 1 {
        dice.below(11)
    } else {
        11 + dice.below(100)
    };
    let mut bytes: Vec<u8> = (0..length).map(|_| dice.range(0, 255) as u8).collect();
    let (clocks, locations, edges) = (dice.range(1, 8), dice.range(1, 5), dice.range(0, 4));
    if met >= 3 {
        bytes[4] = 1;
    }
    if met >= 4 {
        bytes[5..7].copy_from_slice(&[clocks as u8, locations as u8]);
        bytes[9..11].copy_from_slice(&[0, edges as u8]);
    }
    if met >= 5 {
        let length = 11 + 8 * clocks * locations + edges * (3 + 8 * clocks);
        bytes.resize_with(length as usize, || dice.range(0, 255) as u8);
    }
    if met >= 6 {
        tame(&mut bytes, met);
    }
    if met >= 2 {
        recount(&mut bytes);
    }
    bytes
}

/// Makes numbers of four bytes limits on scale.
fn put_on_scale(numbers: &mut [u8]) {
    for number in numbers.chunks_mut(4) {
        let any = number.iter().fold(0, |n, &b| n << 8 | u32::from(b));
        number.copy_from_slice(&(any % (SCALE + 1)).to_be_bytes());
    }
}

/// Meets conditions 6 to 8, as far as told.
fn tame(bytes: &mut [u8], met: u32) {
    let (clocks, locations) = (bytes[5], bytes[6]);
    let row = 8 * usize::from(clocks);
    let (head, limits) = bytes.split_at_mut(11);
    let (invariants, edges) = limits.split_at_mut(row * usize::from(locations));
    head[7..9].iter_mut().for_each(|l| *l %= locations);
    for edge in edges.chunks_mut(3 + row) {
        edge[..2].iter_mut().for_each(|l| *l %= locations);
        if met >= 7 {
            edge[2] &= 255 >> (8 - clocks);
        }
        if met >= 8 {
            put_on_scale(&mut edge[3..]);
        }
    }
    if met >= 8 {
        put_on_scale(invariants);
    }
}

pub fn random_bytes(tally: &mut Tally, round: u64) {
    let mut dice = Dice::new(1_000 * round + 3);
    for turn in 0..9 * NOISE {
        let met = turn as u32 % 9;
        let automaton = noise(&mut dice, met);
        let what = format!("random bytes that meet {met} conditions");
        let left = tally.search(&mut dice, &what, &automaton, 500);
        let later = left.answer.map_or_else(|number| number > met, |_| met == 8);
        tally.check(later, || format!("{what}: {:?}", left.answer));
    }
}
