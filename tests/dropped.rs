//! Automata whose searches drop zones, with the counts that document 02's Change 5 gives them: worked out
//! by hand, from document 01's rules for pairs. And others drawn at random.

// Each program takes some of it.
#![allow(dead_code)]

use crate::draft::{Draft, Edge, Limit, NO_UPPER};
use crate::drawn::Dice;
use crate::table::named;

/// Kind, n, d, zones, again and inside.
pub type Numbers = [u64; 6];

pub struct Case {
    pub name: String,
    pub automaton: Vec<u8>,
    pub numbers: Numbers,
}

const FREE: Limit = (0, NO_UPPER);

/// Those in examples/ that have a verdict. Document 01's I is A in stores of its own; its J and K are refused,
/// and have no counts.
///
/// Of A, C and G the edge gives an empty zone, and of B, F and limit-1000000 one that meets the target:
/// neither is counted. D, E and the smallest have no edge. The resets of H and looping make all pairs
/// (0, 0), as the first zone had them, and what enters is equal to what was kept: again. So does each of
/// the 193 edges from 0 to 0 of the largest; of its others each leads to a location of its own.
///
/// Inside: (0, x) is (0, 0) in the first zone, and (−2, 1) after the guard; the other pairs are equal. That
/// test has the threshold (0 + 2)/(1 − 0). Oldest: location 1 keeps (0, x) = (−2, 1), then (0, 0), which is
/// above it. Both contain (−2, 1) as it comes once more, and the oldest is equal to it. Dropped, then
/// reached: the guard with lo 2 gives one inside, the reset one again.
const EXAMPLES: [(&str, Numbers); 16] = [
    ("A", [1, 1, 1, 1, 0, 0]),
    ("B", [0, 0, 0, 1, 0, 0]),
    ("C", [1, 1, 1, 1, 0, 0]),
    ("D", [1, 1, 0, 1, 0, 0]),
    ("E", [1, 2, 1, 0, 0, 0]),
    ("E-start-is-target", [1, 2, 1, 0, 0, 0]),
    ("F", [0, 0, 0, 1, 0, 0]),
    ("G", [1, 3, 1, 1, 0, 0]),
    ("H", [1, 1, 0, 1, 1, 0]),
    ("looping", [1, 1, 0, 1, 1, 0]),
    ("inside", [1, 2, 1, 1, 0, 1]),
    ("oldest", [1, 1, 0, 5, 1, 0]),
    ("dropped-then-reached", [0, 0, 0, 1, 1, 1]),
    ("limit-1000000", [0, 0, 0, 1, 0, 0]),
    ("smallest", [0, 0, 0, 0, 0, 0]),
    ("largest", [0, 0, 0, 63, 193, 0]),
];

fn case(name: impl Into<String>, draft: &Draft, numbers: Numbers) -> Case {
    Case {
        name: name.into(),
        automaton: draft.bytes(),
        numbers,
    }
}

fn edge(from: u8, to: u8, reset: u8, guard: &[Limit]) -> Edge {
    Edge {
        from,
        to,
        reset,
        guard: guard.to_vec(),
    }
}

/// Each location has 0 to 5 of each clock. The last is the target.
fn draft(clocks: usize, locations: u8, edges: Vec<Edge>) -> Draft {
    Draft {
        start: 0,
        target: locations - 1,
        invariants: vec![vec![(0, 5); clocks]; locations.into()],
        edges,
    }
}

/// Edges from 0 to 1 with these lo, in this order. A zone at 1 differs from another only in (0, x): it is
/// (−lo, 1), or (0, 0) for a lo of 0.
fn fan(los: &[u32]) -> Draft {
    let to_1 = |lo: &u32| edge(0, 1, 0, &[(*lo, NO_UPPER)]);
    draft(1, 3, los.iter().map(to_1).collect())
}

/// What becomes of each zone at 1:
/// - falling: each is above those before it, and kept;
/// - falling and rising: what comes a second time is within the zones of its own lo and of smaller ones, of
///   which its own is the oldest;
/// - rising: 0 is kept and comes again; 1 is inside it, with the threshold 1/1; 2 is too, and so is the
///   second 2, since the first was not kept; 3;
/// - mixed: 2 and 0 are kept; 2 is equal to the oldest, though the newer one contains it; 0 is not within
///   the oldest, and equal to the newer; 1 is inside the newer alone, with the threshold 1/1; 3 is inside
///   the oldest, with none, as both have p 1.
fn fans() -> Vec<Case> {
    vec![
        case("falling", &fan(&[3, 2, 1, 0]), [1, 1, 0, 5, 0, 0]),
        case(
            "falling and rising",
            &fan(&[3, 2, 1, 0, 0, 1, 2, 3]),
            [1, 1, 0, 5, 4, 0],
        ),
        case("rising", &fan(&[0, 0, 1, 2, 2, 3]), [1, 1, 1, 2, 1, 4]),
        case("mixed", &fan(&[2, 0, 2, 0, 1, 3]), [1, 1, 1, 3, 2, 2]),
    ]
}

/// Edges from 0 to 0 and to the target, 1.
///
/// Empty: 7 of at most 5 is empty, as in A, and counted as neither; then one again and one inside. Many:
/// all again, or all inside. At once: what follows the edge to the target is not taken. Then kept: one
/// again and one inside come before a zone at another location, so that one slot is too few after them.
fn loops() -> Vec<Case> {
    let resets = || edge(0, 0, 1, &[FREE]);
    let late = |lo: u32| edge(0, 0, 0, &[(lo, NO_UPPER)]);
    let drawn = |edges: Vec<Edge>| draft(1, 2, edges);
    let empty = drawn(vec![late(7), resets(), late(2)]);
    let leaves = || edge(0, 1, 0, &[FREE]);
    let at_once = drawn(vec![resets(), leaves(), resets()]);
    let then_kept = draft(1, 3, vec![resets(), late(2), leaves()]);
    vec![
        case("one empty", &empty, [1, 1, 1, 1, 1, 1]),
        case(
            "many again",
            &drawn(vec![resets(); 256]),
            [1, 1, 0, 1, 256, 0],
        ),
        case(
            "many inside",
            &drawn(vec![late(2); 256]),
            [1, 2, 1, 1, 0, 256],
        ),
        case("at once", &at_once, [0, 0, 0, 1, 1, 0]),
        case("then kept", &then_kept, [1, 2, 1, 2, 1, 1]),
    ]
}

/// Zones of other locations do not count. There and back, resetting: the zone at 1 has the pairs of that at
/// 0, and is kept; the third zone is at 0 again. Elsewhere: 1 keeps (0, x) = (0, 0), and 2 keeps (−2, 1);
/// then (−2, 1) comes to 1, where it is inside.
fn elsewhere() -> Vec<Case> {
    let (free, late) = ([FREE], [(2, NO_UPPER)]);
    let back = vec![edge(0, 1, 1, &free), edge(1, 0, 1, &free)];
    let other = vec![
        edge(0, 1, 0, &free),
        edge(0, 2, 0, &late),
        edge(0, 1, 0, &late),
    ];
    vec![
        case("there and back", &draft(1, 3, back), [1, 1, 0, 2, 1, 0]),
        case("elsewhere", &draft(1, 4, other), [1, 2, 1, 3, 0, 1]),
    ]
}

/// The guard of some clocks that asks this of one.
fn of_one(clocks: usize, clock: usize, limit: Limit) -> Vec<Limit> {
    let mut guard = vec![FREE; clocks];
    guard[clock] = limit;
    guard
}

/// To 3 by way of 1: the clock is 0 at first, and then another one, reset with all the rest at that
/// jump, is at most 1. So the clock comes to at most (0, 1) + (1, 1) = (1, 2). By way of 2 it is at most
/// 1 itself, (1, 1). At 3 all other clocks are reset.
fn two_ways(clocks: usize, clock: usize) -> [Edge; 4] {
    let all = ((1_u16 << clocks) - 1) as u8;
    let rest = all & !(1 << clock);
    let other = (clock + 1) % clocks;
    [
        edge(0, 1, rest, &of_one(clocks, clock, (0, 0))),
        edge(0, 2, 0, &vec![FREE; clocks]),
        edge(1, 3, rest, &of_one(clocks, other, (0, 1))),
        edge(2, 3, rest, &of_one(clocks, clock, (0, 1))),
    ]
}

/// Where one row, or one column, differs from the kept zone at 3. By `two_ways` it is the clock's row, at
/// equal m: with fewer errors the zone is inside, and no comparison has a threshold, since p is not
/// above the other's. In turn the one with more errors is not contained, and kept.
///
/// Later: at 1 the clock's column is (0, 0), and (−2, 1) after a lo of 2, of which the other clocks'
/// upper pairs become (−2, 1) + (5, 1) = (3, 2) beside (5, 1): inside, with thresholds of 2/1.
fn of_clock(clocks: usize, clock: usize) -> Vec<Case> {
    let what = |name: &str| format!("{name} of clock {clock} of {clocks}");
    let fewer = two_ways(clocks, clock);
    let mut more = fewer.clone();
    more.swap(0, 1);
    let rest = fewer[0].reset;
    let later = vec![
        edge(0, 1, rest, &vec![FREE; clocks]),
        edge(0, 1, rest, &of_one(clocks, clock, (2, NO_UPPER))),
    ];
    let drawn = |edges: &[Edge]| draft(clocks, 5, edges.to_vec());
    vec![
        case(what("fewer errors"), &drawn(&fewer), [1, 1, 0, 4, 0, 1]),
        case(what("more errors"), &drawn(&more), [1, 1, 0, 5, 0, 0]),
        case(what("later"), &drawn(&later), [1, 2, 1, 2, 0, 1]),
    ]
}

/// An edge from 0 to 0 without limits. Where it resets all clocks, or none, it gives the first zone again.
/// Where it resets some, the others may be ahead of them: that is kept, and given again from there.
fn round(clocks: usize) -> Vec<Case> {
    let all = (1_u16 << clocks) - 1;
    let mut cases = Vec::new();
    for reset in 0..=all {
        let edges = vec![edge(0, 0, reset as u8, &vec![FREE; clocks])];
        let zones = if reset == 0 || reset == all { 1 } else { 2 };
        let name = format!("round, resetting {reset} of {clocks} clocks");
        cases.push(case(name, &draft(clocks, 2, edges), [1, 1, 0, zones, 1, 0]));
    }
    cases
}

/// Few clocks and few zones, but for one.
pub fn few() -> Vec<Case> {
    let examples = EXAMPLES.map(|(name, numbers)| Case {
        name: name.into(),
        automaton: named(name),
        numbers,
    });
    let mut cases: Vec<Case> = examples.into_iter().collect();
    cases.extend(fans());
    cases.extend(loops());
    cases.extend(elsewhere());
    cases
}

pub fn all() -> Vec<Case> {
    let mut cases = few();
    for clocks in 1..=8 {
        cases.extend(round(clocks));
    }
    for clocks in 2..=8 {
        cases.extend((0..clocks).flat_map(|clock| of_clock(clocks, clock)));
    }
    cases
}

fn drawn_limit(dice: &mut Dice) -> Limit {
    let (lo, more) = (dice.range(0, 4), dice.range(0, 3));
    match dice.range(0, 9) {
        0..=3 => FREE,
        4..=6 => (lo, NO_UPPER),
        7..=8 => (0, lo + 1),
        _ => (lo, lo + more),
    }
}

fn drawn_edge(dice: &mut Dice, clocks: usize, last: u32) -> Edge {
    let (limit, clock) = (drawn_limit(dice), dice.below(clocks));
    let all = ((1_u16 << clocks) - 1) as u8;
    let some = dice.range(0, all.into()) as u8;
    Edge {
        from: dice.range(0, last) as u8,
        to: dice.range(0, last) as u8,
        reset: dice.pick(&[0, some, all, all]),
        guard: of_one(clocks, clock, limit),
    }
}

/// Few locations and many edges between them, each with a limit at most, and some of them twice: most of
/// the zones are dropped. The last edge may lead to the target.
pub fn drawn(dice: &mut Dice) -> Draft {
    let clocks = dice.pick(&[1, 1, 2, 2, 3, 5]);
    let last = dice.range(0, 2);
    let mut edges = Vec::new();
    for _ in 0..dice.range(2, 14) {
        edges.push(drawn_edge(dice, clocks, last));
        if dice.chance(20) {
            edges.push(dice.one(&edges).clone());
        }
    }
    let mut way_in = drawn_edge(dice, clocks, last);
    way_in.to = last as u8 + 1;
    if dice.chance(40) {
        edges.push(way_in);
    }
    draft(clocks, last as u8 + 2, edges)
}

impl Case {
    /// What the program prints.
    pub fn line(&self) -> String {
        let [kind, n, d, zones, again, inside] = self.numbers;
        let verdict = match (kind, d) {
            (0, _) => "reached".into(),
            (_, 0) => "holds any".into(),
            _ => format!("holds {n}/{d}"),
        };
        format!("{verdict} zones {zones} again {again} inside {inside}")
    }
}
