//! Refusal 9: searches in which error counts come to 65,535 and above. Each keeps at least 65,535
//! zones, since after k jumps no count is above k + 1.

use crate::draft::{Draft, Edge, Limit, NO_UPPER};
use crate::drawn::Dice;
use crate::lengths::{slot, BEFORE_PAIRS};
use crate::oracle::{self, Outcome};
use crate::rings::{counter, ring, wheel, FREE, PERIOD};
use crate::tally::{Answer, Left, Tally};

/// The largest count of a zone that is kept.
const MOST: u32 = 65_535;
/// Slots for more zones than any of these searches keeps.
const ENOUGH: usize = 67_000;
const LOCATIONS: u8 = 60;
/// A location past the ring and the target.
const ASIDE: u8 = LOCATIONS + 1;
/// A counter's step, and the time of its jump that has a count of 65,536.
const STEP: Limit = (PERIOD, PERIOD);
const LATE: u32 = PERIOD * MOST;

/// The largest count among the zones kept: of all pairs in the slots that were written.
fn largest(left: &Left, slot: usize) -> u32 {
    let before = left.before.chunks_exact(slot);
    let slots = left.store.chunks_exact(slot).zip(before);
    let kept = slots.take_while(|(after, before)| after != before);
    let pairs = kept.flat_map(|(after, _)| after[BEFORE_PAIRS..].chunks_exact(2));
    pairs.map(|pair| pair[1] as u32).max().unwrap_or(0)
}

/// Both searches, with so many slots, must have this answer and this largest count.
fn must(tally: &mut Tally, what: &str, draft: &Draft, slots: usize, expected: (Answer, u32)) {
    let automaton = draft.bytes();
    let slot = slot(&automaton);
    let left = tally.search(&mut Dice::new(5), what, &automaton, slots * slot);
    let got = (left.answer, largest(&left, slot));
    tally.check(got == expected, || {
        format!("{what}: {got:?}, not {expected:?}")
    });
}

/// The second search alone, which is the quicker one, must refuse it by 9.
fn is_refused(tally: &mut Tally, what: &str, draft: &Draft) {
    let automaton = draft.bytes();
    let mut store = vec![0; ENOUGH * slot(&automaton)];
    let outcome = oracle::search(&automaton, &mut store);
    tally.check(outcome == Outcome::Refused(9), || {
        format!("{what}: {outcome}, not 9")
    });
}

/// Two steps of one clock and a free one of the other: counts come to 65,535. A wheel's are even.
fn threes(locations: u8, first: u32, second: u32) -> Draft {
    let exact = |at: u32| vec![FREE, (at, at)];
    let steps = [(2, exact(first)), (2, exact(second)), (1, vec![FREE; 2])];
    ring(locations, &[(0, first + second); 2], &steps)
}

/// A count of 65,535 is kept. The zone that would be the 65,537th has more, and is refused by 9 also
/// where there is no slot left for it; one slot less is full before it.
pub fn border(tally: &mut Tally) {
    let draft = threes(LOCATIONS, 1, 2);
    for (slots, number) in [(65_536, 9), (65_535, 10)] {
        let what = format!("a ring with {slots} slots");
        must(tally, &what, &draft, slots, (Err(number), MOST));
    }
}

fn edge(from: u8, to: u8, reset: u8, guard: [Limit; 2]) -> Edge {
    let guard = guard.to_vec();
    Edge {
        from,
        to,
        reset,
        guard,
    }
}

/// A counter that ends with a count of 65,535, and from there a step with 65,536, which comes too
/// late for all earlier zones.
fn exceeding(to: u8) -> Draft {
    let jumps = MOST - 1;
    let last = (jumps % u32::from(LOCATIONS)) as u8;
    let late = (LATE - 100, NO_UPPER);
    let mut draft = counter(LOCATIONS, jumps);
    draft.invariants.push(vec![(0, 1_000_000); 2]);
    draft.edges.push(edge(last, to, 2, [late, STEP]));
    draft
}

/// At the target no count is asked for; elsewhere the same zone is refused.
pub fn at_target(tally: &mut Tally) {
    let what = "a large count at the target";
    let draft = exceeding(LOCATIONS);
    let reached = Ok(([0, 0, 0, 65_535], [0, 0]));
    must(tally, what, &draft, 65_535, (reached, MOST));
    let target = ASIDE;
    is_refused(tally, "elsewhere", &Draft { target, ..draft });
}

/// Nor of a zone that a kept one contains: the threshold of that very test is the fraction. Without
/// the kept one it is refused. By hand: it is the one inside; from the kept one the ring's first zone and
/// the kept one itself come again.
pub fn contained(tally: &mut Tally) {
    let what = "a large count in a zone contained";
    let mut draft = exceeding(ASIDE);
    draft.start = ASIDE;
    draft.edges.push(edge(ASIDE, 0, 3, [FREE; 2]));
    is_refused(tally, "not contained", &draft);
    let wide = [(LATE - 1, NO_UPPER), FREE];
    draft.edges.push(edge(ASIDE, ASIDE, 2, wide));
    let holds = Ok(([1, 1, 65_534, 65_537], [2, 1]));
    must(tally, what, &draft, 65_537, (holds, MOST));
}

/// An upper limit at a jump's time takes the errors away but for the lower limits: the count that
/// comes to 65,536 is of those alone.
pub fn lower_limits(tally: &mut Tally) {
    let mut draft = exceeding(LOCATIONS);
    draft.target = ASIDE;
    let last = draft.edges.len() - 1;
    draft.edges[last].guard[0].1 = LATE;
    draft.edges.push(edge(LOCATIONS, 0, 2, [FREE, STEP]));
    is_refused(tally, "a large count of lower limits", &draft);
}

/// Adds clocks that every step resets.
fn widen(draft: &mut Draft, clocks: u32, hi: u32) {
    for invariant in &mut draft.invariants {
        invariant.resize(clocks as usize, (0, hi));
    }
    for edge in &mut draft.edges {
        edge.reset |= ((1 << clocks) - 4) as u8;
        edge.guard.resize(clocks as usize, FREE);
    }
}

/// Both kinds of rings with locations, limits and clocks drawn; many clocks, which take long, in
/// later rounds.
pub fn drawn(tally: &mut Tally, round: u64) {
    let mut dice = Dice::new(1_000 * round + 12);
    let most_clocks = if round == 0 { 3 } else { 6 };
    let (first, second) = (dice.range(1, 500_000), dice.range(1, 500_000));
    let (hi, sum) = (dice.pick(&[1, first, 1_000_000]), first + second);
    let even = wheel(2 * dice.range(25, 31) as u8, hi);
    let by_threes = threes(3 * dice.range(17, 20) as u8, first, second);
    for (mut draft, hi, count) in [(even, hi, MOST - 1), (by_threes, sum, MOST)] {
        let clocks = dice.range(2, most_clocks);
        widen(&mut draft, clocks, dice.range(hi, 1_000_000));
        let what = format!("a ring of {} with {clocks} clocks", draft.target);
        must(tally, &what, &draft, ENOUGH, (Err(9), count));
    }
}
