//! Automata whose target is many jumps away, with the number of jumps; and runs that go round and round.

// Each program takes some of them.
#![allow(dead_code)]

use crate::draft::{Draft, Edge, Limit, NO_UPPER};
use crate::rings::{counter, ring, Step, FREE, PERIOD};

const LOCATIONS: u8 = 60;
const LAP: u32 = LOCATIONS as u32;

/// With the jumps of the shortest run to its target.
pub type Far = (Draft, usize);

fn out(draft: &mut Draft, from: u8, guard: [Limit; 2]) {
    draft.edges.push(Edge {
        from,
        to: LOCATIONS,
        reset: 0,
        guard: guard.to_vec(),
    });
}

/// A jump at each period, and the way out after exactly so many: a lap less is a lap's time too early.
/// All waits are given, but for the last.
pub fn strict(jumps: u32) -> Far {
    let mut draft = counter(LOCATIONS, jumps);
    let last = (jumps % LAP) as u8;
    let late = (PERIOD * jumps, NO_UPPER);
    out(&mut draft, last, [late, FREE]);
    (draft, jumps as usize + 1)
}

/// Each jump within a period, and the way out from location 0 at exactly one time, so that all waits must
/// come to that. It is taken after the first whole laps in which so much time can be waited.
pub fn loose(time: u32) -> Far {
    let step: Step = (2, vec![FREE, (1, PERIOD)]);
    let mut draft = ring(LOCATIONS, &[(0, 1_000_000), (0, PERIOD)], &[step]);
    out(&mut draft, 0, [(time, time), (1, 1)]);
    let jumps = (time - 1 + PERIOD - 1) / PERIOD;
    let laps = (jumps + LAP - 1) / LAP;
    (draft, (laps * LAP) as usize + 1)
}

/// Adds clocks that are reset at some of the locations, and never come to their limits.
pub fn widened((mut draft, jumps): Far, clocks: usize) -> Far {
    for invariant in &mut draft.invariants {
        invariant.resize(clocks, (0, 1_000_000));
    }
    for (number, edge) in draft.edges.iter_mut().enumerate() {
        let often = (2..clocks).filter(|clock| number % clock == 0);
        edge.reset |= often.map(|clock| 1 << clock).sum::<u8>();
        edge.guard.resize(clocks, (0, 4 * PERIOD * LAP));
    }
    (draft, jumps)
}

/// Round the locations, each edge resetting some of the clocks; after so many jumps it is at the target.
pub fn circle(resets: &[u8], clocks: usize, jumps: usize) -> Draft {
    let locations = resets.len() as u8;
    let edge = |(from, reset): (u8, &u8)| Edge {
        from,
        to: (from + 1) % locations,
        reset: *reset,
        guard: vec![FREE; clocks],
    };
    let limits: Vec<Limit> = vec![(0, 5); clocks];
    Draft {
        start: 0,
        target: (jumps % resets.len()) as u8,
        invariants: vec![limits; resets.len()],
        edges: (0..locations).zip(resets).map(edge).collect(),
    }
}

/// Document 02's run of so many jumps round it: a wait of 1 before each and behind the last.
pub fn round(locations: usize, jumps: usize) -> Vec<i64> {
    let mut run = vec![1; 2 * jumps + 2];
    run[0] = run.len() as i64;
    for (jump, number) in run[2..].iter_mut().step_by(2).enumerate() {
        *number = (jump % locations) as i64;
    }
    run
}
