//! Rings of locations, in which errors add up.

// Each program takes some of them.
#![allow(dead_code)]

use crate::draft::{Draft, Edge, Limit, NO_UPPER};

pub const FREE: Limit = (0, NO_UPPER);

/// The reset byte and the guard of an edge.
pub type Step = (u8, Vec<Limit>);

/// Round and round, the steps one after another; nothing leads to the target. Each new zone is
/// compared only with those of its location, so that with many of them 9 comes soon.
pub fn ring(locations: u8, invariant: &[Limit], steps: &[Step]) -> Draft {
    let edge = |from: u8| {
        let (reset, guard) = steps[usize::from(from) % steps.len()].clone();
        Edge {
            from,
            to: (from + 1) % locations,
            reset,
            guard,
        }
    };
    Draft {
        start: 0,
        target: locations,
        invariants: vec![invariant.to_vec(); usize::from(locations) + 1],
        edges: (0..locations).map(edge).collect(),
    }
}

/// Each step is at an exact guard of one of two clocks, which it resets, as in document 01's K.
pub fn wheel(locations: u8, hi: u32) -> Draft {
    let exact = (hi, hi);
    let steps = [(1, vec![exact, FREE]), (2, vec![FREE, exact])];
    ring(locations, &[(0, hi); 2], &steps)
}

/// The time between two jumps of a counter.
pub const PERIOD: u32 = 4;

/// The second clock is reset at each period, and the first tells when so many jumps were made: no
/// more are. Its limit is not at a jump's time, where it would take the errors away.
pub fn counter(locations: u8, jumps: u32) -> Draft {
    let step = (2, vec![(0, PERIOD * jumps + 1), (PERIOD, PERIOD)]);
    ring(locations, &[(0, 1_000_000), (0, PERIOD)], &[step])
}
