//! Automata small enough that all their states can be visited.

use crate::draft::{Draft, Edge, Limit, NO_UPPER};
use crate::drawn::Dice;

const MOST: u32 = 6;

/// What a random automaton leans to; without it few would have runs of many jumps.
#[derive(Clone, Copy)]
enum Lean {
    /// Nothing: any edges, any limits.
    Plain,
    /// An edge from each location to the next one, with few limits.
    Chain,
    /// A chain with exact guards, at which errors add up.
    Exact,
    /// A chain with upper limits only, along which nothing lowers the fraction.
    Upper,
}

struct Size {
    clocks: u32,
    locations: u32,
    edges: u32,
}

impl Size {
    fn drawn(dice: &mut Dice) -> Size {
        Size {
            clocks: dice.pick(&[1, 2, 2, 2, 3, 3]),
            locations: dice.range(2, 5),
            edges: dice.range(1, 8),
        }
    }
}

fn invariant(dice: &mut Dice, lean: Lean) -> Limit {
    match lean {
        Lean::Plain if dice.chance(15) => (dice.range(0, 3), dice.range(0, MOST)),
        Lean::Plain => (0, dice.range(0, MOST)),
        Lean::Upper => (0, MOST + 2),
        _ if dice.chance(3) => (dice.range(1, 3), dice.range(1, MOST)),
        _ => (0, dice.range(2, MOST)),
    }
}

/// Lo above hi is drawn as well.
fn guard(dice: &mut Dice, lean: Lean) -> Limit {
    if dice.chance(50) {
        return (0, NO_UPPER);
    }
    let exact = dice.range(1, 3);
    match lean {
        Lean::Upper => (0, dice.range(0, 4)),
        _ if dice.chance(30) => (dice.range(0, MOST), NO_UPPER),
        Lean::Plain => (dice.range(0, MOST), dice.range(0, MOST)),
        Lean::Chain => (dice.range(0, 3), dice.range(2, MOST)),
        Lean::Exact => (exact, exact),
    }
}

/// The locations that each edge connects.
fn ends(dice: &mut Dice, lean: Lean, size: &Size) -> Vec<(u32, u32)> {
    let last = size.locations - 1;
    let mut ends: Vec<(u32, u32)> = match lean {
        Lean::Plain => Vec::new(),
        _ => (0..last).map(|from| (from, from + 1)).collect(),
    };
    while ends.len() < size.edges as usize {
        ends.push((dice.range(0, last), dice.range(0, last)));
    }
    // The target, the last location, has no way in.
    if let Lean::Upper = lean {
        ends.retain(|(_, to)| *to < last);
    }
    ends
}

/// Has the target's edges ask for more than most locations allow: else nearly all targets would be
/// reached without an error.
fn fence(dice: &mut Dice, edges: &mut [Edge], target: u32) {
    for edge in edges.iter_mut().filter(|e| u32::from(e.to) == target) {
        let clock = dice.below(edge.guard.len());
        if dice.chance(80) {
            edge.guard[clock] = (dice.range(MOST - 2, MOST + 2), NO_UPPER);
        }
    }
}

pub fn small(dice: &mut Dice) -> Draft {
    let lean = dice.pick(&[Lean::Plain, Lean::Chain, Lean::Exact, Lean::Upper]);
    let size = Size::drawn(dice);
    let last = size.locations - 1;
    let (start, target) = match lean {
        Lean::Plain => (dice.range(0, last), dice.range(0, last)),
        _ => (0, last),
    };
    let limits = |dice: &mut Dice| (0..size.clocks).map(|_| invariant(dice, lean)).collect();
    let invariants = (0..size.locations).map(|_| limits(dice)).collect();
    let ends = ends(dice, lean, &size);
    let edge = |(from, to): (u32, u32)| Edge {
        from: from as u8,
        to: to as u8,
        reset: dice.range(0, (1 << size.clocks) - 1) as u8,
        guard: (0..size.clocks).map(|_| guard(dice, lean)).collect(),
    };
    let mut edges: Vec<Edge> = ends.into_iter().map(edge).collect();
    fence(dice, &mut edges, target);
    Draft {
        start: start as u8,
        target: target as u8,
        invariants,
        edges,
    }
}

/// A direct edge to a location and hops to it. Up to the threshold of the test for containment the
/// states after the hops are among those after the direct edge; past it they lead on to the target
/// at errors that the direct edge alone would not.
pub fn detour(dice: &mut Dice) -> Draft {
    let hops = dice.range(2, 3) as u8;
    let edge = |from: u8, to: u8, reset: u8, x: Limit, y: Limit| Edge {
        from,
        to,
        reset,
        guard: vec![x, y],
    };
    let (free, still) = ((0, NO_UPPER), (0, 0));
    let direct = (0, dice.range(1, 4));
    let far = (direct.1 + dice.range(1, MOST), NO_UPPER);
    let mut edges = vec![edge(0, hops, 2, direct, free), edge(0, 1, 2, still, free)];
    edges.extend((1..hops).map(|hop| edge(hop, hop + 1, 2, free, (0, dice.range(0, 1)))));
    edges.push(edge(hops, hops + 1, 0, far, still));
    Draft {
        start: 0,
        target: hops + 1,
        invariants: vec![vec![(0, 2 * MOST); 2]; usize::from(hops) + 2],
        edges,
    }
}

fn number(bytes: &[u8]) -> u32 {
    bytes.iter().fold(0, |n, &b| n << 8 | u32::from(b))
}

fn limits(bytes: &[u8]) -> Vec<Limit> {
    let limit = |c: &[u8]| (number(&c[..4]), number(&c[4..]));
    bytes.chunks(8).map(limit).collect()
}

/// The automaton of bytes that are free of 1 to 8.
pub fn read(bytes: &[u8]) -> Draft {
    let row = 8 * usize::from(bytes[5]);
    let (invariants, edges) = bytes[11..].split_at(row * usize::from(bytes[6]));
    let edge = |b: &[u8]| Edge {
        from: b[0],
        to: b[1],
        reset: b[2],
        guard: limits(&b[3..]),
    };
    Draft {
        start: bytes[7],
        target: bytes[8],
        invariants: invariants.chunks(row).map(limits).collect(),
        edges: edges.chunks(3 + row).map(edge).collect(),
    }
}
