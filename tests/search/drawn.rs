//! Automata drawn at random from a seed.

use crate::draft::{Draft, Edge, Limit, NO_UPPER};

/// Splitmix64: the same automata on every machine.
pub struct Dice(u64);

impl Dice {
    pub fn new(seed: u64) -> Dice {
        Dice(seed)
    }

    fn next(&mut self) -> u64 {
        self.0 = self.0.wrapping_add(0x9e37_79b9_7f4a_7c15);
        let mut z = self.0;
        z = (z ^ z >> 30).wrapping_mul(0xbf58_476d_1ce4_e5b9);
        z = (z ^ z >> 27).wrapping_mul(0x94d0_49bb_1331_11eb);
        z ^ z >> 31
    }

    /// One of from, .., to.
    pub fn range(&mut self, from: u32, to: u32) -> u32 {
        from + (self.next() % u64::from(to - from + 1)) as u32
    }

    /// One of 0, .., end - 1.
    pub fn below(&mut self, end: usize) -> usize {
        (self.next() % end as u64) as usize
    }

    pub fn chance(&mut self, percent: u32) -> bool {
        self.range(0, 99) < percent
    }

    pub fn one<'a, T>(&mut self, among: &'a [T]) -> &'a T {
        &among[self.below(among.len())]
    }

    pub fn pick<T: Copy>(&mut self, among: &[T]) -> T {
        *self.one(among)
    }
}

/// What a random automaton leans to; without it nearly all would be reached.
#[derive(Clone, Copy)]
pub enum Lean {
    /// Nothing: any limits, any edges.
    Plain,
    /// Lower limits of 0 and no edge to the target: no comparison has a threshold.
    Calm,
    /// Edges to the target ask more than most locations allow.
    Guarded,
    /// Exact guards that reset one clock, round and round: errors add up until the store is full.
    Wheel,
}

pub struct Size {
    pub clocks: u32,
    pub locations: u32,
    pub edges: u32,
}

impl Size {
    pub fn drawn(dice: &mut Dice) -> Size {
        let most_clocks = if dice.chance(60) { 3 } else { 8 };
        Size {
            clocks: dice.range(1, most_clocks),
            locations: dice.range(1, 6),
            edges: dice.range(0, 12),
        }
    }
}

fn invariant(dice: &mut Dice, lean: Lean) -> Limit {
    match lean {
        Lean::Plain if dice.chance(15) => (dice.range(0, 4), dice.range(0, 9)),
        Lean::Plain => (0, dice.range(1, 9)),
        Lean::Calm => (0, dice.range(0, 9)),
        Lean::Guarded => (0, dice.range(1, 6)),
        Lean::Wheel => (0, dice.range(1, 3)),
    }
}

fn guard(dice: &mut Dice, lean: Lean) -> Limit {
    let lo = match lean {
        Lean::Calm => 0,
        _ if dice.chance(50) => 0,
        _ => dice.range(0, 7),
    };
    match lean {
        _ if dice.chance(50) => (lo, NO_UPPER),
        Lean::Plain => (lo, dice.range(0, 9)),
        _ => (lo, lo + dice.range(0, 5)),
    }
}

fn edge(dice: &mut Dice, lean: Lean, size: &Size, target: u32) -> Edge {
    let last = size.locations - 1;
    let from = dice.range(0, last);
    let any = dice.range(0, last);
    let to = match lean {
        Lean::Calm | Lean::Wheel if any == target => from,
        _ => any,
    };
    let mut limits: Vec<Limit> = (0..size.clocks).map(|_| guard(dice, lean)).collect();
    let clock = dice.range(0, size.clocks - 1);
    let mut reset = dice.range(0, (1 << size.clocks) - 1) as u8;
    match lean {
        Lean::Wheel => {
            let turn = dice.range(1, 2);
            limits = vec![(0, NO_UPPER); size.clocks as usize];
            limits[clock as usize] = (turn, turn);
            reset = 1 << clock;
        }
        Lean::Guarded if to == target => limits[clock as usize] = (dice.range(5, 12), NO_UPPER),
        _ => {}
    }
    Edge {
        from: from as u8,
        to: to as u8,
        reset,
        guard: limits,
    }
}

pub fn drawn(dice: &mut Dice, lean: Lean, size: &Size) -> Draft {
    let last = size.locations - 1;
    let start = dice.range(0, last);
    let other = (start + dice.range(1, last.max(1))) % size.locations;
    let target = if dice.chance(3) { start } else { other };
    let limits = |dice: &mut Dice| (0..size.clocks).map(|_| invariant(dice, lean)).collect();
    Draft {
        start: start as u8,
        target: target as u8,
        invariants: (0..size.locations).map(|_| limits(dice)).collect(),
        edges: (0..size.edges)
            .map(|_| edge(dice, lean, size, target))
            .collect(),
    }
}

/// Direct edges to a location and a chain of hops to it. The chain's zone has more errors and,
/// often, smaller constants than a direct one: it is found within that, and only the threshold of
/// that test is low. Where a direct edge also resets the last clock, the test fails at the last
/// pairs and must lower nothing.
pub fn shortcut(dice: &mut Dice) -> Draft {
    let hops = dice.range(2, 6) as u8;
    let clocks = usize::from(hops) + 2;
    let (last, between) = (2 << hops, (2 << hops) - 2);
    let edge = |from: u8, to: u8, reset: u8, hi: u32| {
        let mut guard = vec![(0, NO_UPPER); clocks];
        guard[usize::from(from)].1 = hi;
        Edge {
            from,
            to,
            reset,
            guard,
        }
    };
    let mut edges = Vec::new();
    for _ in 0..3 {
        let reset = dice.pick(&[between, between | last]);
        edges.push(edge(0, hops, reset, dice.range(10, 40)));
    }
    for hop in 0..hops {
        let reset = if hop + 1 == hops { between } else { 2 << hop };
        edges.push(edge(hop, hop + 1, reset, dice.range(1, 9)));
    }
    // The target, past the last hop, has no way in.
    let invariants = vec![vec![(0, 900); clocks]; usize::from(hops) + 2];
    Draft {
        start: 0,
        target: hops + 1,
        invariants,
        edges,
    }
}

/// A start and, for each edge, a zone that no other is within, as they differ in the clocks reset.
pub fn crowd(clocks: usize, edges: usize) -> Draft {
    let masks = (1 << clocks) - 2;
    let edge = |i: usize| Edge {
        from: 0,
        to: 1 + (i / masks) as u8,
        reset: 1 + (i % masks) as u8,
        guard: vec![(0, NO_UPPER); clocks],
    };
    let edges: Vec<Edge> = (0..edges).map(edge).collect();
    let target = edges[edges.len() - 1].to + 1;
    let invariants = vec![vec![(0, 5); clocks]; usize::from(target) + 1];
    Draft {
        start: 0,
        target,
        invariants,
        edges,
    }
}
