// Automata whose search is long.
use crate::draft::{Draft, Edge};
use crate::draws::Draws;
use crate::rings::counter;

pub struct Heavy {
    pub clocks: u8,
    // The invariant's hi, and the largest lo of a guard.
    pub top: u32,
    // The most by which a guard's hi is above its lo.
    pub width: u32,
    // How many clocks of a hundred are reset.
    pub resets: u32,
    pub seed: u64,
}

// Picked from many draws (bench/README.md).
pub const THREE_CLOCKS: Heavy = Heavy {
    clocks: 3,
    top: 7,
    width: 21,
    resets: 40,
    seed: 0,
};
pub const EIGHT_CLOCKS: Heavy = Heavy {
    clocks: 8,
    top: 2,
    width: 60,
    resets: 92,
    seed: 14,
};

impl Heavy {
    // 256 edges from location 0 to itself, each with limits on every clock; nothing leads to the
    // target.
    pub fn automaton(&self) -> Vec<u8> {
        let draws = &mut Draws(self.seed);
        let draft = Draft {
            start: 0,
            target: 1,
            invariants: vec![vec![(0, self.top); self.clocks as usize]; 2],
            edges: (0..256).map(|_| self.edge(draws)).collect(),
        };
        draft.bytes()
    }

    fn edge(&self, draws: &mut Draws) -> Edge {
        let resets = (0..self.clocks).map(|x| ((draws.below(100) < self.resets) as u8) << x);
        let reset = resets.sum();
        let mut limit = || {
            let lo = draws.below(self.top + 1);
            (lo, lo + draws.below(self.width + 1))
        };
        let guard = (0..self.clocks).map(|_| limit()).collect();
        Edge {
            from: 0,
            to: 0,
            reset,
            guard,
        }
    }
}

// What the ring keeps.
pub const RING_ZONES: usize = 50_000;

// Of the zones kept before it, a new one has its location with one in 60 only.
pub fn ring() -> Vec<u8> {
    counter(60, RING_ZONES as u32 - 1).bytes()
}
