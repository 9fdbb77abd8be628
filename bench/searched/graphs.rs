// Graphs drawn at random: locations, edges between any two of them, some clocks guarded and some reset.
use super::{clocks, Case};
use crate::draft::{Draft, Edge, Limit, NO_UPPER};
use crate::draws::Draws;
use crate::rings::FREE;

struct Graph {
    clocks: u8,
    locations: u8,
    edges: u16,
    seed: u64,
}

// The largest hi of an invariant.
const LATEST: u32 = 60;
// Some keep more zones than the program's store has slots for.
const ROOM: usize = 2_000;

impl Graph {
    // The last location is the target, and the last edge leads to it, by a guard that asks more than any invariant allows.
    fn draft(&self) -> Draft {
        let draws = &mut Draws(self.seed);
        let target = self.locations - 1;
        let invariants = (0..self.locations).map(|_| self.invariant(draws)).collect();
        let mut edges: Vec<Edge> = (1..self.edges).map(|_| self.edge(draws)).collect();
        edges.push(Edge {
            to: target,
            guard: vec![(LATEST + 1 + draws.below(10), NO_UPPER); self.clocks.into()],
            ..self.edge(draws)
        });
        Draft {
            start: 0,
            target,
            invariants,
            edges,
        }
    }

    fn invariant(&self, draws: &mut Draws) -> Vec<Limit> {
        (0..self.clocks)
            .map(|_| (0, LATEST - draws.below(41)))
            .collect()
    }

    fn edge(&self, draws: &mut Draws) -> Edge {
        let others = self.locations as u32 - 1;
        let (from, to) = (draws.below(others) as u8, draws.below(others) as u8);
        let reset = (0..self.clocks)
            .map(|x| ((draws.below(100) < 40) as u8) << x)
            .sum();
        let guard = (0..self.clocks).map(|_| limit(draws)).collect();
        Edge {
            from,
            to,
            reset,
            guard,
        }
    }

    fn case(self) -> Case {
        let name = format!("graph of {}, {}", self.locations, clocks(self.clocks));
        Case::drafted(name, &self.draft()).room_for(ROOM)
    }
}

// About half of the clocks are guarded, and half of the guards have a hi.
fn limit(draws: &mut Draws) -> Limit {
    let lo = draws.below(20);
    match draws.below(4) {
        0 => (lo, lo + draws.below(30)),
        1 => (lo, NO_UPPER),
        _ => FREE,
    }
}

const fn graph(clocks: u8, locations: u8, edges: u16, seed: u64) -> Graph {
    Graph {
        clocks,
        locations,
        edges,
        seed,
    }
}

// The first seeds by which at least 30 zones are kept: with some the start has hardly a way out.
pub fn cases() -> Vec<Case> {
    let graphs = [
        graph(1, 20, 60, 1),
        graph(2, 60, 250, 0),
        graph(3, 20, 70, 0),
        graph(4, 30, 120, 0),
        graph(5, 30, 120, 0),
        graph(6, 12, 36, 0),
        graph(8, 16, 48, 2),
    ];
    graphs.into_iter().map(Graph::case).collect()
}
