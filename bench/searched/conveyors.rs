// A cycle of stations, each with a clock that it resets; its guard is on the clock of the station before.
use super::{clocks, Case};
use crate::draft::{Draft, Edge, Limit, NO_UPPER};
use crate::draws::Draws;
use crate::rings::FREE;

struct Conveyor {
    clocks: u8,
    stations: u8,
}

impl Conveyor {
    // From the first station the target is led to by a guard that asks more than the invariant allows.
    fn draft(&self) -> Draft {
        let draws = &mut Draws(0);
        let latest = 20 + draws.below(41);
        let mut edges: Vec<Edge> = (0..self.stations)
            .map(|from| self.edge(draws, from))
            .collect();
        edges.push(Edge {
            from: 0,
            to: self.stations,
            reset: 0,
            guard: vec![(latest + 1 + draws.below(10), NO_UPPER); self.clocks.into()],
        });
        Draft {
            start: 0,
            target: self.stations,
            invariants: vec![vec![(0, latest); self.clocks.into()]; self.stations as usize + 1],
            edges,
        }
    }

    fn edge(&self, draws: &mut Draws, from: u8) -> Edge {
        let mut guard = vec![FREE; self.clocks.into()];
        let before = (from + self.clocks - 1) % self.clocks;
        guard[before as usize] = passage(draws);
        Edge {
            from,
            to: (from + 1) % self.stations,
            reset: 1 << (from % self.clocks),
            guard,
        }
    }

    fn case(self) -> Case {
        let name = format!("conveyor, {}", clocks(self.clocks));
        Case::drafted(name, &self.draft())
    }
}

// From one station to the next.
fn passage(draws: &mut Draws) -> Limit {
    let lo = draws.below(6);
    (lo, lo + 1 + draws.below(8))
}

pub fn cases() -> Vec<Case> {
    let sizes = [(2, 4), (4, 60), (6, 24), (8, 40)];
    let conveyors = sizes.map(|(clocks, stations)| Conveyor { clocks, stations });
    conveyors.into_iter().map(Conveyor::case).collect()
}
