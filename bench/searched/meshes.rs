// A grid of locations with edges right and down: one location is entered by many zones, some within others.
use super::{clocks, Case};
use crate::draft::{Draft, Edge, Limit, NO_UPPER};
use crate::draws::Draws;
use crate::rings::FREE;

struct Mesh {
    clocks: u8,
    rows: u8,
    columns: u8,
}

// The largest hi of an invariant.
const LATEST: u32 = 60;
// Some keep more zones than the program's store has slots for.
const ROOM: usize = 500;

impl Mesh {
    // From the last corner the target, past the grid, is led to by a guard that asks more than any invariant allows.
    fn draft(&self) -> Draft {
        let draws = &mut Draws(0);
        let target = self.rows * self.columns;
        let invariants = (0..=target).map(|_| self.invariant(draws)).collect();
        let mut edges = vec![];
        for from in 0..target {
            if (from + 1) % self.columns != 0 {
                edges.push(self.edge(draws, from, from + 1));
            }
            if from + self.columns < target {
                edges.push(self.edge(draws, from, from + self.columns));
            }
        }
        edges.push(Edge {
            guard: vec![(LATEST + 1 + draws.below(10), NO_UPPER); self.clocks.into()],
            ..self.edge(draws, target - 1, target)
        });
        Draft {
            start: 0,
            target,
            invariants,
            edges,
        }
    }

    fn invariant(&self, draws: &mut Draws) -> Vec<Limit> {
        (0..self.clocks)
            .map(|_| (0, LATEST - draws.below(21)))
            .collect()
    }

    // One drawn clock is guarded, and one is reset, or two.
    fn edge(&self, draws: &mut Draws, from: u8, to: u8) -> Edge {
        let mut clock = || draws.below(self.clocks.into()) as usize;
        let reset = 1 << clock() | 1 << clock();
        let guarded = clock();
        let lo = draws.below(10);
        let mut guard = vec![FREE; self.clocks.into()];
        guard[guarded] = (lo, lo + 10 + draws.below(30));
        Edge {
            from,
            to,
            reset,
            guard,
        }
    }

    fn case(self) -> Case {
        let (rows, columns, clocks) = (self.rows, self.columns, clocks(self.clocks));
        let name = format!("mesh {rows} x {columns}, {clocks}");
        Case::drafted(name, &self.draft()).room_for(ROOM)
    }
}

const fn mesh(clocks: u8, rows: u8, columns: u8) -> Mesh {
    Mesh {
        clocks,
        rows,
        columns,
    }
}

pub fn cases() -> Vec<Case> {
    let meshes = [
        mesh(2, 7, 9),
        mesh(3, 7, 7),
        mesh(4, 7, 9),
        mesh(5, 6, 6),
        mesh(8, 5, 5),
    ];
    meshes.into_iter().map(Mesh::case).collect()
}
