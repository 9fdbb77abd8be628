// Locations one after the other, the last of them the target.
use super::{clocks, Case};
use crate::draft::{Draft, Edge, Limit, NO_UPPER};
use crate::draws::Draws;
use crate::rings::FREE;

#[derive(Clone, Copy, PartialEq)]
enum End {
    Reached,
    // The last guards ask more than the invariant allows.
    Holds,
}

struct Chain {
    clocks: u8,
    locations: u8,
    // The edges from each location to the next.
    lanes: u8,
    end: End,
}

// The longest that a step must take. Within so many steps as there are clocks each is reset, so that none need pass 40.
const LONGEST: u32 = 5;
const NEEDED: u32 = 8 * LONGEST;

impl Chain {
    fn draft(&self) -> Draft {
        let draws = &mut Draws(0);
        let invariants = (0..self.locations)
            .map(|_| self.invariant(draws))
            .collect::<Vec<_>>();
        let steps = (0..self.locations - 1).flat_map(|from| vec![from; self.lanes as usize]);
        let edges = steps
            .map(|from| self.edge(draws, from, &invariants[from as usize]))
            .collect();
        Draft {
            start: 0,
            target: self.locations - 1,
            invariants,
            edges,
        }
    }

    fn invariant(&self, draws: &mut Draws) -> Vec<Limit> {
        (0..self.clocks)
            .map(|_| (0, NEEDED + draws.below(21)))
            .collect()
    }

    // Guards the clock that the step before reset, and a drawn one; resets the next clock, and others as drawn.
    fn edge(&self, draws: &mut Draws, from: u8, invariant: &[Limit]) -> Edge {
        let before = ((from + self.clocks - 1) % self.clocks) as usize;
        let mut guard = vec![FREE; self.clocks as usize];
        guard[draws.below(self.clocks.into()) as usize] = (0, NEEDED + draws.below(21));
        let lo = 1 + draws.below(LONGEST);
        guard[before] = (lo, lo + 5 + draws.below(16));
        if self.end == End::Holds && from + 2 == self.locations {
            guard[before] = (invariant[before].1 + 1 + draws.below(10), NO_UPPER);
        }
        let is_reset = |x: u8| x == from % self.clocks || draws.below(100) < 30;
        let reset = (0..self.clocks)
            .map(is_reset)
            .enumerate()
            .map(|(x, is)| (is as u8) << x)
            .sum();
        Edge {
            from,
            to: from + 1,
            reset,
            guard,
        }
    }

    fn case(self) -> Case {
        let lanes = match self.lanes {
            1 => "".into(),
            lanes => format!(", {lanes} lanes"),
        };
        let name = format!("chain, {}{lanes}", clocks(self.clocks));
        Case::drafted(name, &self.draft())
    }
}

const fn chain(clocks: u8, locations: u8, lanes: u8, end: End) -> Chain {
    Chain {
        clocks,
        locations,
        lanes,
        end,
    }
}

pub fn cases() -> Vec<Case> {
    let chains = [
        chain(1, 12, 1, End::Reached),
        chain(2, 64, 1, End::Holds),
        chain(3, 30, 2, End::Holds),
        chain(4, 40, 1, End::Reached),
        chain(6, 64, 1, End::Holds),
        chain(8, 64, 1, End::Reached),
    ];
    chains.into_iter().map(Chain::case).collect()
}
