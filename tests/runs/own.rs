//! A kept zone's own runs, by the edges that the slots tell: "the states in ticks of 1/s that runs along
//! the zone's own edges from the start, loosened by e, stand in after the last jump and any wait".

use crate::draft::Draft;
use crate::explorer::{reset, Grid, Loosening, Valuation, MOST_CLOCKS};
use crate::kept::Kept;

/// Of a store in which errors add up only the first zones are looked at.
const MOST_ZONES: usize = 40;

struct Own<'a> {
    automaton: &'a Draft,
    grid: Grid,
    loosening: Loosening,
    /// For each slot its states, by the place of their valuation.
    sets: Vec<Vec<bool>>,
    /// For each slot its location.
    locations: Vec<i32>,
}

impl Own<'_> {
    /// From each arrival that the invariant allows, any wait.
    fn waited(&self, location: usize, arrivals: &[Valuation]) -> Vec<bool> {
        let invariant = &self.automaton.invariants[location];
        let mut set = vec![false; self.grid.valuations()];
        for arrival in arrivals {
            let mut valuation = *arrival;
            while self.loosening.allows(invariant, &valuation) {
                set[self.grid.place(0, &valuation)] = true;
                for clock in &mut valuation[..invariant.len()] {
                    *clock += 1;
                }
            }
        }
        set
    }

    /// Along one edge, from the states of the slot that the zone came from.
    fn arrivals(&self, from: usize, edge: usize) -> Vec<Valuation> {
        let edge = &self.automaton.edges[edge];
        let places = (0..self.grid.valuations()).filter(|&place| self.sets[from][place]);
        let before = places.map(|place| self.grid.valuation(place));
        let allowed = before.filter(|v| self.loosening.allows(&edge.guard, v));
        allowed.map(|v| reset(edge, &v)).collect()
    }

    /// The states of the next slot, unless what it tells is no edge from an earlier slot's location to its own.
    fn next(&self, [location, from, edge]: [i32; 3]) -> Option<Vec<bool>> {
        let place = usize::try_from(location).ok()?;
        if (from, edge) == (-1, -1) {
            let first = self.sets.is_empty() && location == i32::from(self.automaton.start);
            return first.then(|| self.waited(place, &[[0; MOST_CLOCKS]]));
        }
        let (from, edge) = (usize::try_from(from).ok()?, usize::try_from(edge).ok()?);
        let ends = self.automaton.edges.get(edge)?;
        let leaves = *self.locations.get(from)? == i32::from(ends.from);
        let leads = i32::from(ends.to) == location;
        (leaves && leads).then(|| self.waited(place, &self.arrivals(from, edge)))
    }
}

/// The states that are in a kept zone and not in its own set, and those that are in its own set and not in
/// the zone; none where a slot does not tell where its zone came from.
pub fn differences(automaton: &Draft, kept: &Kept, loosening: Loosening) -> Option<(usize, usize)> {
    let grid = Grid::new(automaton, loosening);
    let mut own = Own {
        automaton,
        grid,
        loosening,
        sets: Vec::new(),
        locations: Vec::new(),
    };
    let (mut more, mut missed) = (0, 0);
    for slot in 0..kept.zones().min(MOST_ZONES) {
        let told = kept.told(slot);
        let set = own.next(told)?;
        for (place, &reached) in set.iter().enumerate() {
            let within = kept.has(slot, &own.grid.valuation(place), loosening);
            more += usize::from(within && !reached);
            missed += usize::from(reached && !within);
        }
        own.sets.push(set);
        own.locations.push(told[0]);
    }
    Some((more, missed))
}
