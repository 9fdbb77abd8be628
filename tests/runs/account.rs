//! Where the zones of a search that holds have gone, by states: a zone is empty exactly where it has no state
//! in whole time units with no error.

use crate::draft::{Draft, Edge};
use crate::explorer::{reset, Grid, Loosening, Valuation, MOST_CLOCKS};
use crate::kept::Kept;

const NO_ERROR: Loosening = Loosening { scale: 1, error: 0 };

fn stands(automaton: &Draft, location: u8, valuation: &Valuation) -> bool {
    NO_ERROR.allows(&automaton.invariants[usize::from(location)], valuation)
}

/// Whether some state among these can take the edge.
fn is_taken(automaton: &Draft, edge: &Edge, states: &[Valuation]) -> bool {
    let takes = |state: &Valuation| {
        NO_ERROR.allows(&edge.guard, state) && stands(automaton, edge.to, &reset(edge, state))
    };
    states.iter().any(takes)
}

/// The first zone, and one for each kept zone and each edge that leaves its location: how many these are, and
/// how many of them are empty.
pub fn entered(automaton: &Draft, kept: &Kept) -> (u64, u64) {
    let grid = Grid::new(automaton, NO_ERROR);
    let first = stands(automaton, automaton.start, &[0; MOST_CLOCKS]);
    let (mut all, mut empty) = (1, u64::from(!first));
    for slot in 0..kept.zones() {
        let states = (0..grid.valuations()).map(|place| grid.valuation(place));
        let states: Vec<Valuation> = states
            .filter(|state| kept.has(slot, state, NO_ERROR))
            .collect();
        let location = kept.told(slot)[0];
        let leave = |edge: &&Edge| i32::from(edge.from) == location;
        for edge in automaton.edges.iter().filter(leave) {
            all += 1;
            empty += u64::from(!is_taken(automaton, edge, &states));
        }
    }
    (all, empty)
}
