//! The zones that a search leaves in its store, as sets of states.

use crate::draft::Draft;
use crate::explorer::{Explorer, Loosening, Valuation};
use crate::lengths::{slot_of, BEFORE_PAIRS};

pub struct Kept<'a> {
    clocks: usize,
    slots: Vec<&'a [i32]>,
}

impl Kept<'_> {
    pub fn new<'a>(automaton: &Draft, store: &'a [i32], zones: usize) -> Kept<'a> {
        let clocks = automaton.invariants[0].len();
        Kept {
            clocks,
            slots: store.chunks_exact(slot_of(clocks)).take(zones).collect(),
        }
    }

    pub fn zones(&self) -> usize {
        self.slots.len()
    }

    /// Of a slot its location, the slot that it came from, and the edge taken.
    pub fn told(&self, slot: usize) -> [i32; BEFORE_PAIRS] {
        let first = &self.slots[slot][..BEFORE_PAIRS];
        first.try_into().expect("the numbers before the pairs")
    }

    pub fn has(&self, slot: usize, valuation: &Valuation, loosening: Loosening) -> bool {
        self.within(self.slots[slot], valuation, loosening)
    }

    /// Each pair (m, p) bounds its difference in ticks: a − b ≤ m × s + p × e.
    fn within(&self, slot: &[i32], valuation: &Valuation, loosening: Loosening) -> bool {
        let side = self.clocks + 1;
        let (scale, error) = (i64::from(loosening.scale), i64::from(loosening.error));
        let ticks = |index: usize| match index {
            0 => 0,
            _ => i64::from(valuation[index - 1]),
        };
        let mut pairs = slot[BEFORE_PAIRS..].chunks(2).enumerate();
        pairs.all(|(entry, pair)| {
            let (m, p) = (i64::from(pair[0]), i64::from(pair[1]));
            ticks(entry / side) - ticks(entry % side) <= m * scale + p * error
        })
    }

    /// The states, over all locations, that are in a kept zone and that no run reaches, and those
    /// that a run reaches and that are in none.
    pub fn differences(&self, explorer: &Explorer) -> (usize, usize) {
        let (mut unreached, mut missed) = (0, 0);
        for location in 0..explorer.grid.locations {
            let at = |slot: &&[i32]| slot[0] == location as i32;
            let slots: Vec<&[i32]> = self.slots.iter().copied().filter(at).collect();
            for place in 0..explorer.grid.valuations() {
                let valuation = explorer.grid.valuation(place);
                let kept = |slot: &&[i32]| self.within(slot, &valuation, explorer.loosening);
                let kept = slots.iter().any(kept);
                let reached = explorer.reaches(location as u8, &valuation);
                unreached += usize::from(kept && !reached);
                missed += usize::from(reached && !kept);
            }
        }
        (unreached, missed)
    }
}
