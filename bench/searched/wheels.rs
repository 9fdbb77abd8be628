// Wheels whose store is too small: errors add up until refusal 10.
use super::Case;
use crate::rings::{ring, Step, FREE};

// As document 01's K, for any number of clocks: the steps of a turn are at an exact guard of each clock, which it resets.
fn wheel(clocks: u8) -> Case {
    let step = |x: u8| -> Step {
        let mut guard = vec![FREE; clocks.into()];
        guard[x as usize] = (1, 1);
        (1 << x, guard)
    };
    let steps: Vec<Step> = (0..clocks).map(step).collect();
    let draft = ring(clocks, &vec![(0, 1); clocks.into()], &steps);
    Case::drafted(format!("wheel, {clocks} clocks"), &draft)
}

fn document_01(zones: usize) -> Case {
    let automaton = include_bytes!("../../examples/K.card");
    Case::new(format!("K, {zones} zones"), automaton).room_for(zones)
}

pub fn cases() -> Vec<Case> {
    vec![document_01(12), document_01(5_000), wheel(3)]
}
