// Automata of files: document 01's, and those whose search is long.
use super::Case;
use crate::draft::{Draft, Edge, NO_UPPER};
use crate::heavy::{self, EIGHT_CLOCKS, RING_ZONES, THREE_CLOCKS};

// The zones of the wheel up to its refusal 9.
const WHEEL_ZONES: usize = 65_535;
// One more than "3 clocks" and "8 clocks" keep.
const THREE_ROOM: usize = 496;
const EIGHT_ROOM: usize = 100;

pub fn tiny() -> Vec<Case> {
    vec![
        Case::new("A", include_bytes!("../../examples/A.card")),
        Case::new("B", include_bytes!("../../examples/B.card")),
        Case::new("G", include_bytes!("../../examples/G.card")),
        Case::drafted("A, 8 clocks", &wide()),
    ]
}

// As document 01's A, with all clocks alike.
fn wide() -> Draft {
    Draft {
        start: 0,
        target: 1,
        invariants: vec![vec![(0, 5); 8], vec![(0, 9); 8]],
        edges: vec![Edge {
            from: 0,
            to: 1,
            reset: 0,
            guard: vec![(7, NO_UPPER); 8],
        }],
    }
}

// The first three are stored as bench/heavy.rs draws them; the wheel is document 01's K.
pub fn heavy() -> Vec<Case> {
    let case = |name: &str, stored: &[u8], drawn: Vec<u8>| {
        assert!(stored == drawn, "{name}");
        Case::new(name, stored)
    };
    let ring = case(
        "the ring",
        include_bytes!("../automata/ring.card"),
        heavy::ring(),
    );
    let wheel = Case::new("the wheel", include_bytes!("../../examples/K.card"));
    vec![
        case(
            "3 clocks",
            include_bytes!("../automata/3-clocks.card"),
            THREE_CLOCKS.automaton(),
        )
        .room_for(THREE_ROOM),
        case(
            "8 clocks",
            include_bytes!("../automata/8-clocks.card"),
            EIGHT_CLOCKS.automaton(),
        )
        .room_for(EIGHT_ROOM),
        ring.room_for(RING_ZONES).repeated(3),
        wheel.room_for(WHEEL_ZONES).repeated(2),
    ]
}
