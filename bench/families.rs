// The automata of a cache: families of one automaton each, whose members differ in one number or
// two. All are canonical forms.

// Each program takes some of them.
#![allow(dead_code)]

use crate::draft::{Draft, Edge, Limit, NO_UPPER};
use crate::draws::Draws;
use crate::ordered::form;

pub const MEMBERS: usize = 10;
const SCALE: u32 = 1_000_000;
// Every lo is at least this, but for the one that tells the members of a family apart.
const LEAST: u32 = 1_000;

pub struct Shape {
    pub clocks: u8,
    pub locations: u8,
    pub edges: u16,
}

impl Shape {
    fn length(&self) -> usize {
        let [clocks, locations] = [self.clocks, self.locations].map(usize::from);
        11 + 8 * clocks * locations + self.edges as usize * (3 + 8 * clocks)
    }
}

// 19 bytes, and 21,259.
pub const SMALLEST: Shape = Shape {
    clocks: 1,
    locations: 1,
    edges: 0,
};
pub const LARGEST: Shape = Shape {
    clocks: 8,
    locations: 64,
    edges: 256,
};

pub const FEW: Shape = Shape {
    clocks: 1,
    locations: 2,
    edges: 3,
};

// Of any size, the small more often.
pub fn any(draws: &mut Draws) -> Shape {
    let mut fewer = |bound| draws.below(bound).min(draws.below(bound));
    let (locations, edges) = (1 + fewer(64) as u8, fewer(257) as u16);
    Shape {
        clocks: 1 + draws.below(8) as u8,
        locations,
        edges,
    }
}

pub fn small(draws: &mut Draws) -> Shape {
    let mut from = |least, bound| least + draws.below(bound);
    Shape {
        clocks: from(1, 3) as u8,
        locations: from(2, 6) as u8,
        edges: from(1, 24) as u16,
    }
}

// Which bytes the members of a family share.
#[derive(Clone, Copy, PartialEq)]
pub enum Shared {
    Beginnings,
    Ends,
}

pub fn family(draws: &mut Draws, shape: &Shape, shared: Shared) -> Vec<Vec<u8>> {
    let automaton = form(&drawn(draws, shape));
    assert_eq!(automaton.len(), shape.length(), "no edge is drawn twice");
    let mut members = vec![];
    for number in 0..MEMBERS as u32 {
        let at = place(draws, shape, shared);
        let mut member = automaton.clone();
        member[at..at + 4].copy_from_slice(&number.to_be_bytes());
        members.push(form(&member));
    }
    members
}

// A drawn clock's lo: of the guard of one of the last quarter of the edges, or of the first
// location's invariant.
fn place(draws: &mut Draws, s: &Shape, shared: Shared) -> usize {
    let limits = 8 * s.clocks as usize;
    let lo = 8 * draws.below(s.clocks as u32) as usize;
    if shared == Shared::Ends {
        return 11 + lo;
    }
    if s.edges == 0 {
        return 11 + limits * (s.locations as usize - 1) + lo;
    }
    let edges = s.edges as u32;
    let edge = (edges - 1 - draws.below((edges + 3) / 4)) as usize;
    11 + limits * s.locations as usize + edge * (3 + limits) + 3 + lo
}

// Its edges in any order.
pub fn drawn(draws: &mut Draws, s: &Shape) -> Vec<u8> {
    let draft = Draft {
        start: 0,
        target: s.locations - 1,
        invariants: (0..s.locations)
            .map(|_| limits(draws, s.clocks, 0))
            .collect(),
        edges: (0..s.edges).map(|_| edge(draws, s)).collect(),
    };
    draft.bytes()
}

fn edge(draws: &mut Draws, s: &Shape) -> Edge {
    let mut location = || draws.below(s.locations as u32) as u8;
    let (from, to) = (location(), location());
    let reset = draws.below(1 << s.clocks) as u8;
    let guard = limits(draws, s.clocks, 25);
    Edge {
        from,
        to,
        reset,
        guard,
    }
}

// So many of a hundred have no upper limit.
fn limits(draws: &mut Draws, clocks: u8, open: u32) -> Vec<Limit> {
    let mut limit = || {
        let lo = LEAST + draws.below(SCALE - LEAST + 1);
        let hi = draws.below(SCALE + 1);
        let is_open = draws.below(100) < open;
        (lo, if is_open { NO_UPPER } else { hi })
    };
    (0..clocks).map(|_| limit()).collect()
}
