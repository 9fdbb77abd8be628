//! The automata of document 01's table, its cards, and of document 02's Change 4, built as their words
//! describe them; and some of our own for its Change 5.

use crate::draft::{Draft, Edge, Limit, NO_UPPER};

/// The bytes of an automaton, by the name of its file in examples/.
type Named = (&'static str, Vec<u8>);

fn edge(from: u8, to: u8, reset: u8, guard: &[Limit]) -> Edge {
    Edge {
        from,
        to,
        reset,
        guard: guard.to_vec(),
    }
}

/// What 01 assumes unless said otherwise, with a guard and a reset byte for the only edge.
fn usual(guard: Limit, reset: u8) -> Draft {
    Draft {
        start: 0,
        target: 1,
        invariants: vec![vec![(0, 5)], vec![(0, 9)]],
        edges: vec![edge(0, 1, reset, &[guard])],
    }
}

/// A usual automaton after one change.
fn but(mut draft: Draft, change: impl Fn(&mut Draft)) -> Vec<u8> {
    change(&mut draft);
    draft.bytes()
}

pub fn with_byte(bytes: &[u8], at: usize, value: u8) -> Vec<u8> {
    let mut changed = bytes.to_vec();
    changed[at] = value;
    changed
}

fn wheel() -> Vec<u8> {
    let exact = (1, 1);
    let free = (0, NO_UPPER);
    let draft = Draft {
        start: 0,
        target: 2,
        invariants: vec![vec![(0, 1); 2], vec![(0, 1); 2], vec![(0, 2); 2]],
        edges: vec![
            edge(0, 1, 1, &[exact, free]),
            edge(1, 0, 2, &[free, exact]),
            edge(1, 2, 0, &[(1, NO_UPPER), free]),
        ],
    };
    draft.bytes()
}

/// All counts at their upper end: 63 edges lead on from location to location, the others stay at
/// the start.
fn largest() -> Vec<u8> {
    let free = [(0, NO_UPPER); 8];
    let onward = (0..63).map(|from| edge(from, from + 1, 255, &free));
    let staying = (63..256).map(|_| edge(0, 0, 255, &free));
    let draft = Draft {
        start: 0,
        target: 63,
        invariants: vec![vec![(0, 5); 8]; 64],
        edges: onward.chain(staying).collect(),
    };
    draft.bytes()
}

/// Document 01's cards A to K.
fn letters() -> Vec<Named> {
    let free = (0, NO_UPPER);
    let a = || usual((7, NO_UPPER), 0);
    let late = |d: &mut Draft| {
        d.edges.clear();
        d.invariants[0][0].0 = 2;
    };
    vec![
        ("A", a().bytes()),
        ("B", usual((5, NO_UPPER), 0).bytes()),
        ("C", but(usual((5, 3), 0), |d| d.invariants[0][0].1 = 9)),
        ("D", but(a(), |d| d.edges.clear())),
        ("E", but(a(), late)),
        ("E-start-is-target", but(Draft { target: 0, ..a() }, late)),
        ("F", usual((4, NO_UPPER), 1).bytes()),
        ("G", but(usual(free, 1), |d| d.invariants[1][0].0 = 3)),
        ("H", but(usual(free, 1), |d| d.edges[0].to = 0)),
        ("J", usual((7, NO_UPPER), 2).bytes()),
        ("J-nine-clocks", with_byte(&a().bytes(), 5, 9)),
        ("K", wheel()),
    ]
}

/// Document 02's Change 4: a start with 0 to 20, an edge back to itself with lo 1 that resets, and a
/// target with no edge into it.
fn looping() -> Named {
    let stays = |d: &mut Draft| {
        d.invariants[0][0].1 = 20;
        d.edges[0].to = 0;
    };
    ("looping", but(usual((1, NO_UPPER), 1), stays))
}

/// Five locations with 0 to 5, the last the target, and no resets. Location 1 is entered at 2 or more, then
/// by way of 2 at any time, then by way of 3 at 2 or more.
fn oldest() -> Vec<u8> {
    let (free, late) = ((0, NO_UPPER), (2, NO_UPPER));
    let edges = [
        (0, 1, late),
        (0, 2, free),
        (0, 3, free),
        (2, 1, free),
        (3, 1, late),
    ];
    let draft = Draft {
        start: 0,
        target: 4,
        invariants: vec![vec![(0, 5)]; 5],
        edges: edges.map(|(from, to, x)| edge(from, to, 0, &[x])).to_vec(),
    };
    draft.bytes()
}

/// Searches that drop zones. Before B's edge to the target, the one to be reached has an edge from 0 to 0
/// with lo 2, and one that resets.
fn dropping() -> Vec<Named> {
    let (free, late) = ((0, NO_UPPER), (2, NO_UPPER));
    let loops = [edge(0, 0, 0, &[late]), edge(0, 0, 1, &[free])];
    let before = |d: &mut Draft| d.edges = [&loops, &d.edges[..]].concat();
    vec![
        ("inside", but(usual(late, 0), |d| d.edges[0].to = 0)),
        ("oldest", oldest()),
        ("dropped-then-reached", but(usual((5, NO_UPPER), 0), before)),
    ]
}

/// At and past the ends of what a limit may be.
fn limits() -> Vec<Named> {
    const MOST: u32 = 1_000_000;
    let a = || usual((7, NO_UPPER), 0);
    let most = |d: &mut Draft| d.invariants = vec![vec![(0, MOST)]; 2];
    let invariant_lo = |d: &mut Draft| d.invariants[0][0].0 = MOST + 1;
    let invariant_hi = |d: &mut Draft| d.invariants[1][0].1 = MOST + 1;
    let without_hi = |d: &mut Draft| d.invariants[0][0].1 = NO_UPPER;
    vec![
        ("limit-1000000", but(usual((MOST, MOST), 0), most)),
        ("limit-1000001-invariant-lo", but(a(), invariant_lo)),
        ("limit-1000001-invariant-hi", but(a(), invariant_hi)),
        (
            "limit-1000001-guard-lo",
            usual((MOST + 1, NO_UPPER), 0).bytes(),
        ),
        ("limit-1000001-guard-hi", usual((7, MOST + 1), 0).bytes()),
        ("invariant-without-hi", but(a(), without_hi)),
    ]
}

/// At and past the ends of what a length or a count may be.
fn counts() -> Vec<Named> {
    let a = || usual((7, NO_UPPER), 0);
    let many_edges = |d: &mut Draft| d.edges = vec![d.edges[0].clone(); 257];
    let many_locations = |d: &mut Draft| d.invariants = vec![vec![(0, 5)]; 65];
    let alone = |d: &mut Draft| {
        d.target = 0;
        d.invariants.truncate(1);
        d.edges.clear();
    };
    vec![
        ("ten-bytes", a().bytes()[..10].to_vec()),
        ("edges-257", but(a(), many_edges)),
        ("locations-65", but(a(), many_locations)),
        ("smallest", but(a(), alone)),
        ("largest", largest()),
    ]
}

pub fn automata() -> Vec<Named> {
    [letters(), vec![looping()], dropping(), limits(), counts()].concat()
}

pub fn named(name: &str) -> Vec<u8> {
    let found = automata().into_iter().find(|(there, _)| *there == name);
    found.expect("an automaton of the documents").1
}
