//! The automata that caches are filled with and asked for.

use crate::draft::{Draft, Edge, Limit};
use crate::drawn::{self, Dice, Lean, Size};
use crate::forms;
use crate::oracle;
use crate::table::{self, named, with_byte};
use std::collections::BTreeSet;

/// Automata that are turned down, each with its number. Those made from A differ from it in a byte.
pub fn refused() -> Vec<(u32, Vec<u8>)> {
    let a = named("A");
    let mut all = vec![
        (1, Vec::new()),
        (1, a[..10].to_vec()),
        // Its length field does tell its ten bytes.
        (1, vec![0, 0, 0, 10, 1, 1, 1, 0, 0, 0]),
        (2, a[..37].to_vec()),
        (2, [&a[..], &[0]].concat()),
        (4, named("edges-257")),
        (4, named("locations-65")),
        (8, named("limit-1000001-invariant-lo")),
        (8, named("limit-1000001-invariant-hi")),
        (8, named("limit-1000001-guard-lo")),
        (8, named("limit-1000001-guard-hi")),
        (8, named("invariant-without-hi")),
    ];
    let changes: [(u32, &[(usize, u8)]); 6] = [
        (2, &[(3, 0x25), (3, 0x27), (0, 1)]),
        (3, &[(4, 0), (4, 2), (4, 255)]),
        (4, &[(5, 0), (5, 9), (6, 0), (6, 65), (9, 1)]),
        (5, &[(5, 2), (6, 1), (10, 0), (10, 2)]),
        (6, &[(7, 2), (8, 2), (27, 2), (28, 255)]),
        (7, &[(29, 2), (29, 0x81)]),
    ];
    for (number, bytes) in changes {
        let changed = bytes.iter().map(|&(at, value)| with_byte(&a, at, value));
        all.extend(changed.map(|automaton| (number, automaton)));
    }
    all
}

fn some_lean(dice: &mut Dice) -> Lean {
    dice.pick(&[Lean::Plain, Lean::Calm, Lean::Guarded, Lean::Wheel])
}

fn random(dice: &mut Dice) -> Vec<u8> {
    let lean = some_lean(dice);
    let size = Size::drawn(dice);
    match dice.range(0, 9) {
        0 => drawn::shortcut(dice).bytes(),
        1 => drawn::crowd(dice.range(2, 5) as usize, dice.range(1, 30) as usize).bytes(),
        _ => drawn::drawn(dice, lean, &size).bytes(),
    }
}

/// Keeps the first of several that are equal.
fn unique(automata: Vec<Vec<u8>>) -> Vec<Vec<u8>> {
    let mut seen = BTreeSet::new();
    let first = |automaton: &Vec<u8>| seen.insert(automaton.clone());
    automata.into_iter().filter(first).collect()
}

/// Different automata free of 1 to 8: document 01's and random ones.
pub fn accepted(dice: &mut Dice, count: usize) -> Vec<Vec<u8>> {
    let mut all: Vec<Vec<u8>> = table::automata()
        .into_iter()
        .map(|(_, bytes)| bytes)
        .collect();
    all.retain(|automaton| oracle::refusal(automaton).is_ok());
    all.extend((0..count).map(|_| random(dice)));
    unique(all)
}

/// Different automata of few bytes.
pub fn small(dice: &mut Dice, count: usize) -> Vec<Vec<u8>> {
    let mut all = Vec::new();
    while all.len() < count {
        let size = Size {
            clocks: dice.range(1, 2),
            locations: dice.range(1, 2),
            edges: dice.range(0, 3),
        };
        let lean = some_lean(dice);
        all.push(drawn::drawn(dice, lean, &size).bytes());
        all = unique(all);
    }
    all
}

/// Their canonical forms, each once.
pub fn forms(automata: &[Vec<u8>]) -> Vec<Vec<u8>> {
    unique(automata.iter().map(|a| forms::form(a)).collect())
}

/// The same but for order and repeats of edges: each stands at least once, and at most so many are
/// repeats, as far as there can be.
pub fn repeating(dice: &mut Dice, automaton: &[u8], most: usize) -> Vec<u8> {
    let form = forms::form(automaton);
    let (head, mut edges) = forms::parts(&form);
    let different = edges.len();
    let repeats = if different > 0 {
        dice.below(most + 1).min(256 - different)
    } else {
        0
    };
    for _ in 0..repeats {
        edges.push(edges[dice.below(different)]);
    }
    for end in (1..edges.len()).rev() {
        edges.swap(end, dice.below(end + 1));
    }
    forms::joined(head, &edges)
}

/// The same with few repeats.
pub fn shuffled(dice: &mut Dice, automaton: &[u8]) -> Vec<u8> {
    repeating(dice, automaton, 7)
}

/// A form whose edges differ in their first lo, so that they rise, and the last also in its other
/// limits.
pub fn long(clocks: usize, edges: usize, last: Limit) -> Draft {
    let edge = |lo: usize, limit: Limit| {
        let mut guard = vec![limit; clocks];
        guard[0].0 = lo as u32;
        Edge {
            from: 0,
            to: 1,
            reset: 0,
            guard,
        }
    };
    let mut all: Vec<Edge> = (0..edges).map(|lo| edge(lo, (3, 600))).collect();
    all.push(edge(edges, last));
    Draft {
        start: 0,
        target: 2,
        invariants: vec![vec![(0, 700); clocks]; 3],
        edges: all,
    }
}

/// A form whose edges differ in one byte alone, which rises from 0: the from, the to, the resets,
/// or the last byte of a limit.
pub fn rising(clocks: usize, edges: usize, place: usize) -> Vec<u8> {
    let locations = if place < 2 { 64 } else { 2 };
    let draft = Draft {
        start: 0,
        target: locations - 1,
        invariants: vec![vec![(0, 700); clocks]; usize::from(locations)],
        edges: Vec::new(),
    };
    let mut all = vec![0; edges * (3 + 8 * clocks)];
    let mut each: Vec<&mut [u8]> = all.chunks_mut(3 + 8 * clocks).collect();
    for (number, edge) in each.iter_mut().enumerate() {
        edge[place] = number as u8;
    }
    let each: Vec<&[u8]> = each.into_iter().map(|edge| &*edge).collect();
    forms::joined(&draft.bytes(), &each)
}

/// The longest form: document 01's largest automaton with edges that all differ.
pub fn longest() -> Vec<u8> {
    let mut largest = named("largest");
    let first_edge = forms::parts(&largest).0.len();
    for (hi, edge) in largest[first_edge..].chunks_mut(67).skip(63).enumerate() {
        edge[7..11].copy_from_slice(&(hi as u32).to_be_bytes());
    }
    forms::form(&largest)
}
