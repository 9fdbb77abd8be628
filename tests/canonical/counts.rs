//! No edge, one, two, and as many as there can be: all alike, all different, rising, falling and in
//! between. The forms are known by how the automata are made.

use crate::automata::rising;
use crate::calls::{Call, Lent};
use crate::draft::Limit;
use crate::drawn::Dice;
use crate::forms::{joined, parts};
use crate::lengths::used;
use crate::tally::Tally;

const MOST: usize = 256;

/// Numbers of a store in which most of the searches end.
const STORE: usize = 12_000;

/// An automaton with its form, where the test knows that.
fn must(tally: &mut Tally, dice: &mut Dice, what: &str, automaton: &[u8], form: &[u8]) {
    let cache = [&[0, 0, 0, 5, 1], &vec![0; 17 + form.len()][..]].concat();
    let before = Lent::new(dice, &cache, automaton, STORE);
    for (length, reply) in [(form.len() - 1, 13), (form.len(), 0), (form.len() + 1, 0)] {
        let before = before.clone().forming(dice, length);
        let after = tally.must(what, Call::Canonical, &before, reply).lent;
        let right = match reply {
            0 => after.form[..form.len()] == *form && after.length == form.len() as u64,
            _ => after == before,
        };
        tally.check(right, || format!("{what}: the form of {automaton:02x?}"));
    }
    let left = tally.call(what, Call::Consult, &before);
    let right = match left.reply {
        0 => left.lent.cache[22..] == *form && used(&left.lent.cache) == cache.len(),
        number => number == 10 && left.lent.cache == cache,
    };
    tally.check(right, || format!("{what}: what is filed"));
}

fn backwards<'a>(edges: &[&'a [u8]]) -> Vec<&'a [u8]> {
    edges.iter().rev().copied().collect()
}

/// From the middle out, in turns to either side.
fn inside_out<'a>(edges: &[&'a [u8]]) -> Vec<&'a [u8]> {
    let (low, high) = edges.split_at(edges.len() / 2);
    let mut all = Vec::new();
    for (i, edge) in high.iter().enumerate() {
        all.push(*edge);
        all.extend(low.iter().rev().nth(i));
    }
    all
}

/// A rising automaton in three orders, and its first, middle and last edge alone, as many times.
fn orders(tally: &mut Tally, dice: &mut Dice, what: &str, form: &[u8]) {
    let (head, edges) = parts(form);
    let orders = [edges.clone(), backwards(&edges), inside_out(&edges)];
    for (turn, order) in orders.iter().enumerate() {
        let what = format!("{what}, order {turn}");
        must(tally, dice, &what, &joined(head, order), form);
    }
    for edge in [edges[0], edges[edges.len() / 2], edges[edges.len() - 1]] {
        let alike = joined(head, &vec![edge; edges.len()]);
        let what = format!("{what}, all alike");
        must(tally, dice, &what, &alike, &joined(head, &[edge]));
    }
}

/// The places of an edge at which bytes can differ: from, to, resets, and the last of each limit.
fn places(clocks: usize) -> Vec<(usize, usize)> {
    let mut places = vec![(0, 64), (1, 64), (2, 1 << clocks)];
    places.extend((0..2 * clocks).map(|limit| (6 + 4 * limit, MOST)));
    places
}

pub fn many(tally: &mut Tally) {
    let mut dice = Dice::new(11);
    for clocks in 1..=8 {
        for (place, most) in places(clocks) {
            let what = format!("{most} edges, {clocks} clocks, which differ at {place}");
            let form = rising(clocks, most, place);
            orders(tally, &mut dice, &what, &form);
        }
    }
}

/// None, one, and two, of which either is first or both are one. A later byte does not count.
pub fn few(tally: &mut Tally) {
    let mut dice = Dice::new(12);
    let edge = |ends: [u8; 3], limits: [Limit; 2]| {
        let numbers = limits.iter().flat_map(|(lo, hi)| [*lo, *hi]);
        [
            &ends[..],
            &numbers.flat_map(u32::to_be_bytes).collect::<Vec<_>>(),
        ]
        .concat()
    };
    let none = rising(2, 0, 2);
    must(tally, &mut dice, "no edge", &none, &none);
    let free = (0, u32::MAX);
    let edges = [
        edge([0, 1, 3], [free, free]),
        edge([1, 0, 0], [(0, 0), (0, 0)]),
        edge([0, 1, 0], [free, (1_000_000, 255)]),
        edge([0, 1, 0], [(255, 0), (0, 0)]),
        edge([0, 1, 0], [(256, 0), (0, 0)]),
        edge([0, 1, 3], [free, (0, 0x0f_42_40)]),
        edge([0, 1, 3], [free, (0, 0x0f_00_ff)]),
    ];
    // By hand: each before the next.
    let order = [2, 3, 4, 6, 5, 0, 1];
    for (i, a) in order.iter().enumerate() {
        let one = joined(&none, &[&edges[*a]]);
        must(tally, &mut dice, "one edge", &one, &one);
        let twice = joined(&none, &[&edges[*a], &edges[*a]]);
        must(tally, &mut dice, "one edge twice", &twice, &one);
        for b in &order[i + 1..] {
            let form = joined(&none, &[&edges[*a], &edges[*b]]);
            let other = joined(&none, &[&edges[*b], &edges[*a]]);
            must(tally, &mut dice, "two edges, rising", &form, &form);
            must(tally, &mut dice, "two edges, falling", &other, &form);
        }
    }
}
